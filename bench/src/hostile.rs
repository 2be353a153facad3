//! Registries, files, tables and states as they should not come: for the differential test.

use crate::header::STATE_WORDS;
use crate::kilnsorrel::layout;
use crate::reference::calendar::{day_date, intervals, DAYS_END};
use crate::reference::{CELL_WORDS, CLOCK, COUNT, DATE, MARKS, MAX_TAKEN, VALUES};
use crate::rng::Rng;
use crate::sample::{self, duns, padded, Meter, Values, World, DIGITS};
use std::collections::BTreeSet;

/// Bytes that rows are made of, their neighbours, and some that differ from them by one bit.
const BYTES: &[u8] =
    b"0123456789,.-AEMYNCSTxz \r\n\x0b\x0c/:@[`{=+\0\x01\x7f\x8a\xac\xae\xb0\xb9\xc1\xff";

const LETTERS: &[u8] = b"0123456789ABCDEFGHIJKLMNOPQRSTUVWXYZabcdefghijklmnopqrstuvwxyz";

// ---- Registries ----

/// ESI IDs of every length, some of them the beginning of others.
fn some_ids(rng: &mut Rng, n: usize) -> BTreeSet<Vec<u8>> {
    let stem = rng.bytes(64, LETTERS);
    let mut ids = BTreeSet::new();
    while ids.len() < n {
        let mut id = stem[..rng.below(65)].to_vec();
        let n = rng.pick(&[0, 1, 2, 17, 64]);
        id.extend(rng.bytes(n, LETTERS));
        id.truncate(64);
        if !id.is_empty() {
            ids.insert(id);
        }
    }
    ids
}

/// A small registry, now and then a large one, around days that matter or any day.
pub fn world(rng: &mut Rng) -> World {
    const DATES: &[u32] = &[20080305, 20081030, 20080510, 20070101, 20991231, 20080228, 20991029];
    let any = day_date(rng.below(DAYS_END as usize) as u32);
    let date = if rng.one_in(3) { any } else { rng.pick(DATES) };
    let days = if rng.one_in(10) { 1 + rng.below(62) } else { 1 + rng.below(8) };
    let mut w = World::of_window(date, 1);
    w.days = (days as u32).min(DAYS_END - w.first);
    w.registry[9..11].copy_from_slice(format!("{:02}", w.days).as_bytes());
    let n = match rng.below(60) {
        0 => 1000,
        1..5 => 0,
        5..15 => 6 + rng.below(30),
        _ => 1 + rng.below(5),
    };
    let owners: Vec<Vec<u8>> = (0..3).map(|_| duns(rng)).collect();
    let mut owner = &owners[0];
    w.add_owner(owner);
    for id in some_ids(rng, n.min(2000 / w.days as usize)) {
        while rng.one_in(3) {
            owner = &owners[rng.below(3)]; // maybe one without meters, or the same again
            w.add_owner(owner);
        }
        let flags = if rng.one_in(4) { rng.below(8) as u8 } else { 6 };
        w.add_meter(id, owner.clone(), flags);
    }
    w
}

/// A registry with up to two changes; it may still be sound.
pub fn registry(rng: &mut Rng, registry: &[u8]) -> Vec<u8> {
    const ENTRIES: &[&[u8]] = &[
        b"\x02123456789    ",
        b"\x021234567890123",
        b"\x021234567890   ",
        b"\x022234567 9    ",
        b"\x02 123456789   ",
        b"\x012008051001",
        b"\x01",
        b"\x02",
        b"\x03",
        b"\x04",
        b"\0",
        b" ",
    ];
    let mut r = registry.to_vec();
    for _ in 0..1 + rng.below(2) {
        let at = rng.below(r.len() + 1);
        match rng.below(7) {
            0 => r.truncate(at),
            1 => drop(r.splice(at..at, rng.pick(ENTRIES).iter().copied())),
            2 => r.extend(rng.pick(ENTRIES)),
            3 if at < r.len() => r[at] = rng.pick(b" 09azAZ@[`{/:\x01\x02\x03\x07\x08\0\x80\xb0"),
            4 if r.len() >= 11 => r[1 + at % 10] = rng.pick(b"0123456789 a"),
            5 => {
                let n = 1 + rng.below(64);
                r.push(3);
                r.extend(padded(&rng.bytes(n, LETTERS), 64));
                r.push(rng.below(9) as u8);
            }
            _ => drop(r.splice(at..(at + 66).min(r.len()), [])),
        }
    }
    r
}

// ---- Files ----

/// One byte more, less or other; or the line's end cut or added to.
fn change_bytes(rng: &mut Rng, line: &mut Vec<u8>) {
    let at = rng.below(line.len() + 1);
    match rng.below(5) {
        0 => line.insert(at, rng.pick(BYTES)),
        1 if at < line.len() => drop(line.remove(at)),
        2 if at < line.len() => line[at] = rng.pick(BYTES),
        3 => line.truncate(at),
        _ => {
            let n = 1 + rng.below(2);
            line.extend(rng.bytes(n, BYTES));
        }
    }
}

fn fields(line: &[u8]) -> Vec<Vec<u8>> {
    line.split(|b| *b == b',').map(<[u8]>::to_vec).collect()
}

/// One field more, less or other, so that the fields behind it are reached.
fn change_field(rng: &mut Rng, line: &mut Vec<u8>) {
    const TEXTS: &str = "|0|1|4|-1|48|47|00|047|0000|0001|10000|A|E|a|AE|X| |M|Z|Y|N|CST|900|01|\
        0.0|0.00000|123456789012345.1234|1234567890123456|20080229000000|20070229000000|\
        20080309000000|20080310235900|20061231000000|20991231235900|21000101000000|20080310240000|\
        20080310236000|2008031023590|200803102359000|20081301000000|20080100000000|MRE=123456789|\
        MRE=1234567890|MRE=1234567890123|Sender=123456789|Sender=1234567890123|REP=|REP=12345678|\
        REP=123456789|REP=1234567890123|Receiver=183529049|Receiver=183529048|00000001|00000002|\
        ATTRIBUTE_VALUE_PAIRS|10000000|10000023|10000024|1000000|100000000|000000011";
    let mut f = fields(line);
    let i = rng.below(f.len());
    match rng.below(8) {
        0 => drop(f.remove(i)),
        1 => f.insert(i, vec![]),
        2 => {
            let n = rng.pick(&[62, 64, 65, 80, 81, 150, 191, 192, 200]);
            f[i] = rng.bytes(n, LETTERS);
        }
        3 => f[i] = odd_value(rng),
        _ => {
            let texts: Vec<&str> = TEXTS.split('|').collect();
            f[i] = rng.pick(&texts).as_bytes().to_vec();
        }
    }
    *line = f.join(&b","[..]);
}

/// A value that is right or nearly so.
pub fn odd_value(rng: &mut Rng) -> Vec<u8> {
    const VALUES: &str = "-1.5|-|-.|.2948|1.2500|1000000.1234|1000000.123|1000000|1.|.||\
        1..2345|1.2345a| 69.47|69.47 |1e3|+1|0123456.1|012345.123|12.34.5|12345678901.12345|\
        1.23456789012|9999999999|12345678|999999.999|123456.789|1234.567|12345.67|0|.1|123456|\
        00.00|000000.000|0000000|1234567.1|1.-2|..|.-1";
    match rng.below(4) {
        0 => {
            let (a, b) = (rng.below(9), rng.below(6));
            let mut v = rng.bytes(a, DIGITS);
            if rng.one_in(4) {
                return v;
            }
            v.push(b'.');
            v.extend(rng.bytes(b, DIGITS));
            v
        }
        1 => {
            let mut v = sample::value(rng, Values::EveryLength).into_bytes();
            change_bytes(rng, &mut v);
            v
        }
        _ => {
            let values: Vec<&str> = VALUES.split('|').collect();
            rng.pick(&values).as_bytes().to_vec()
        }
    }
}

const TIMES: &str = "20080309000000|20080309235900|20080309235959|20080308235900|20080310000000|\
    20080310235900|20080309235958|20080309235960|20080308235959|20080310235959|20080309000001|\
    20081102000000|20081102235900|20070101000000|20991231000000|\
    20991231235900|20061231235900|21000101000000|20080229000000|20070229000000|20081301000000|\
    20080001000000|20080400000000|20080431000000|20080309240000|20080309236000|20080309235960|\
    2008030900000|200803090000000|2008030900000a|";

const DECIMALS: &str = "|0|0.0|123456789012345.1234|000000000000000.0000|1234567890123456|1.12345|\
    12345678901234.5|1234567890123456.1|.5|5.|.|1.2.3|-1|+1|a|1a|1.a| 1";

/// Texts that are right for a field of a header row, or nearly so: row and field from 0.
pub const NEAR: &[(usize, usize, &str)] = &[
    (0, 2, "1|4|0|2|14|44|"),
    (0, 3, TIMES),
    (0, 4, TIMES),
    (0, 5, "Y|N|y|YY|"),
    (0, 6, "N|Y|n|NN|"),
    (1, 1, DECIMALS),
    (1, 2, DECIMALS),
    (1, 3, DECIMALS),
    (1, 4, "|0"),
    (1, 5, DECIMALS),
    (1, 6, "|0"),
    (1, 7, "900|901|0900|90|"),
    (1, 8, "01|1|00|001|"),
    (1, 9, "|0|0000|0001|9999|10000|1|00000|00001|1a"),
    (1, 10, "|-1|0|9|47|48|00|047|-0|-01|-2|07|99|4a|-|100"),
    (1, 11, DECIMALS),
    (1, 12, DECIMALS),
    (1, 13, "CST|cst|CS|CSTT|EST|"),
    (3, 1, TIMES),
    (3, 2, "M|Z|m|MM|"),
    (4, 1, "ATTRIBUTE_VALUE_PAIRS|ATTRIBUTE_VALUE_PAIR|ATTRIBUTE_VALUE_PAIRSS|"),
    (
        4,
        2,
        "MRE=123456789|MRE=1234567890123|MRE=12345678|MRE=1234567890|MRE=12345678901234|MRE=|MRE|",
    ),
    (
        4,
        3,
        "Sender=123456789|Sender=1234567890123|Sender=12345678|Sender=1234567890|Sender=|sender=1",
    ),
    (4, 4, "Receiver=183529049|Receiver=183529048|Receiver=1835290490000|Receiver=|Receiver"),
    (4, 5, "REP=|REP=123456789|REP=1234567890123|REP=12345678|REP=1234567890|REP=12345678a|REP|"),
];

/// Puts another text in a field of a line, if it has so many.
pub fn put_field(line: &mut Vec<u8>, field: usize, text: &[u8]) {
    let mut f = fields(line);
    if field < f.len() {
        f[field] = text.to_vec();
        *line = f.join(&b","[..]);
    }
}

/// A right or nearly right text in some field of a header row.
fn change_header(rng: &mut Rng, lines: &mut [Vec<u8>]) {
    if rng.one_in(6) {
        // ESI ID or descriptor
        let (row, most) = rng.pick(&[(0, 64), (2, 80)]);
        let n = rng.pick(&[1, most - 1, most, most + 1]);
        let mut name = rng.bytes(n, LETTERS);
        if rng.one_in(2) {
            name[rng.below(n)] = rng.pick(BYTES);
        }
        return put_field(&mut lines[row], 1, &name);
    }
    let (row, field, texts) = rng.pick(NEAR);
    let texts: Vec<&str> = texts.split('|').collect();
    put_field(&mut lines[row], field, rng.pick(&texts).as_bytes());
}

/// A line lost, doubled, moved, made long, or changed inside.
fn change_lines(rng: &mut Rng, lines: &mut Vec<Vec<u8>>) {
    let n = lines.len();
    if n == 0 {
        return;
    }
    let i = if rng.one_in(2) { rng.below(n.min(5)) } else { rng.below(n) };
    match rng.below(14) {
        0 => drop(lines.remove(i)),
        1 => lines.insert(i, lines[i].clone()),
        2 => lines.insert(i, vec![]),
        3 => lines.truncate(i),
        4 => lines.swap(i, rng.below(n)),
        5 => {
            // a surplus row
            let mut line = lines[n - 1].clone();
            if line.len() > 7 {
                line[7] = rng.pick(DIGITS);
            }
            lines.push(line);
        }
        6 => {
            let n = 195 + rng.below(10);
            lines[i].resize(n, rng.pick(b",0A\r"));
        }
        7 => {
            // a broken sort code
            let at = rng.below(8);
            if at < lines[i].len() {
                lines[i][at] = rng.pick(b"0123456789,");
            }
        }
        8..11 => change_bytes(rng, &mut lines[i]),
        _ => change_field(rng, &mut lines[i]),
    }
}

/// Lines of no record; now and then very many, for very many entries.
fn strays(rng: &mut Rng) -> Vec<Vec<u8>> {
    const LINES: &[&[u8]] = &[
        b"hello",
        b"",
        b"10000000,1,A,,",
        b"100000",
        b"10000",
        b"00000002,,",
        b"\r",
        b" ",
        b"00000001",
        b"000000019",
    ];
    let n = if rng.one_in(20) { rng.below(900) } else { rng.below(4) };
    let mut lines = vec![];
    for _ in 0..n {
        let mut line = rng.pick(LINES).to_vec();
        if rng.one_in(4) {
            change_bytes(rng, &mut line);
        }
        lines.push(line);
    }
    lines
}

/// A stamp of a few, so that equal, earlier and later ones meet.
fn stamp(rng: &mut Rng) -> (u32, u32) {
    (20090301 + rng.below(3) as u32, rng.below(3) as u32 * 10000)
}

/// A record of the registry's, or nearly so, still well formed.
fn some_record(rng: &mut Rng, w: &World) -> Vec<Vec<u8>> {
    let unknown = Meter { esi: b"UNKNOWN".to_vec(), owner: b"123456789".to_vec(), flags: 6 };
    let known = if w.meters.is_empty() { &unknown } else { &w.meters[rng.below(w.meters.len())] };
    let mut meter =
        Meter { esi: known.esi.clone(), owner: known.owner.clone(), flags: known.flags };
    if rng.one_in(25) {
        change_bytes(rng, &mut meter.esi);
    }
    if rng.one_in(25) {
        meter.owner = duns(rng);
    }
    let mut day = w.first as i64 + rng.below(w.days as usize) as i64;
    if rng.one_in(12) {
        day += rng.below(9) as i64 - 4;
    }
    let day = day.clamp(0, DAYS_END as i64 - 1) as u32;
    let (date, clock) = stamp(rng);
    let values = rng.pick(&[Values::Usual, Values::EveryLength]);
    let channel = rng.pick(b"41");
    let stamp = format!("{date:08}{clock:06}");
    let mut lines = sample::record(rng, &meter, channel, day, &stamp, values);
    if rng.one_in(3) {
        sample::stop_late(&mut lines[0]);
    }
    lines
}

/// A record, right or with changes of one kind or another.
fn changed_record(rng: &mut Rng, w: &World) -> Vec<Vec<u8>> {
    let mut lines = some_record(rng, w);
    if rng.one_in(4) {
        for _ in 0..1 + rng.below(3) {
            change_header(rng, &mut lines);
        }
    }
    if rng.one_in(6) {
        let i = 5 + rng.below(lines.len() - 5);
        let at = 1 + 3 * rng.below(4);
        let status = rng.pick(&["X", "", "a", "AE", "A ", "I", "D", "E"]);
        match rng.below(3) {
            0 => put_field(&mut lines[i], at + 1, status.as_bytes()),
            _ => put_field(&mut lines[i], at, &odd_value(rng)),
        }
    }
    if rng.one_in(3) {
        for _ in 0..1 + rng.below(2) {
            change_lines(rng, &mut lines);
        }
    }
    lines
}

/// A file of so many records and stray runs.
pub fn file(rng: &mut Rng, w: &World, units: usize) -> Vec<u8> {
    let mut out = Vec::new();
    let crs = rng.below(3); // 0 never, 1 always, 2 mixed
    for _ in 0..units {
        let lines = if rng.one_in(8) { strays(rng) } else { changed_record(rng, w) };
        for line in lines {
            out.extend(line);
            if crs == 1 || (crs == 2 && rng.one_in(2)) {
                out.push(b'\r');
            }
            out.push(b'\n');
        }
    }
    if rng.one_in(3) {
        let n = rng.below(60).min(out.len());
        out.truncate(out.len() - n);
    }
    if rng.one_in(10) {
        out.push(b'\r');
    }
    out
}

// ---- Tables ----

/// A sound read of a day.
fn sound_cell(rng: &mut Rng, cell: &mut [u32], day: u32) {
    let n = intervals(day_date(day), day) as usize;
    cell.fill(0);
    cell[COUNT] = n as u32;
    (cell[DATE], cell[CLOCK]) = stamp(rng);
    let top = rng.pick(&[1, 1000, 100_000, 1_000_000_000]);
    let marked = rng.pick(&[1, 2, 1000]);
    for i in 0..n {
        cell[VALUES + i] = rng.below(top) as u32;
        cell[MARKS + i / 32] |= (rng.one_in(marked) as u32) << (i % 32);
    }
}

/// A cell of any words, with the count that a read might have.
fn any_cell(rng: &mut Rng, cell: &mut [u32]) {
    cell.fill_with(|| rng.word() as u32);
    cell[COUNT] = rng.pick(&[0, 0, 92, 96, 100, 7]);
    if rng.one_in(2) {
        (cell[DATE], cell[CLOCK]) = stamp(rng);
    }
}

/// A table to start with: cleared, or with some cells of any words, sound reads, or both. Up to two
/// words stand past the last cell.
pub fn table(rng: &mut Rng, w: &World) -> Vec<u32> {
    let mut table = vec![0; w.words() + rng.below(3)];
    let (any, sound) = rng.pick(&[(0, 0), (3, 0), (0, 2), (4, 3)]);
    for (i, cell) in table.chunks_exact_mut(CELL_WORDS).take(w.cells()).enumerate() {
        if any > 0 && rng.one_in(any) {
            any_cell(rng, cell);
        } else if sound > 0 && rng.one_in(sound) {
            sound_cell(rng, cell, w.first + i as u32 % w.days);
        }
    }
    table[w.words()..].fill_with(|| rng.word() as u32);
    table
}

/// Changes a few words of a cell, some so that it stays sound.
pub fn spoil(rng: &mut Rng, cell: &mut [u32]) {
    for _ in 0..1 + rng.below(2) {
        let any = rng.below(CELL_WORDS);
        // The last marks, and the values about the last one of a day.
        let [m, v] = [MARKS + 2, VALUES + 91];
        let i = rng.pick(&[COUNT, DATE, CLOCK, m, m + 1, v, v + 1, v + 4, v + 5, v + 8, any]);
        let w = cell[i];
        let flipped = w ^ 1 << rng.below(32);
        cell[i] = match i {
            COUNT => rng.pick(&[0, 92, 96, 100, flipped]),
            DATE => rng.pick(&[20061231, 20070229, 20070101, 20991231, 21000101, w, flipped]),
            CLOCK => rng.pick(&[235959, 240000, 236000, 235960, 0, w, flipped]),
            _ => rng.pick(&[0, 1, 999_999_999, 1_000_000_000, flipped]),
        };
    }
}

// ---- States ----

/// Any words, with counts that may pass refusal 1.
pub fn any_state(rng: &mut Rng) -> [u32; STATE_WORDS] {
    let mut s = [0; STATE_WORDS];
    s.fill_with(|| rng.word() as u32);
    s[..layout::HELD].fill_with(|| rng.pick(BYTES) as u32);
    let most = layout::LINE_BYTES as u32;
    s[layout::HELD] = rng.pick(&[0, 1, 45, most - 1, most, most, most + 1]);
    s[layout::HELD + 1] = 0;
    s[layout::TAKEN] = rng.pick(&[1000, 1_000_000, MAX_TAKEN as u32 - 50, MAX_TAKEN as u32]);
    s[layout::TAKEN + 1] = 0;
    s[layout::LINES] = rng.pick(&[0, 1, 999, 1000, 1001]);
    s[layout::UNIT] = rng.pick(&[0, 1, 1, 2, 2, 3, 4, u32::MAX]);
    for i in layout::UNIT + 2..layout::ESI {
        let near = rng.below(32) as u32;
        s[i] = rng.pick(&[near, near, 96, 999, 1000, 65535, 65536, s[i]]);
    }
    s
}

/// Changes up to four words of a state.
pub fn change_state(rng: &mut Rng, s: &mut [u32; STATE_WORDS]) {
    for _ in 0..1 + rng.below(4) {
        let counts = layout::HELD + rng.below(layout::ESI - layout::HELD);
        let i = if rng.one_in(3) { rng.below(STATE_WORDS) } else { counts };
        let near = s[i].wrapping_add(rng.below(5) as u32).wrapping_sub(2);
        s[i] = rng.pick(&[0, 1, 2, 25, 29, 30, 201, 202, near, near, u32::MAX, MAX_TAKEN as u32]);
    }
}

/// A state that takes rows, with up to 25 detail rows read, and a piece with those due next, past
/// the day's last and past the 25th too.
pub fn rows_due(rng: &mut Rng) -> ([u32; STATE_WORDS], Vec<u8>) {
    let mut s = any_state(rng);
    let k = rng.pick(&[0, 10, 22, 23, 24, 25]);
    s[layout::HELD] = 0;
    s[layout::TAKEN] = 1_000_000;
    s[layout::UNIT] = 1;
    s[layout::UNIT + 2] = 4 + k;
    s[layout::UNIT + 3] = rng.pick(&[0, k, k + 1, k + 2, 23, 24, 25, 26, 27, u32::MAX]);
    let mut piece = Vec::new();
    for row in 10000000 + k..10000000 + k + 8 {
        let [a, b, c, d] = [(); 4].map(|_| sample::value(rng, Values::Usual));
        piece.extend(format!("{row},{a},A,,{b},E,,{c},A,,{d},E,,\n").bytes());
    }
    (s, piece)
}
