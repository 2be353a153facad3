//! Document 01's plain loader, word for word: simple and slow. It shares no code with the fast
//! loader, not even the calendar.

use crate::header::CELL_WORDS;
use crate::Entry;

const MAX_TAKEN: usize = 200_000_000;

// ---- The calendar, by counting ----

fn leap(y: u32) -> bool {
    (y % 4 == 0 && y % 100 != 0) || y % 400 == 0
}

fn month_days(y: u32, m: u32) -> u32 {
    let february = if leap(y) { 29 } else { 28 };
    [31, february, 31, 30, 31, 30, 31, 31, 30, 31, 30, 31][m as usize - 1]
}

/// A real date of 2007 to 2099 as its day number.
pub fn number_of(y: u32, m: u32, d: u32) -> Option<u32> {
    if !(2007..=2099).contains(&y) || !(1..=12).contains(&m) || d < 1 || d > month_days(y, m) {
        return None;
    }
    let mut n = 0;
    for yy in 2007..y {
        n += if leap(yy) { 366 } else { 365 };
    }
    for mm in 1..m {
        n += month_days(y, mm);
    }
    Some(n + d - 1)
}

/// The date with a day number.
fn date_of(number: u32) -> (u32, u32, u32) {
    let (mut y, mut m, mut d) = (2007, 1, number + 1);
    while d > month_days(y, m) {
        d -= month_days(y, m);
        m += 1;
        if m > 12 {
            (y, m) = (y + 1, 1);
        }
    }
    (y, m, d)
}

/// Intervals of a date: which Sunday of the month it is is found by counting.
pub fn intervals_of(y: u32, m: u32, d: u32) -> u32 {
    let is_sunday = |d: &u32| number_of(y, m, *d).unwrap() % 7 == 6;
    let sundays = (1..=d).filter(is_sunday).count();
    match (m, sundays, is_sunday(&d)) {
        (3, 2, true) => 92,
        (11, 1, true) => 100,
        _ => 96,
    }
}

// ---- Texts ----

fn is_digits(s: &[u8]) -> bool {
    s.iter().all(|b| b.is_ascii_digit())
}

fn to_number(s: &[u8]) -> u64 {
    s.iter().fold(0, |n, b| n * 10 + (*b - b'0') as u64)
}

/// A time: (date, clock).
fn time_of(s: &[u8]) -> Option<(u32, u32)> {
    if s.len() != 14 || !is_digits(s) {
        return None;
    }
    let part = |a: usize, b: usize| to_number(&s[a..b]) as u32;
    number_of(part(0, 4), part(4, 6), part(6, 8))?;
    if part(8, 10) > 23 || part(10, 12) > 59 || part(12, 14) > 59 {
        return None;
    }
    Some((part(0, 8), part(8, 14)))
}

fn unpadded(s: &[u8]) -> Vec<u8> {
    let mut v = s.to_vec();
    while v.last() == Some(&b' ') {
        v.pop();
    }
    v
}

fn duns_ok(s: &[u8]) -> bool {
    (s.len() == 9 || s.len() == 13) && is_digits(s)
}

fn name_ok(s: &[u8], max: usize) -> bool {
    !s.is_empty() && s.len() <= max && s.iter().all(|b| b.is_ascii_alphanumeric())
}

// ---- The registry ----

#[derive(Clone)]
struct Meter {
    esi: Vec<u8>,
    owner: Vec<u8>,
    flags: u8,
}

/// A registry that breaks no rule.
pub struct Registry {
    first: u32,
    days: u32,
    meters: Vec<Meter>,
}

/// The bytes as entries, kind and body.
fn entries_of(bytes: &[u8]) -> Option<Vec<(u8, &[u8])>> {
    let mut entries = Vec::new();
    let mut rest = bytes;
    while let Some((kind, behind)) = rest.split_first() {
        let len = match kind {
            1 => 10,
            2 => 13,
            3 => 65,
            _ => return None,
        };
        if behind.len() < len {
            return None;
        }
        let (body, next) = behind.split_at(len);
        entries.push((*kind, body));
        rest = next;
    }
    Some(entries)
}

/// First day number and number of days.
fn window_of(body: &[u8]) -> Option<(u32, u32)> {
    if !is_digits(body) {
        return None;
    }
    let part = |a: usize, b: usize| to_number(&body[a..b]) as u32;
    let first = number_of(part(0, 4), part(4, 6), part(6, 8))?;
    let days = part(8, 10);
    let end = number_of(2099, 12, 31).unwrap();
    ((1..=62).contains(&days) && first + days - 1 <= end).then_some((first, days))
}

impl Registry {
    /// None where a rule is broken.
    pub fn of(bytes: &[u8]) -> Option<Registry> {
        let entries = entries_of(bytes)?;
        let ((kind, body), rest) = entries.split_first()?;
        if *kind != 1 || rest.iter().any(|(kind, _)| *kind == 1) {
            return None;
        }
        let (first, days) = window_of(body)?;
        let mut owner: Option<Vec<u8>> = None;
        let mut meters: Vec<Meter> = Vec::new();
        for (kind, body) in rest {
            if *kind == 2 {
                owner = Some(unpadded(body));
                if !duns_ok(owner.as_ref()?) {
                    return None;
                }
            } else {
                let esi = unpadded(&body[..64]);
                let ascends = meters.last().is_none_or(|last| last.esi < esi);
                if !name_ok(&esi, 64) || body[64] > 7 || !ascends {
                    return None;
                }
                meters.push(Meter { esi, owner: owner.clone()?, flags: body[64] });
            }
        }
        (meters.len() <= 1000).then_some(Registry { first, days, meters })
    }

    /// The words that its cells take.
    fn words(&self) -> usize {
        self.meters.len() * 2 * self.days as usize * CELL_WORDS
    }
}

// ---- Rows ----

fn cut(line: &[u8]) -> Vec<&[u8]> {
    line.split(|b| *b == b',').collect()
}

/// A value in watt hours, or its verdict.
fn value_of(s: &[u8]) -> Result<u32, u32> {
    if s.first() == Some(&b'-') {
        return Err(19);
    }
    let parts: Vec<&[u8]> = s.split(|b| *b == b'.').collect();
    let good = parts.iter().all(|p| is_digits(p));
    if good && parts.len() == 2 && parts[1].len() >= 4 {
        return Err(20);
    }
    if !good || parts.len() > 2 || parts[0].len() > 6 {
        return Err(21);
    }
    if parts[parts.len() - 1].is_empty() {
        return Err(21); // nothing, or nothing behind the point
    }
    let mut decimals = parts.get(1).map_or(vec![], |p| p.to_vec());
    while decimals.len() < 3 {
        decimals.push(b'0');
    }
    Ok((to_number(parts[0]) * 1000 + to_number(&decimals)) as u32)
}

fn decimal_ok(s: &[u8]) -> bool {
    let parts: Vec<&[u8]> = s.split(|b| *b == b'.').collect();
    parts.iter().all(|p| is_digits(p))
        && (1..=15).contains(&parts[0].len())
        && (parts.len() == 1 || (parts.len() == 2 && (1..=4).contains(&parts[1].len())))
}

/// The code due of row n (from 0) and its number of fields.
fn form(n: usize) -> (String, usize) {
    match n {
        0 => ("00000001".into(), 7),
        1 => ("00000002".into(), 14),
        2 => ("00000003".into(), 2),
        3 => ("00000004".into(), 3),
        4 => ("00000030".into(), 6),
        _ => (format!("{}", 10000000 + n - 5), 14),
    }
}

/// Verdict of a line (CR dropped) as row n; 0 where it has no error.
fn row_verdict(line: &[u8], long: bool, n: usize) -> u32 {
    if long {
        return 11;
    }
    let f = cut(line);
    let (code, count) = form(n);
    if f[0] != code.as_bytes() {
        return 13;
    }
    if f.len() != count {
        return 14;
    }
    let all = |good: bool| if good { 0 } else { 15 };
    match n {
        0 => one_verdict(&f),
        1 => all(two_ok(&f)),
        2 => all(name_ok(f[1], 80)),
        3 => all(time_of(f[1]).is_some() && f[2] == b"M"),
        4 => all(thirty_ok(&f)),
        _ => detail_verdict(&f),
    }
}

fn one_verdict(f: &[&[u8]]) -> u32 {
    if !name_ok(f[1], 64)
        || (f[2] != b"1" && f[2] != b"4")
        || time_of(f[3]).is_none()
        || time_of(f[4]).is_none()
        || f[5] != b"Y"
        || f[6] != b"N"
    {
        return 15;
    }
    if to_number(f[3]) >= to_number(f[4]) {
        return 16;
    }
    let stops = &f[4][8..] == b"235900" || &f[4][8..] == b"235959";
    if &f[3][8..] != b"000000" || !stops || f[3][..8] != f[4][..8] {
        return 17;
    }
    0
}

fn two_ok(f: &[&[u8]]) -> bool {
    let empty_or_decimal = |s: &[u8]| s.is_empty() || decimal_ok(s);
    let ten = |s: &[u8]| is_digits(s) && s.len() <= 4 && to_number(s) != 0;
    let eleven = |s: &[u8]| s == b"-1" || (is_digits(s) && s.len() <= 2 && to_number(s) <= 47);
    empty_or_decimal(f[1])
        && empty_or_decimal(f[2])
        && empty_or_decimal(f[3])
        && !(f[3].is_empty() && !f[1].is_empty() && !f[2].is_empty())
        && f[4].is_empty()
        && empty_or_decimal(f[5])
        && f[6].is_empty()
        && f[7] == b"900"
        && f[8] == b"01"
        && (f[9].is_empty() || ten(f[9]))
        && (f[10].is_empty() || eleven(f[10]))
        && empty_or_decimal(f[11])
        && empty_or_decimal(f[12])
        && f[13] == b"CST"
}

fn thirty_ok(f: &[&[u8]]) -> bool {
    let tagged = |s: &[u8], tag: &[u8]| s.strip_prefix(tag).is_some_and(duns_ok);
    f[1] == b"ATTRIBUTE_VALUE_PAIRS"
        && tagged(f[2], b"MRE=")
        && tagged(f[3], b"Sender=")
        && f[4] == b"Receiver=183529049"
        && (f[5] == b"REP=" || tagged(f[5], b"REP="))
}

/// Fields left to right: four times value, status, empty; the last is empty.
fn detail_verdict(f: &[&[u8]]) -> u32 {
    for (i, s) in f.iter().enumerate().skip(1) {
        let verdict = match i % 3 {
            1 if i < 13 => value_of(s).err().unwrap_or(0),
            2 if *s != b"A" && *s != b"E" => 18,
            2 => 0,
            _ if s.is_empty() => 0,
            _ => 15,
        };
        if verdict != 0 {
            return verdict;
        }
    }
    0
}

/// The words of a cell that a record's rows give, all of them right.
fn read_of(rows: &[Vec<u8>], count: usize) -> Vec<u32> {
    let mut read = vec![0u32; CELL_WORDS];
    let (date, clock) = time_of(cut(&rows[3])[1]).unwrap();
    read[0] = count as u32;
    read[1] = date;
    read[2] = clock;
    for i in 0..count {
        let f = cut(&rows[5 + i / 4]);
        read[7 + i] = value_of(f[1 + i % 4 * 3]).unwrap();
        if f[2 + i % 4 * 3] == b"E" {
            read[3 + i / 32] += 1 << (i % 32);
        }
    }
    read
}

// ---- The loader ----

enum Doing {
    Takes,
    Waits { meter: u32, cell: usize, read: Vec<u32>, last: u32 },
    Skips,
}

struct Unit {
    first: u32,
    day: u32,
    rows: Vec<Vec<u8>>,
    doing: Doing,
}

pub struct Plain {
    registry: Vec<u8>,
    table: Vec<u32>,
    /// Bytes taken; open, so that a test can come near the limit.
    pub taken: usize,
    lines: u32,
    kept: Vec<u8>,
    unit: Option<Unit>,
}

/// 2 to 5, in order, or 0: of a feed of so many bytes, or of a finish (none).
pub fn refusal(registry: &[u8], words: usize, room: usize, taken: usize, n: Option<usize>) -> u32 {
    let n = n.unwrap_or(0);
    match Registry::of(registry) {
        None => 2,
        Some(r) if words < r.words() => 3,
        _ if room < 2 + n / 2 => 4,
        _ if taken + n > MAX_TAKEN => 5,
        _ => 0,
    }
}

impl Plain {
    pub fn new(registry: &[u8], table: &[u32]) -> Plain {
        Plain {
            registry: registry.to_vec(),
            table: table.to_vec(),
            taken: 0,
            lines: 0,
            kept: Vec::new(),
            unit: None,
        }
    }

    pub fn table(&self) -> &[u32] {
        &self.table
    }

    fn refusal(&self, room: usize, n: Option<usize>) -> u32 {
        refusal(&self.registry, self.table.len(), room, self.taken, n)
    }

    /// The number returned and the entries written.
    pub fn feed(&mut self, piece: &[u8], room: usize) -> (u32, Vec<Entry>) {
        let mut out = Vec::new();
        let number = self.refusal(room, Some(piece.len()));
        if number != 0 {
            return (number, out);
        }
        self.taken += piece.len();
        self.kept.extend_from_slice(piece);
        while let Some(lf) = self.kept.iter().position(|b| *b == b'\n') {
            let mut line: Vec<u8> = self.kept.drain(..=lf).collect();
            line.pop();
            let long = line.len() > 200;
            if line.last() == Some(&b'\r') {
                line.pop();
            }
            self.line(&line, long, &mut out);
        }
        (0, out)
    }

    /// The number returned and the entries written.
    pub fn finish(&mut self, room: usize) -> (u32, Vec<Entry>) {
        let mut out = Vec::new();
        let number = self.refusal(room, None);
        if number != 0 {
            return (number, out);
        }
        if !self.kept.is_empty() {
            let line = std::mem::take(&mut self.kept);
            self.line(&line, line.len() > 200, &mut out);
        }
        self.end_unit(self.lines + 1, &mut out);
        self.taken = 0;
        self.lines = 0;
        self.kept = Vec::new();
        self.unit = None;
        (0, out)
    }

    /// A unit that takes rows gets 12, and one that waits loads.
    fn end_unit(&mut self, at: u32, out: &mut Vec<Entry>) {
        match self.unit.take() {
            Some(Unit { first, day, doing: Doing::Takes, .. }) => {
                out.push(Entry { line: first, verdict: 12, at, meter: 0, day });
            }
            Some(Unit { first, day, doing: Doing::Waits { meter, cell, read, last }, .. }) => {
                out.push(Entry { line: first, verdict: 0, at: last, meter, day });
                let c = &mut self.table[cell * CELL_WORDS..][..CELL_WORDS];
                if c[0] == 0 || (read[1], read[2]) > (c[1], c[2]) {
                    c.copy_from_slice(&read);
                }
            }
            other => self.unit = other,
        }
    }

    fn stray(&mut self, out: &mut Vec<Entry>) {
        let n = self.lines;
        out.push(Entry { line: n, verdict: 10, at: n, meter: 0, day: 0 });
        self.unit = Some(Unit { first: n, day: 0, rows: vec![], doing: Doing::Skips });
    }

    fn line(&mut self, line: &[u8], long: bool, out: &mut Vec<Entry>) {
        self.lines += 1;
        let at = self.lines;
        if line.is_empty() {
            return;
        }
        if line.starts_with(b"00000001") {
            self.end_unit(at, out);
            self.unit = Some(Unit { first: at, day: 0, rows: vec![], doing: Doing::Takes });
            self.row(line, long, out);
            return;
        }
        match &mut self.unit {
            None => self.stray(out),
            Some(u) => match u.doing {
                Doing::Skips => {}
                Doing::Takes => self.row(line, long, out),
                Doing::Waits { meter, .. } if line.starts_with(b"100000") => {
                    out.push(Entry { line: u.first, verdict: 22, at, meter, day: u.day });
                    u.doing = Doing::Skips;
                }
                Doing::Waits { .. } => {
                    self.end_unit(at, out);
                    self.stray(out);
                }
            },
        }
    }

    fn row(&mut self, line: &[u8], long: bool, out: &mut Vec<Entry>) {
        let u = self.unit.as_mut().unwrap();
        let mut verdict = row_verdict(line, long, u.rows.len());
        let mut meter = 0;
        if verdict == 0 {
            u.rows.push(line.to_vec());
            if u.rows.len() == 1 {
                u.day = to_number(&cut(line)[3][..8]) as u32;
            }
            let count = intervals_of(u.day / 10000, u.day / 100 % 100, u.day % 100) as usize;
            if u.rows.len() < 5 + count / 4 {
                return;
            }
            let registry = Registry::of(&self.registry).unwrap();
            let cell;
            (verdict, meter, cell) = registry_checks(&registry, u);
            if verdict == 0 {
                let read = read_of(&u.rows, count);
                u.doing = Doing::Waits { meter, cell, read, last: self.lines };
                return;
            }
        }
        out.push(Entry { line: u.first, verdict, at: self.lines, meter, day: u.day });
        u.doing = Doing::Skips;
    }
}

/// All rows are in: verdict, meter as the report numbers it, and cell.
fn registry_checks(r: &Registry, u: &Unit) -> (u32, u32, usize) {
    let one = cut(&u.rows[0]);
    let sender = cut(&u.rows[4])[3].strip_prefix(b"Sender=").unwrap();
    let Some(i) = r.meters.iter().position(|m| m.esi == one[1]) else { return (30, 0, 0) };
    let m = &r.meters[i];
    let number = number_of(u.day / 10000, u.day / 100 % 100, u.day % 100).unwrap();
    let verdict = if m.owner != sender {
        31
    } else if m.flags & 1 != 0 {
        32
    } else if m.flags & 2 == 0 {
        33
    } else if m.flags & 4 == 0 {
        34
    } else if number < r.first || number >= r.first + r.days {
        35
    } else {
        let channel = if one[2] == b"4" { 0 } else { 1 };
        let cell = (i * 2 + channel) * r.days as usize + (number - r.first) as usize;
        return (0, i as u32 + 1, cell);
    };
    (verdict, i as u32 + 1, 0)
}

// ---- Estimates and Write ----

/// The cell's words, its date and meter, or 2, 3, 6 to 8.
fn sound_cell(
    registry: &[u8],
    table: &[u32],
    meter: usize,
    channel: usize,
    day: usize,
) -> Result<(Vec<u32>, String, Meter), u32> {
    let r = Registry::of(registry).ok_or(2u32)?;
    if table.len() < r.words() {
        return Err(3);
    }
    let days = r.days as usize;
    if meter >= r.meters.len() || day >= days || channel > 1 {
        return Err(6);
    }
    let n = (meter * 2 + channel) * days + day;
    let c = &table[n * CELL_WORDS..][..CELL_WORDS];
    if c[0] == 0 {
        return Err(7);
    }
    let (y, m, d) = date_of(r.first + day as u32);
    let count = intervals_of(y, m, d) as usize;
    let stamp = format!("{:08}{:06}", c[1], c[2]);
    let ok = c[0] as usize == count
        && time_of(stamp.as_bytes()).is_some()
        && (0..count).all(|i| c[7 + i] <= 999_999_999)
        && (count..100).all(|i| c[7 + i] == 0)
        && (count..128).all(|i| c[3 + i / 32] >> (i % 32) & 1 == 0);
    if !ok {
        return Err(8);
    }
    Ok((c.to_vec(), format!("{y:04}{m:02}{d:02}"), r.meters[meter].clone()))
}

/// How many intervals of a cell are estimated, or the refusal.
pub fn estimates(
    registry: &[u8],
    table: &[u32],
    meter: usize,
    channel: usize,
    day: usize,
) -> Result<usize, u32> {
    let (c, _, _) = sound_cell(registry, table, meter, channel, day)?;
    Ok((0..c[0] as usize).filter(|i| c[3 + i / 32] >> (i % 32) & 1 == 1).count())
}

/// The record of a cell, or the refusal.
pub fn write(
    registry: &[u8],
    table: &[u32],
    meter: usize,
    channel: usize,
    day: usize,
    descriptor: &[u8],
    room: usize,
) -> Result<Vec<u8>, u32> {
    let (c, date, m) = sound_cell(registry, table, meter, channel, day)?;
    if !name_ok(descriptor, 80) {
        return Err(9);
    }
    let text = |b: &[u8]| String::from_utf8(b.to_vec()).unwrap();
    let (esi, owner, descriptor) = (text(&m.esi), text(&m.owner), text(descriptor));
    let code = if channel == 0 { 4 } else { 1 };
    let mut t = format!("00000001,{esi},{code},{date}000000,{date}235900,Y,N\n");
    t += "00000002,,,,,,,900,01,,,,,CST\n";
    t += &format!("00000003,{descriptor}\n");
    t += &format!("00000004,{:08}{:06},M\n", c[1], c[2]);
    t += &format!("00000030,ATTRIBUTE_VALUE_PAIRS,MRE={owner},Sender={owner},");
    t += "Receiver=183529049,REP=\n";
    for k in 0..c[0] as usize / 4 {
        t += &format!("{}", 10000000 + k);
        for i in 4 * k..4 * k + 4 {
            let status = if c[3 + i / 32] >> (i % 32) & 1 == 1 { "E" } else { "A" };
            t += &format!(",{}.{:03},{status},", c[7 + i] / 1000, c[7 + i] % 1000);
        }
        t += ",\n";
    }
    if room < t.len() {
        return Err(10);
    }
    Ok(t.into_bytes())
}
