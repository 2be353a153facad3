//! Registries and files as they come: Texas ESI IDs, a few owners, every meter and day, values like
//! those of a meter that reads some tens of kWh; or values of every length; or a share of the
//! records damaged.

use crate::reference::calendar::{day_date, day_number, intervals, DAYS_END};
use crate::reference::CELL_WORDS;
use crate::rng::Rng;
use std::collections::BTreeSet;

pub const DIGITS: &[u8] = b"0123456789";

pub struct Meter {
    pub esi: Vec<u8>,
    pub owner: Vec<u8>,
    pub flags: u8,
}

/// A registry, and what it says.
pub struct World {
    /// Day number of the window's first day.
    pub first: u32,
    pub days: u32,
    pub meters: Vec<Meter>,
    pub registry: Vec<u8>,
}

/// Bytes padded with spaces.
pub fn padded(b: &[u8], n: usize) -> Vec<u8> {
    let mut v = b.to_vec();
    v.resize(n, b' ');
    v
}

/// An owner's DUNS number.
pub fn duns(rng: &mut Rng) -> Vec<u8> {
    let n = if rng.one_in(3) { 13 } else { 9 };
    rng.bytes(n, DIGITS)
}

impl World {
    /// A registry that begins with its window and has no meters yet.
    pub fn of_window(first_date: u32, days: u32) -> World {
        let mut registry = vec![1];
        registry.extend(format!("{first_date:08}{days:02}").bytes());
        let first = day_number(first_date).expect("a real date");
        World { first, days, meters: vec![], registry }
    }

    pub fn add_owner(&mut self, owner: &[u8]) {
        self.registry.push(2);
        self.registry.extend(padded(owner, 13));
    }

    /// The owner is the one added last.
    pub fn add_meter(&mut self, esi: Vec<u8>, owner: Vec<u8>, flags: u8) {
        self.registry.push(3);
        self.registry.extend(padded(&esi, 64));
        self.registry.push(flags);
        self.meters.push(Meter { esi, owner, flags });
    }

    /// So many meters, 250 to an owner, all with flags 6.
    pub fn usual(rng: &mut Rng, first_date: u32, days: u32, meters: usize) -> World {
        const PREFIXES: [&[u8]; 4] = [b"1044372000", b"1008901000", b"1020404990", b"1003278900"];
        let mut ids = BTreeSet::new();
        while ids.len() < meters {
            // 17 digits, or up to 22 with a longer premise number.
            let n = if rng.one_in(2) { 7 } else { 7 + rng.below(6) };
            let mut id = rng.pick(&PREFIXES).to_vec();
            id.extend(rng.bytes(n, DIGITS));
            ids.insert(id);
        }
        let mut world = World::of_window(first_date, days);
        let mut owner = vec![];
        for (i, id) in ids.into_iter().enumerate() {
            if i % 250 == 0 {
                owner = duns(rng);
                world.add_owner(&owner);
            }
            world.add_meter(id, owner.clone(), 6);
        }
        world
    }

    pub fn cells(&self) -> usize {
        self.meters.len() * 2 * self.days as usize
    }

    /// The words that its cells take.
    pub fn words(&self) -> usize {
        self.cells() * CELL_WORDS
    }
}

/// How a file's values look.
#[derive(Clone, Copy, PartialEq)]
pub enum Values {
    /// Mostly `68.29`, some `.999`, `0`, `7.5`, `102.375`.
    Usual,
    /// 0 to 6 digits and 0 to 3 decimals, each as often: nothing to foresee for the processor.
    EveryLength,
    /// Five digits and three decimals: longer than a word of eight bytes.
    Long,
}

/// A right value.
pub fn value(rng: &mut Rng, values: Values) -> String {
    if values == Values::Long {
        return text(rng, 5) + "." + &text(rng, 3);
    }
    if values == Values::EveryLength {
        return match (rng.below(7), rng.below(4)) {
            (0, 0) => "0".to_string(),
            (whole, 0) => text(rng, whole),
            (whole, decimals) => text(rng, whole) + "." + &text(rng, decimals),
        };
    }
    match rng.below(16) {
        0 => format!(".{:03}", rng.below(1000)),
        1 => format!("{}", rng.below(100)),
        2 => format!("{}.{}", rng.below(10), rng.below(10)),
        3 => format!("{}.{:03}", rng.below(1000), rng.below(1000)),
        4 | 5 => format!("{}.{:02}", rng.below(10), rng.below(100)),
        _ => format!("{}.{:02}", 10 + rng.below(90), rng.below(100)),
    }
}

/// So many digits.
fn text(rng: &mut Rng, n: usize) -> String {
    (0..n).map(|_| rng.pick(DIGITS) as char).collect()
}

/// The lines of a right record: channel `1` or `4`, day number, stamp YYYYMMDDHHMMSS.
pub fn record(
    rng: &mut Rng,
    meter: &Meter,
    channel: u8,
    day: u32,
    stamp: &str,
    values: Values,
) -> Vec<Vec<u8>> {
    let date = day_date(day);
    let (esi, owner) = (String::from_utf8_lossy(&meter.esi), String::from_utf8_lossy(&meter.owner));
    let channel = channel as char;
    let sender = format!("MRE={owner},Sender={owner},Receiver=183529049");
    let mut lines = vec![
        format!("00000001,{esi},{channel},{date}000000,{date}235900,Y,N"),
        "00000002,0,0,0,,0,,900,01,1,-1,0.0,0.0,CST".to_string(),
        format!("00000003,TRAN{}", text(rng, 16)),
        format!("00000004,{stamp},M"),
        format!("00000030,ATTRIBUTE_VALUE_PAIRS,{sender},REP={}", text(rng, 9)),
    ];
    let estimated_in_part = rng.below(100) < 8;
    for k in 0..intervals(date, day) / 4 {
        let mut line = format!("{}", 10000000 + k);
        for _ in 0..4 {
            let status = if estimated_in_part && rng.one_in(3) { 'E' } else { 'A' };
            line += &format!(",{},{status},", value(rng, values));
        }
        line.push(',');
        lines.push(line);
    }
    lines.into_iter().map(String::into_bytes).collect()
}

/// A file of every meter and day, meter by meter: the load channel, and for one meter in 20
/// generation too. Of 1,000 records so many are damaged.
pub fn file(rng: &mut Rng, world: &World, values: Values, damaged: usize) -> Vec<u8> {
    let mut file = Vec::with_capacity(world.cells() * 750);
    for meter in &world.meters {
        let channels: &[u8] = if rng.one_in(20) { b"41" } else { b"4" };
        for day in world.first..world.first + world.days {
            for &channel in channels {
                let next_day = day_date((day + 1).min(DAYS_END - 1));
                let (h, m, s) = (rng.below(24), rng.below(60), rng.below(60));
                let stamp = format!("{next_day}{h:02}{m:02}{s:02}");
                let mut lines = record(rng, meter, channel, day, &stamp, values);
                if rng.below(1000) < damaged {
                    damage(rng, &mut lines);
                }
                for line in lines {
                    file.extend(line);
                    file.push(b'\n');
                }
            }
        }
    }
    file
}

/// The same file with other bytes in the place of each LF.
pub fn with_ends(file: &[u8], end: &[u8]) -> Vec<u8> {
    let mut with = Vec::with_capacity(file.len() * 21 / 20);
    for line in file.split_inclusive(|&b| b == b'\n') {
        with.extend(&line[..line.len() - 1]);
        with.extend(end);
    }
    with
}

/// A right row one whose day stops at 23:59:59.
pub fn stop_late(row_one: &mut [u8]) {
    let clock = row_one.len() - b"235900,Y,N".len();
    row_one[clock..][..6].copy_from_slice(b"235959");
}

/// The same file, of right records, whose days stop at 23:59:59.
pub fn stopping_late(file: &[u8]) -> Vec<u8> {
    let mut late = file.to_vec();
    let lines = late.split_mut(|&b| b == b'\n');
    lines.filter(|line| line.starts_with(b"00000001,")).for_each(stop_late);
    late
}

/// Damages a record's lines in one of the ways that happen.
pub fn damage(rng: &mut Rng, lines: &mut Vec<Vec<u8>>) {
    let i = rng.below(lines.len());
    let detail = 5 + rng.below(lines.len() - 5);
    let at = rng.below(lines[i].len());
    match rng.below(10) {
        0 => drop(lines.remove(i)),
        1 => lines.insert(i, lines[i].clone()),
        2 => {
            let line = &mut lines[detail];
            let status = line.iter().position(u8::is_ascii_uppercase).expect("a status");
            line[status] = b'X';
        }
        3 => lines[detail].insert(9, b'-'),
        4 => {
            lines[detail].splice(9..9, *b"1.2345,A,,");
            lines[detail].truncate(60);
        }
        5 => lines[i].push(b','),
        6 => lines[i][at] = b' ',
        7 => {
            let at = 9 + rng.below(lines[0].len() - 9);
            lines[0][at] = b'9';
        }
        8 => drop(lines.pop()),
        _ => lines[i][at] = rng.pick(b"0123456789,.-AEMYNx"),
    }
}
