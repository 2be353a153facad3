//! Estimates and Write for one sound cell.

use super::calendar::{clock_ok, day_date, day_number, intervals};
use super::registry::Index;
use super::rows::{all_alnum, CODES};
use super::*;

/// Room for any record; a few bytes behind it are free to be written.
pub const MAX_RECORD: usize = RECORD_BYTES + 100;

fn sound(cell: &[u32; CELL_WORDS], count: u32) -> bool {
    let n = count as usize;
    if cell[COUNT] != count || day_number(cell[DATE]).is_none() || !clock_ok(cell[CLOCK]) {
        return false;
    }
    let marks = cell[MARKS + 2] as u64 | (cell[MARKS + 3] as u64) << 32;
    if marks >> (n - 64) != 0 {
        return false;
    }
    let mut top = 0u32;
    for &v in &cell[VALUES..VALUES + n] {
        top = top.max(v);
    }
    top <= 999_999_999 && cell[VALUES + n..].iter().all(|&v| v == 0)
}

/// A cell's address: meter, channel and window day, each from 0.
#[derive(Clone, Copy)]
struct Address {
    meter: usize,
    channel: usize,
    day: usize,
}

/// The cell at an address with its date, or 2, 3, 6 to 8. The index gets filled.
fn cell_at<'t>(
    index: &mut Index,
    registry: &[u8],
    table: &'t [u32],
    at: Address,
) -> Result<(&'t [u32; CELL_WORDS], u32), u32> {
    if !index.read(registry) {
        return Err(2);
    }
    if table.len() < index.cells() * CELL_WORDS {
        return Err(3);
    }
    let days = index.days as usize;
    if at.meter >= index.meters || at.day >= days || at.channel > 1 {
        return Err(6);
    }
    let n = (at.meter * 2 + at.channel) * days + at.day;
    let cell: &[u32; CELL_WORDS] = table[n * CELL_WORDS..(n + 1) * CELL_WORDS].try_into().unwrap();
    if cell[COUNT] == 0 {
        return Err(7);
    }
    let number = index.first + at.day as u32;
    let date = day_date(number);
    if !sound(cell, intervals(date, number)) {
        return Err(8);
    }
    Ok((cell, date))
}

/// Returned number and the count of estimated intervals.
pub fn estimates(
    registry: &[u8],
    table: &[u32],
    meter: usize,
    channel: usize,
    day: usize,
) -> (u32, usize) {
    let mut index = Index::EMPTY;
    match cell_at(&mut index, registry, table, Address { meter, channel, day }) {
        Ok((c, _)) => (0, c[MARKS..VALUES].iter().map(|w| w.count_ones() as usize).sum()),
        Err(n) => (n, 0),
    }
}

/// `7.` `42.` `123.` for whole parts below 1000, first byte lowest.
const WHOLE: [u32; 1000] = {
    let mut t = [0u32; 1000];
    let mut i = 0u32;
    while i < 1000 {
        let (a, b, c) = (i / 100 + 48, i / 10 % 10 + 48, i % 10 + 48);
        t[i as usize] = if i < 10 {
            c | 46 << 8
        } else if i < 100 {
            b | c << 8 | 46 << 16
        } else {
            a | b << 8 | c << 16 | 46 << 24
        };
        i += 1;
    }
    t
};

/// Three digits and a comma.
const THREE: [u32; 1000] = {
    let mut t = [0u32; 1000];
    let mut i = 0u32;
    while i < 1000 {
        t[i as usize] = (i / 100 + 48) | (i / 10 % 10 + 48) << 8 | (i % 10 + 48) << 16 | 44 << 24;
        i += 1;
    }
    t
};

/// A record under way, in a buffer of its own: the output may turn out too short.
struct Out<'a> {
    b: &'a mut [u8; MAX_RECORD],
    n: usize,
}

impl Out<'_> {
    #[inline]
    fn text(&mut self, s: &[u8]) {
        self.b[self.n..self.n + s.len()].copy_from_slice(s);
        self.n += s.len();
    }

    /// A padded text without its padding.
    fn padded(&mut self, s: &[u8]) {
        let n = s.iter().position(|&b| b == b' ').unwrap_or(s.len());
        self.text(&s[..n]);
    }

    fn number(&mut self, mut v: u32, width: usize) {
        for i in (0..width).rev() {
            self.b[self.n + i] = b'0' + (v % 10) as u8;
            v /= 10;
        }
        self.n += width;
    }

    #[inline(always)]
    fn whole(&mut self, q: u32) {
        self.b[self.n..self.n + 4].copy_from_slice(&WHOLE[q as usize].to_le_bytes());
        self.n += 2 + (q >= 10) as usize + (q >= 100) as usize;
    }

    /// Value, status, empty field, with all their commas: bytes past n are free.
    #[inline(always)]
    fn interval(&mut self, v: u32, estimated: bool) {
        let q = v / 1000;
        let r = v % 1000;
        if q < 1000 {
            self.whole(q);
        } else {
            self.whole(q / 1000);
            self.n -= 1;
            let low = (THREE[(q % 1000) as usize] & 0x00FF_FFFF) | 46 << 24;
            self.b[self.n..self.n + 4].copy_from_slice(&low.to_le_bytes());
            self.n += 4;
        }
        let s = (b'A' as u64 + 4 * estimated as u64) << 32 | 0x2C2Cu64 << 40;
        let tail = THREE[r as usize] as u64 | s;
        self.b[self.n..self.n + 8].copy_from_slice(&tail.to_le_bytes());
        self.n += 7;
    }

    fn headers(&mut self, esi: &[u8], channel: usize, date: u32, descriptor: &[u8]) {
        self.text(b"00000001,");
        self.padded(esi);
        self.text(if channel == 0 { b",4," } else { b",1," });
        self.number(date, 8);
        self.text(b"000000,");
        self.number(date, 8);
        self.text(b"235900,Y,N\n00000002,,,,,,,900,01,,,,,CST\n00000003,");
        self.text(descriptor);
    }

    fn stamp_and_owner(&mut self, cell: &[u32; CELL_WORDS], owner: &[u8]) {
        self.text(b"\n00000004,");
        self.number(cell[DATE], 8);
        self.number(cell[CLOCK], 6);
        self.text(b",M\n00000030,ATTRIBUTE_VALUE_PAIRS,MRE=");
        self.padded(owner);
        self.text(b",Sender=");
        self.padded(owner);
        self.text(b",Receiver=183529049,REP=\n");
    }

    fn details(&mut self, cell: &[u32; CELL_WORDS]) {
        for k in 0..cell[COUNT] as usize / 4 {
            self.text(&CODES[k].to_le_bytes());
            self.text(b",");
            let marks = cell[MARKS + k / 8] >> (4 * (k % 8));
            for j in 0..4 {
                self.interval(cell[VALUES + 4 * k + j], marks >> j & 1 != 0);
            }
            self.text(b"\n");
        }
    }
}

/// Returned number and the record's length.
pub fn write(
    registry: &[u8],
    table: &[u32],
    meter: usize,
    channel: usize,
    day: usize,
    descriptor: &[u8],
    output: &mut [u8],
) -> (u32, usize) {
    let mut index = Index::EMPTY;
    let (cell, date) = match cell_at(&mut index, registry, table, Address { meter, channel, day }) {
        Ok(found) => found,
        Err(n) => return (n, 0),
    };
    if !all_alnum(descriptor, 80) {
        return (9, 0);
    }
    let mut b = [0u8; MAX_RECORD];
    let mut out = Out { b: &mut b, n: 0 };
    out.headers(index.esi(registry, meter), channel, date, descriptor);
    out.stamp_and_owner(cell, index.owner(registry, meter));
    out.details(cell);
    let n = out.n;
    if output.len() < n {
        return (10, 0);
    }
    output[..n].copy_from_slice(&b[..n]);
    (0, n)
}
