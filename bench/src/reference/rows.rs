//! The rows, read exactly: cut at commas, checked in the order of the verdict table. They know
//! neither registry nor table.

use super::calendar::{clock_ok, day_number};
use super::registry::alnum;

const ZEROS: u64 = 0x3030_3030_3030_3030;

#[inline(always)]
pub fn load8(b: &[u8], at: usize) -> u64 {
    u64::from_le_bytes(b[at..at + 8].try_into().unwrap())
}

#[inline(always)]
pub fn load4(b: &[u8], at: usize) -> u32 {
    u32::from_le_bytes(b[at..at + 4].try_into().unwrap())
}

/// Nonzero where a byte of v is above 9.
#[inline(always)]
pub fn not_digits(v: u64) -> u64 {
    (v.wrapping_add(0x0606_0606_0606_0606) | v) & 0xF0F0_F0F0_F0F0_F0F0
}

/// Number of eight digit values, first digit in the lowest byte.
#[inline(always)]
pub fn eight(v: u64) -> u32 {
    let v = v.wrapping_mul(10).wrapping_add(v >> 8);
    let a = (v & 0x0000_00FF_0000_00FF).wrapping_mul(0x000F_4240_0000_0064);
    let b = ((v >> 16) & 0x0000_00FF_0000_00FF).wrapping_mul(0x0000_2710_0000_0001);
    (a.wrapping_add(b) >> 32) as u32
}

pub struct Time {
    pub date: u32,
    pub clock: u32,
    pub number: u32,
}

/// A field that is a time: 14 digits, real date of 2007 to 2099, real clock.
#[inline]
pub fn time(f: &[u8]) -> Option<Time> {
    if f.len() != 14 {
        return None;
    }
    let a = load8(f, 0) ^ ZEROS;
    let b = (load8(f, 6) ^ ZEROS) & !0xFFFF;
    if not_digits(a) | not_digits(b) != 0 {
        return None;
    }
    let date = eight(a);
    let clock = eight(b);
    let number = day_number(date)?;
    if !clock_ok(clock) {
        return None;
    }
    Some(Time { date, clock, number })
}

/// 1 to `max` letters or digits.
#[inline]
pub fn all_alnum(f: &[u8], max: usize) -> bool {
    if f.is_empty() || f.len() > max {
        return false;
    }
    let mut ok = true;
    for &b in f {
        ok &= alnum(b);
    }
    ok
}

#[inline]
pub fn digits(f: &[u8]) -> bool {
    let mut ok = true;
    for &b in f {
        ok &= b.wrapping_sub(b'0') < 10;
    }
    ok
}

#[inline]
pub fn duns(f: &[u8]) -> bool {
    (f.len() == 9 || f.len() == 13) && digits(f)
}

/// A line cut at commas; field i of a line of 14 fields or fewer.
struct Fields<'a> {
    line: &'a [u8],
    /// Place of the comma that ends field i; the last is the line's length.
    end: [u8; 14],
    count: usize,
}

impl<'a> Fields<'a> {
    /// The line has at most 200 bytes. More than 14 fields are only counted.
    fn cut(line: &'a [u8]) -> Fields<'a> {
        let mut end = [0u8; 14];
        let mut n = 0;
        for (i, &b) in line.iter().enumerate() {
            if b == b',' {
                if n < 14 {
                    end[n] = i as u8;
                }
                n += 1;
            }
        }
        if n < 14 {
            end[n] = line.len() as u8;
        }
        Fields { line, end, count: n + 1 }
    }

    #[inline]
    fn get(&self, i: usize) -> &'a [u8] {
        let a = if i == 0 { 0 } else { self.end[i - 1] as usize + 1 };
        &self.line[a..self.end[i] as usize]
    }
}

/// 13 or 14 where code or field count is wrong, otherwise the fields.
fn opened<'a>(line: &'a [u8], code: &[u8; 8], count: usize) -> Result<Fields<'a>, u32> {
    let f = Fields::cut(line);
    if f.get(0) != code {
        return Err(13);
    }
    if f.count != count {
        return Err(14);
    }
    Ok(f)
}

pub struct RowOne<'a> {
    pub esi: &'a [u8],
    /// 0 load, 1 generation.
    pub channel: u32,
    pub date: u32,
    pub number: u32,
}

/// The times of day at which a day may stop.
const DAY_STOPS: [u32; 2] = [235900, 235959];

pub fn one_exact(line: &[u8]) -> Result<RowOne<'_>, u32> {
    let f = opened(line, b"00000001", 7)?;
    let esi = f.get(1);
    if !all_alnum(esi, 64) {
        return Err(15);
    }
    let channel = match f.get(2) {
        b"4" => 0,
        b"1" => 1,
        _ => return Err(15),
    };
    let start = time(f.get(3)).ok_or(15u32)?;
    let stop = time(f.get(4)).ok_or(15u32)?;
    if f.get(5) != b"Y" || f.get(6) != b"N" {
        return Err(15);
    }
    if (start.date, start.clock) >= (stop.date, stop.clock) {
        return Err(16);
    }
    if start.clock != 0 || stop.date != start.date || !DAY_STOPS.contains(&stop.clock) {
        return Err(17);
    }
    Ok(RowOne { esi, channel, date: start.date, number: start.number })
}

/// 1 to 15 digits, optionally a point and 1 to 4 digits.
fn decimal(f: &[u8]) -> bool {
    let dot = f.iter().position(|&b| b == b'.');
    let (a, b) = match dot {
        Some(d) => (&f[..d], Some(&f[d + 1..])),
        None => (f, None),
    };
    let whole = (1..=15).contains(&a.len()) && digits(a);
    whole && b.is_none_or(|b| (1..=4).contains(&b.len()) && digits(b))
}

/// Row two's field 11: `-1` or up to 47.
fn offset_ok(f: &[u8]) -> bool {
    f == b"-1" || (f.len() == 1 && digits(f)) || (f.len() == 2 && digits(f) && f <= &b"47"[..])
}

/// Form codes of row two's fourteen fields.
const TWO: [u8; 14] = [0, 1, 1, 2, 3, 1, 3, 4, 5, 6, 7, 1, 1, 8];

pub fn two_exact(line: &[u8]) -> Result<(), u32> {
    let f = opened(line, b"00000002", 14)?;
    for (i, form) in TWO.iter().enumerate().skip(1) {
        let t = f.get(i);
        let ok = match form {
            1 => t.is_empty() || decimal(t),
            2 if t.is_empty() => f.get(1).is_empty() || f.get(2).is_empty(),
            2 => decimal(t),
            3 => t.is_empty(),
            4 => t == b"900",
            5 => t == b"01",
            6 => t.is_empty() || (t.len() <= 4 && digits(t) && t.iter().any(|&b| b != b'0')),
            7 => t.is_empty() || offset_ok(t),
            _ => t == b"CST",
        };
        if !ok {
            return Err(15);
        }
    }
    Ok(())
}

pub fn three_exact(line: &[u8]) -> Result<(), u32> {
    let f = opened(line, b"00000003", 2)?;
    if all_alnum(f.get(1), 80) {
        Ok(())
    } else {
        Err(15)
    }
}

pub fn four_exact(line: &[u8]) -> Result<Time, u32> {
    let f = opened(line, b"00000004", 3)?;
    let t = time(f.get(1)).ok_or(15u32)?;
    if f.get(2) != b"M" {
        return Err(15);
    }
    Ok(t)
}

/// Sender's number.
pub fn thirty_exact(line: &[u8]) -> Result<&[u8], u32> {
    let f = opened(line, b"00000030", 6)?;
    if f.get(1) != b"ATTRIBUTE_VALUE_PAIRS" {
        return Err(15);
    }
    let mre = f.get(2).strip_prefix(b"MRE=").ok_or(15u32)?;
    if !duns(mre) {
        return Err(15);
    }
    let sender = f.get(3).strip_prefix(b"Sender=").ok_or(15u32)?;
    if !duns(sender) {
        return Err(15);
    }
    if f.get(4) != b"Receiver=183529049" {
        return Err(15);
    }
    let rep = f.get(5).strip_prefix(b"REP=").ok_or(15u32)?;
    if !rep.is_empty() && !duns(rep) {
        return Err(15);
    }
    Ok(sender)
}

/// A value in watt hours, or 19, 20, 21.
pub fn value(f: &[u8]) -> Result<u32, u32> {
    if f.first() == Some(&b'-') {
        return Err(19);
    }
    let mut v = 0u32; // at most 9 digits are taken in
    let mut whole = 0;
    let mut i = 0;
    while i < f.len() && f[i].wrapping_sub(b'0') < 10 {
        if whole < 6 {
            v = v * 10 + (f[i] - b'0') as u32;
        }
        whole += 1;
        i += 1;
    }
    let mut frac = 0;
    if i < f.len() {
        if f[i] != b'.' {
            return Err(21);
        }
        let rest = &f[i + 1..];
        if !digits(rest) || rest.is_empty() {
            return Err(21);
        }
        if rest.len() > 3 {
            return Err(20);
        }
        for &b in rest {
            v = v * 10 + (b - b'0') as u32;
        }
        frac = rest.len();
    }
    if whole > 6 || whole + frac == 0 {
        return Err(21);
    }
    Ok(v * [1000, 100, 10, 1][frac])
}

/// Codes of detail rows as loaded by load8.
pub const CODES: [u64; 25] = {
    let mut t = [0u64; 25];
    let mut k = 0;
    while k < 25 {
        t[k] = u64::from_le_bytes(*b"10000000")
            + (((k / 10) as u64) << 48)
            + (((k % 10) as u64) << 56);
        k += 1;
    }
    t
};

/// Values and a nibble of estimate marks, the first in bit 0.
pub fn detail_exact(line: &[u8], k: usize) -> Result<([u32; 4], u32), u32> {
    let f = opened(line, &CODES[k].to_le_bytes(), 14)?;
    let mut v = [0u32; 4];
    let mut marks = 0;
    for j in 0..4 {
        v[j] = value(f.get(1 + 3 * j))?;
        match f.get(2 + 3 * j) {
            b"A" => {}
            b"E" => marks |= 1 << j,
            _ => return Err(18),
        }
        if !f.get(3 + 3 * j).is_empty() {
            return Err(15);
        }
    }
    if !f.get(13).is_empty() {
        return Err(15);
    }
    Ok((v, marks))
}
