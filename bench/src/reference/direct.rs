//! The rows, read directly: each function takes well formed rows only, by wide loads at the places
//! where their parts stand; whatever it does not take is for the exact reader of `rows`, which
//! decides.

use super::calendar::day_number;
use super::rows::*;

pub const ONES: u64 = 0x0101_0101_0101_0101;
pub const HIGHS: u64 = 0x8080_8080_8080_8080;
const ZEROS: u64 = 0x3030_3030_3030_3030;

/// Row one: everything stands at fixed places from the end.
#[inline]
pub fn one_direct(line: &[u8]) -> Option<RowOne<'_>> {
    let n = line.len();
    if !(46..=45 + 64).contains(&n) {
        return None;
    }
    let esi = &line[9..n - 36];
    let tail: &[u8; 36] = line[n - 36..].try_into().unwrap();
    // ,4,YYYYMMDDHHMMSS,YYYYMMDDHHMMSS,Y,N
    if &line[..9] != b"00000001," || tail[0] != b',' || tail[2] != b',' {
        return None;
    }
    let channel = match tail[1] {
        b'4' => 0,
        b'1' => 1,
        _ => return None,
    };
    let a = load8(tail, 3);
    if a != load8(tail, 18) || &tail[11..18] != b"000000," {
        return None;
    }
    if &tail[26..] != b"235900,Y,N" && &tail[26..] != b"235959,Y,N" {
        return None;
    }
    let a = a ^ ZEROS;
    if not_digits(a) != 0 || !all_alnum(esi, 64) {
        return None;
    }
    let date = eight(a);
    let number = day_number(date)?;
    Some(RowOne { esi, channel, date, number })
}

/// Row two in its two usual texts.
#[inline]
pub fn two_direct(line: &[u8]) -> bool {
    line == b"00000002,0,0,0,,0,,900,01,1,-1,0.0,0.0,CST"
        || line == b"00000002,,,,,,,900,01,,,,,CST"
}

#[inline]
pub fn three_direct(line: &[u8]) -> bool {
    line.len() > 9 && &line[..9] == b"00000003," && all_alnum(&line[9..], 80)
}

#[inline]
pub fn four_direct(line: &[u8]) -> Option<Time> {
    if line.len() != 25 || &line[..9] != b"00000004," || &line[23..] != b",M" {
        return None;
    }
    time(&line[9..23])
}

/// A DUNS number of 9 or 13 digits, and what is behind it.
#[inline]
fn number(s: &[u8]) -> Option<(&[u8], &[u8])> {
    let n = if *s.get(9)? == b',' { 9 } else { 13 };
    if s.len() < n || !digits(&s[..n]) {
        return None;
    }
    Some(s.split_at(n))
}

/// Row thirty: Sender's number.
#[inline]
pub fn thirty_direct(line: &[u8]) -> Option<&[u8]> {
    let s = line.strip_prefix(b"00000030,ATTRIBUTE_VALUE_PAIRS,MRE=")?;
    let (_, s) = number(s)?;
    let s = s.strip_prefix(b",Sender=")?;
    let (sender, s) = number(s)?;
    let rep = s.strip_prefix(b",Receiver=183529049,REP=")?;
    if rep.is_empty() || duns(rep) {
        Some(sender)
    } else {
        None
    }
}

/// Bytes that one detail line is looked at in, at most.
pub const WINDOW: usize = 80;

/// Scale by length and place of the point (place = length: none); 0 = misfit.
const SCALE: [u32; 64] = {
    let mut t = [0u32; 64];
    let mut n = 1;
    while n < 8 {
        let mut d = 0;
        while d <= n {
            if d == n {
                if n <= 6 {
                    t[n * 8 + d] = 1000;
                }
            } else if n - d > 1 && n - d <= 4 {
                t[n * 8 + d] = [1000, 100, 10, 1][n - d - 1];
            }
            d += 1;
        }
        n += 1;
    }
    t
};

/// A value of 8 to 10 bytes ended by a comma: its length and watt hours.
#[inline(never)]
fn long_value(s: &[u8]) -> Option<(usize, u32)> {
    let n = 8 + s[8..11].iter().position(|&b| b == b',')?;
    Some((n, value(&s[..n]).ok()?))
}

/// A whole detail line with its end: the bytes of both, or 0 where it isn't well formed. One
/// function on purpose: it is where the time goes.
#[inline(always)]
pub fn detail_direct(w: &[u8; WINDOW], code: u64, out: &mut [u32; 4], marks: &mut u32) -> usize {
    if load8(w, 0) != code || w[8] != b',' {
        return 0;
    }
    let mut at = 9usize;
    let mut bad = 0u64;
    let mut est = 0u32;
    for j in 0..4 {
        let x = load8(w, at & 63);
        let c = x ^ (ONES * b',' as u64);
        let m = c.wrapping_sub(ONES) & !c & HIGHS;
        let n;
        if m != 0 {
            let stop = m & m.wrapping_neg();
            n = (m.trailing_zeros() >> 3) as usize;
            let p = x ^ (ONES * b'.' as u64);
            let dots = p.wrapping_sub(ONES) & !p & HIGHS & (stop - 1);
            let d = ((dots | stop).trailing_zeros() >> 3) as usize;
            // Digits below the comma, the point taken out, ended at the top byte.
            let v = (x ^ ZEROS) & ((1u64 << (8 * n)) - 1);
            let low = (1u64 << (8 * d)) - 1;
            let v = (v & low) | ((v >> 8) & !low);
            bad |= not_digits(v);
            let k = n - (d != n) as usize;
            let v = (v << 8) << (56 - 8 * k);
            let scale = SCALE[(n * 8 + d) & 63];
            bad |= (scale == 0) as u64;
            out[j] = eight(v).wrapping_mul(scale);
        } else {
            match long_value(&w[at & 63..(at & 63) + 11]) {
                Some((len, v)) => {
                    n = len;
                    out[j] = v;
                }
                None => return 0,
            }
        }
        // comma, status, comma, comma
        let s = load4(w, (at + n) & 63);
        bad |= ((s & !0x0400) ^ u32::from_le_bytes(*b",A,,")) as u64;
        est |= (s >> 10 & 1) << j;
        at += n + 4;
    }
    *marks = est;
    let end = if w[at] == b'\n' {
        at + 1
    } else if w[at] == b'\r' && w[at + 1] == b'\n' {
        at + 2
    } else {
        return 0;
    };
    if bad != 0 {
        0
    } else {
        end
    }
}
