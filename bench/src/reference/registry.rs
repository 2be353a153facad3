//! The registry: tested and indexed once a call, without allocation.

use super::calendar::{day_number, DAYS_END};

const MAX_METERS: usize = 1000;

/// The window and where each meter's parts stand.
pub struct Index {
    /// Day number of the window's first day.
    pub first: u32,
    pub days: u32,
    pub meters: usize,
    /// Byte offset of each meter's 64-byte ESI ID.
    esi: [u32; MAX_METERS],
    /// Byte offset of each meter's owner's 13-byte DUNS.
    owner: [u32; MAX_METERS],
}

/// A letter or digit.
#[inline(always)]
pub fn alnum(b: u8) -> bool {
    b.wrapping_sub(b'0') < 10 || (b | 0x20).wrapping_sub(b'a') < 26
}

/// 1 to 64 letters or digits, then spaces. Written so that it vectorizes.
#[inline]
fn esi_ok(b: &[u8; 64]) -> bool {
    let mut bad = 0u8;
    for i in 0..64 {
        let c = b[i];
        let a = (c.wrapping_sub(b'0') < 10) as u8 | ((c | 0x20).wrapping_sub(b'a') < 26) as u8;
        bad |= (a | (c == b' ') as u8) ^ 1;
    }
    for i in 0..63 {
        bad |= (b[i] == b' ') as u8 & (b[i + 1] != b' ') as u8;
    }
    bad == 0 && b[0] != b' '
}

/// 9 digits and four spaces, or 13 digits.
fn duns_padded_ok(b: &[u8; 13]) -> bool {
    b[..9].iter().all(u8::is_ascii_digit)
        && (b[9..].iter().all(u8::is_ascii_digit) || b[9..].iter().all(|&c| c == b' '))
}

/// First day number and number of days of a window entry's ten digits.
fn window(body: &[u8]) -> Option<(u32, u32)> {
    if !body.iter().all(u8::is_ascii_digit) {
        return None;
    }
    let number = |s: &[u8]| s.iter().fold(0, |n, b| n * 10 + (b - b'0') as u32);
    let first = day_number(number(&body[..8]))?;
    let days = number(&body[8..]);
    ((1..=62).contains(&days) && first + days <= DAYS_END).then_some((first, days))
}

impl Index {
    pub const EMPTY: Index =
        Index { first: 0, days: 0, meters: 0, esi: [0; MAX_METERS], owner: [0; MAX_METERS] };

    /// Fills the index; false where the registry breaks a rule (refusal 2).
    pub fn read(&mut self, registry: &[u8]) -> bool {
        let Some((head, rest)) = registry.split_first_chunk::<11>() else { return false };
        if head[0] != 1 || registry.len() > u32::MAX as usize {
            return false; // the length is never that great; it keeps offsets in 32 bits
        }
        let Some((first, days)) = window(&head[1..]) else { return false };
        self.first = first;
        self.days = days;
        self.read_meters(rest)
    }

    /// The entries behind the window, owners and meters.
    #[inline]
    fn read_meters(&mut self, mut rest: &[u8]) -> bool {
        let mut at = 11u32;
        let mut owner = 0u32; // 0: none yet
        let mut n = 0usize;
        let mut prev: &[u8; 64] = &[0; 64];
        while let Some((&kind, body)) = rest.split_first() {
            if kind == 3 {
                let Some((esi, tail)) = body.split_first_chunk::<64>() else { return false };
                let Some((&flags, tail)) = tail.split_first() else { return false };
                if n >= MAX_METERS || owner == 0 || flags > 7 || !esi_ok(esi) || prev >= esi {
                    return false;
                }
                prev = esi;
                self.esi[n] = at + 1;
                self.owner[n] = owner;
                n += 1;
                at += 66;
                rest = tail;
            } else if kind == 2 {
                let Some((duns, tail)) = body.split_first_chunk::<13>() else { return false };
                if !duns_padded_ok(duns) {
                    return false;
                }
                owner = at + 1;
                at += 14;
                rest = tail;
            } else {
                return false;
            }
        }
        self.meters = n;
        true
    }

    /// A meter's ESI ID, padded.
    #[inline]
    pub fn esi<'r>(&self, registry: &'r [u8], meter: usize) -> &'r [u8] {
        let o = self.esi[meter] as usize;
        &registry[o..o + 64]
    }

    #[inline]
    pub fn flags(&self, registry: &[u8], meter: usize) -> u8 {
        registry[self.esi[meter] as usize + 64]
    }

    /// A meter's owner, padded.
    #[inline]
    pub fn owner<'r>(&self, registry: &'r [u8], meter: usize) -> &'r [u8] {
        let o = self.owner[meter] as usize;
        &registry[o..o + 13]
    }

    #[inline]
    pub fn cells(&self) -> usize {
        self.meters * 2 * self.days as usize
    }

    /// Place of a padded ESI ID; `hint` is tried first, with its successor: files go meter by
    /// meter.
    #[inline]
    pub fn find(&self, registry: &[u8], esi: &[u8; 64], hint: usize) -> Option<usize> {
        for h in hint..(hint + 2).min(self.meters) {
            if self.esi(registry, h) == esi {
                return Some(h);
            }
        }
        let (mut lo, mut hi) = (0, self.meters);
        while lo < hi {
            let mid = (lo + hi) / 2;
            match self.esi(registry, mid).cmp(&esi[..]) {
                core::cmp::Ordering::Less => lo = mid + 1,
                core::cmp::Ordering::Equal => return Some(mid),
                core::cmp::Ordering::Greater => hi = mid,
            }
        }
        None
    }
}
