//! Day numbers, months and the US daylight saving rule (since 2007).

/// Number of the first day of each month; January 2007 is 0.
const FIRST: [u32; 1116] = first_days();

/// Day number of 21000101, one past the last day known.
pub const DAYS_END: u32 = 33968;

const fn month_len(y: u32, m: u32) -> u32 {
    match m {
        4 | 6 | 9 | 11 => 30,
        2 if y % 4 == 0 => 29, // 2100 is out of range
        2 => 28,
        _ => 31,
    }
}

const fn first_days() -> [u32; 1116] {
    let mut t = [0u32; 1116];
    let mut i = 1;
    while i < 1116 {
        let p = (i - 1) as u32;
        t[i] = t[i - 1] + month_len(2007 + p / 12, p % 12 + 1);
        i += 1;
    }
    t
}

/// Day number of YYYYMMDD, if it is a real date of 2007 to 2099.
#[inline]
pub fn day_number(n: u32) -> Option<u32> {
    let y = n / 10000;
    let m = n / 100 % 100;
    let d = n % 100;
    if y.wrapping_sub(2007) > 92 || m.wrapping_sub(1) > 11 {
        return None;
    }
    if d.wrapping_sub(1) >= month_len(y, m) {
        return None;
    }
    let i = ((y - 2007) * 12 + m - 1) as usize;
    Some(FIRST[i] + d - 1)
}

/// YYYYMMDD of a day number below DAYS_END.
pub fn day_date(n: u32) -> u32 {
    let i = FIRST.partition_point(|&f| f <= n) - 1;
    (2007 + i as u32 / 12) * 10000 + (i as u32 % 12 + 1) * 100 + (n - FIRST[i]) + 1
}

/// Interval count of a real date with its day number. Day 0 is a Monday.
#[inline]
pub fn intervals(date: u32, number: u32) -> u32 {
    let month_day = date % 10000;
    if number % 7 == 6 {
        if (308..=314).contains(&month_day) {
            return 92;
        }
        if (1101..=1107).contains(&month_day) {
            return 100;
        }
    }
    96
}

/// HHMMSS is a time of day.
#[inline]
pub fn clock_ok(n: u32) -> bool {
    n / 10000 <= 23 && n / 100 % 100 <= 59 && n % 100 <= 59
}
