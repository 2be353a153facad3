//! The activity page of a report, as good Rust lays it out.

use crate::header::{MOST_PAGES, PAGE_BYTES, PAGE_ENTRIES};
use crate::Entry;

/// The bytes of a line, with its LF.
const LINE: usize = 81;
/// The bytes of a verdict's text.
const TEXT: usize = 40;

/// A text, filled up with spaces.
const fn padded(text: &[u8]) -> [u8; TEXT] {
    let mut bytes = [b' '; TEXT];
    let mut i = 0;
    while i < text.len() {
        bytes[i] = text[i];
        i += 1;
    }
    bytes
}

const NONE: [u8; TEXT] = padded(b"");

/// What is said of each verdict, by its number.
static TEXTS: [[u8; TEXT]; 36] = {
    let mut texts = [NONE; 36];
    texts[0] = padded(b"Loaded");
    texts[10] = padded(b"Lines that belong to no record");
    texts[11] = padded(b"A line is longer than 200 bytes");
    texts[12] = padded(b"Record ends before its last row");
    texts[13] = padded(b"Row does not begin with the code due");
    texts[14] = padded(b"Row has the wrong number of fields");
    texts[15] = padded(b"A field is not as it must be");
    texts[16] = padded(b"Start is not before stop");
    texts[17] = padded(b"Start and stop are not one whole day");
    texts[18] = padded(b"A status is neither A nor E");
    texts[19] = padded(b"A value is negative");
    texts[20] = padded(b"A value has too many decimals");
    texts[21] = padded(b"A value is not a number of kWh");
    texts[22] = padded(b"Record has a row too many");
    texts[30] = padded(b"ESI ID is not in the registry");
    texts[31] = padded(b"Sender does not own the meter");
    texts[32] = padded(b"ERCOT reads the meter itself");
    texts[33] = padded(b"Meter not set up for interval data");
    texts[34] = padded(b"Meter's profile is not IDR");
    texts[35] = padded(b"Day is outside the registry's window");
    texts
};

/// `00` to `99`.
static PAIRS: [[u8; 2]; 100] = {
    let mut pairs = [[0; 2]; 100];
    let mut i = 0;
    while i < 100 {
        pairs[i] = [b'0' + (i / 10) as u8, b'0' + (i % 10) as u8];
        i += 1;
    }
    pairs
};

/// A number at the end of a column of spaces; asterisks where it is too wide.
#[inline(always)]
fn put_right(column: &mut [u8], mut n: u32) {
    let mut end = column.len();
    while n >= 100 && end >= 2 {
        column[end - 2..end].copy_from_slice(&PAIRS[(n % 100) as usize]);
        n /= 100;
        end -= 2;
    }
    if n >= 10 && end >= 2 {
        column[end - 2..end].copy_from_slice(&PAIRS[n as usize]);
    } else if n < 10 && end >= 1 {
        column[end - 1] = b'0' + n as u8;
    } else {
        column.fill(b'*');
    }
}

const BLANK: [u8; LINE] = {
    let mut line = [b' '; LINE];
    line[LINE - 1] = b'\n';
    line
};

#[inline(always)]
fn put_entry(line: &mut [u8; LINE], e: &Entry) {
    *line = BLANK;
    put_right(&mut line[..10], e.line);
    put_right(&mut line[10..14], e.verdict);
    put_right(&mut line[14..24], e.at);
    put_right(&mut line[24..30], e.meter);
    put_right(&mut line[30..40], e.day);
    let text = TEXTS.get(e.verdict as usize).unwrap_or(&NONE);
    line[40..80].copy_from_slice(text);
}

fn put_heading(line: &mut [u8; LINE], mut number: usize) {
    *line = BLANK;
    line[..5].copy_from_slice(b"PAGE ");
    for digit in line[5..10].iter_mut().rev() {
        *digit = b'0' + (number % 10) as u8;
        number /= 10;
    }
}

/// Returned number and the pages.
pub fn page(report: &[Entry], output: &mut [u8]) -> (u32, usize) {
    let pages = report.len().div_ceil(PAGE_ENTRIES);
    if pages > MOST_PAGES {
        return (12, 0);
    }
    if output.len() < pages * PAGE_BYTES {
        return (11, 0);
    }
    let places = output.chunks_exact_mut(PAGE_BYTES).zip(report.chunks(PAGE_ENTRIES));
    for (p, (page, entries)) in places.enumerate() {
        let mut lines = page.chunks_exact_mut(LINE).map(|line| line.try_into().unwrap());
        put_heading(lines.next().unwrap(), p + 1);
        *lines.next().unwrap() = BLANK;
        let mut entries = entries.iter();
        for line in lines {
            match entries.next() {
                Some(entry) => put_entry(line, entry),
                None => *line = BLANK,
            }
        }
    }
    (0, pages)
}
