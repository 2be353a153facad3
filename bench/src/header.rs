//! The sizes that callers build upon, read from include/kilnsorrel.h as this is compiled: nothing
//! here repeats them. capi/sample.c holds them against the library.

const HEADER: &[u8] = include_bytes!("../../include/kilnsorrel.h");

/// The words of a state.
pub const STATE_WORDS: usize = defined(b"\n#define KILNSORREL_STATE_WORDS ");
/// The words of a report entry.
pub const ENTRY_WORDS: usize = defined(b"\n#define KILNSORREL_ENTRY_WORDS ");
/// The words of a cell.
pub const CELL_WORDS: usize = defined(b"\n#define KILNSORREL_CELL_WORDS ");
/// The bytes of the longest record.
pub const RECORD_BYTES: usize = defined(b"\n#define KILNSORREL_RECORD_BYTES ");
/// The entries of an activity page.
pub const PAGE_ENTRIES: usize = defined(b"\n#define KILNSORREL_PAGE_ENTRIES ");
/// The bytes of an activity page.
pub const PAGE_BYTES: usize = defined(b"\n#define KILNSORREL_PAGE_BYTES ");
/// The most pages that a report may have.
pub const MOST_PAGES: usize = defined(b"\n#define KILNSORREL_MOST_PAGES ");

const fn stands_at(text: &[u8], at: usize) -> bool {
    let mut i = 0;
    while i < text.len() && HEADER[at + i] == text[i] {
        i += 1;
    }
    i == text.len()
}

/// The number behind a text of the header. A text that is not there does not compile.
const fn defined(text: &[u8]) -> usize {
    let mut at = 0;
    while !stands_at(text, at) {
        at += 1;
    }
    at += text.len();
    let mut number = 0;
    while HEADER[at].is_ascii_digit() {
        number = 10 * number + (HEADER[at] - b'0') as usize;
        at += 1;
    }
    assert!(number > 0 && HEADER[at] == b'\n');
    number
}
