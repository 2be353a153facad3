//! The activity page of any report, by all: every answer and every byte of the output.

use kilnsorrel_bench::header::{ENTRY_WORDS, MOST_PAGES, PAGE_BYTES, PAGE_ENTRIES};
use kilnsorrel_bench::kilnsorrel;
use kilnsorrel_bench::reference::{self, plain_page};
use kilnsorrel_bench::rng::Rng;
use kilnsorrel_bench::Entry;

use crate::loaders::Guarded;

/// A number of any width: around a power of ten, around the largest, or any.
fn some_number(rng: &mut Rng) -> u32 {
    match rng.below(4) {
        0 => rng.pick(&[0, 1, u32::MAX, u32::MAX - 1, 20080510, 20991231]),
        1 => rng.word() as u32 >> rng.below(32),
        _ => (10u32.pow(rng.below(10) as u32) - 1 + rng.below(2) as u32) * rng.pick(&[1, 1, 3]),
    }
}

/// A verdict, or a number that is none.
fn some_verdict(rng: &mut Rng) -> u32 {
    if rng.one_in(4) {
        return some_number(rng);
    }
    rng.below(38) as u32
}

fn some_entry(rng: &mut Rng) -> Entry {
    let verdict = some_verdict(rng);
    let [line, at, meter, day] = [(); 4].map(|()| some_number(rng));
    Entry { line, verdict, at, meter, day }
}

fn words(report: &[Entry]) -> Vec<u32> {
    report.iter().flat_map(|e| [e.line, e.verdict, e.at, e.meter, e.day]).collect()
}

/// The pages of a report in an output of so many bytes, by all.
fn pages_call(rng: &mut Rng, report: &[Entry], room: usize) -> u32 {
    let pages = plain_page::pages(report, room);
    let expected = match &pages {
        Ok(pages) => (0, pages.len()),
        Err(number) => (*number, 0),
    };
    let mut output = pages.unwrap_or_default().concat().into_bytes();
    output.resize(room, b'#');
    let mut words = words(report);
    words.extend((0..rng.below(ENTRY_WORDS)).map(|_| some_number(rng)));
    let mut out = Guarded::new(&vec![b'#'; room], b'!');
    let answer = kilnsorrel::page(&words, out.run());
    assert_eq!(answer, expected, "the library's answer for {} entries", report.len());
    assert!(out.run() == output, "the library's pages");
    let mut out = vec![b'#'; room];
    let answer = reference::page(report, &mut out);
    assert_eq!(answer, expected, "the fast one's answer for {} entries", report.len());
    assert!(out == output, "the fast one's pages");
    expected.0
}

/// Reports of any entries, around whole pages, into enough, less and more room.
pub fn some_pages(rng: &mut Rng) -> u32 {
    let n = rng.pick(&[0usize, 1, 2, 57, 58, 59, 115, 116, 117]);
    let report: Vec<Entry> = (0..n).map(|_| some_entry(rng)).collect();
    let whole = n.div_ceil(PAGE_ENTRIES) * PAGE_BYTES;
    let short = [whole.saturating_sub(1), whole.saturating_sub(PAGE_BYTES), whole / 2];
    let room =
        rng.pick(&[whole, whole, whole + 1, whole + PAGE_BYTES, short[0], short[1], short[2]]);
    pages_call(rng, &report, room)
}

/// Every number of digits in every column, and every verdict that has a text.
#[test]
fn every_width() {
    let rng = &mut Rng::new(8);
    let powers = (0..10).map(|k| 10u32.pow(k));
    let mut numbers: Vec<u32> = powers.flat_map(|n| [n - 1, n, n + 1]).collect();
    numbers.push(u32::MAX);
    let none = Entry::default();
    let mut report: Vec<Entry> = (0..200).map(|verdict| Entry { verdict, ..none }).collect();
    for n in numbers {
        let [first, decided] = [Entry { line: n, ..none }, Entry { verdict: n, ..none }];
        let [at, meter] = [Entry { at: n, ..none }, Entry { meter: n, ..none }];
        report.extend([first, decided, at, meter, Entry { day: n, ..none }]);
    }
    assert_eq!(pages_call(rng, &report, 10 * PAGE_BYTES), 0);
}

/// docs/VERDICTS.md has a text for each verdict, of 1 to 40 printed bytes, and no two the same.
#[test]
fn texts() {
    let verdicts = (0..1).chain(10..23).chain(30..36);
    let mut texts: Vec<&str> =
        verdicts.map(|v| plain_page::text_of(v).expect("a text for each verdict")).collect();
    let printed = |text: &&str| text.bytes().all(|b| (b' '..=b'~').contains(&b));
    assert!(texts.iter().all(|text| (1..=40).contains(&text.len()) && printed(text)));
    texts.sort_unstable();
    texts.dedup();
    assert_eq!(texts.len(), 20);
    assert_eq!((0..100_000).filter(|v| plain_page::text_of(*v).is_some()).count(), 20);
}

/// 99,999 pages pass, if the output has room for them; one more doesn't, whatever the output has.
#[test]
fn most_pages() {
    let most = MOST_PAGES * PAGE_ENTRIES;
    let report = vec![0; (most + 1) * ENTRY_WORDS];
    let (fits, over) = (&report[..most * ENTRY_WORDS], &report[..]);
    let mut output = vec![0; MOST_PAGES * PAGE_BYTES + 1];
    let (short, room) = (MOST_PAGES * PAGE_BYTES - 1, MOST_PAGES * PAGE_BYTES);
    for room in [0, short, room, room + 1] {
        assert_eq!(kilnsorrel::page(over, &mut output[..room]), (12, 0));
    }
    assert_eq!(kilnsorrel::page(fits, &mut output[..short]), (11, 0));
    assert!(output.iter().all(|b| *b == 0), "a refusal changed the output");
    assert_eq!(kilnsorrel::page(fits, &mut output), (0, MOST_PAGES));
    let line = plain_page::line_of(&Entry::default()) + "\n";
    for (p, page) in output.chunks_exact(PAGE_BYTES).enumerate() {
        assert!(page.starts_with(format!("PAGE {:05} ", p + 1).as_bytes()));
        assert!(page[2 * line.len()..].chunks_exact(line.len()).all(|l| l == line.as_bytes()));
    }
    assert_eq!(output[room], 0);
}
