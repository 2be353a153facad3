//! Fixed cases, where all of a kind can be gone through: days, values, header fields, line lengths,
//! registries; and the limits.

use kilnsorrel_bench::header::{CELL_WORDS, RECORD_BYTES, STATE_WORDS};
use kilnsorrel_bench::hostile;
use kilnsorrel_bench::kilnsorrel::{self, layout, State};
use kilnsorrel_bench::reference::calendar::{day_date, DAYS_END};
use kilnsorrel_bench::reference::{self, plain, COUNT, MARKS, MAX_TAKEN, VALUES};
use kilnsorrel_bench::rng::Rng;
use kilnsorrel_bench::sample::{self, padded, Values, World};

use crate::cells::{load_back, registry_call};
use crate::loaders::{Failing, Guarded, Loaders, FILLER, GUARD};

/// Every day of 2007 to 2099: a record for it loads, and its cell is written and loaded back.
#[test]
fn every_day() {
    let rng = &mut Rng::new(1);
    let mut w = World::of_window(20070101, 62);
    let first_owner = sample::duns(rng);
    loop {
        w.add_owner(&first_owner);
        w.add_meter(b"A".to_vec(), first_owner.clone(), 6);
        let file = sample::file(rng, &w, Values::Usual, 0);
        let mut l = Loaders::new(&w.registry, &vec![0; w.words()]);
        for piece in file.chunks(3000) {
            let (_, entries) = l.call(Some(piece), 2 + piece.len() / 2);
            assert!(entries.iter().all(|e| e.verdict == 0));
        }
        l.call(None, 2);
        let table = l.table.run();
        let mut out = vec![0; RECORD_BYTES];
        for d in 0..w.days as usize {
            let (number, n) = kilnsorrel::write(&w.registry, table, 0, 0, d, b"X", &mut out);
            assert_eq!(number, 0, "day {d} from {}", w.first);
            load_back(rng, &w, table, (0, 0, d), &out[..n]);
        }
        let next = w.first + w.days;
        if next == DAYS_END {
            break;
        }
        let days = (DAYS_END - next).min(62);
        w = World::of_window(day_date(next), days);
    }
}

/// One record, by all loaders, in one piece or in two, into a cleared table.
fn one_record(rng: &mut Rng, w: &World, lines: &[Vec<u8>]) {
    let mut file = lines.join(&b"\n"[..]);
    file.push(b'\n');
    let cut = if rng.one_in(2) { 0 } else { rng.below(file.len()) };
    let _file = Failing("of the file", file.escape_ascii().to_string());
    let mut l = Loaders::new(&w.registry, &vec![0; w.words()]);
    for piece in [&file[..cut], &file[cut..]] {
        l.call(Some(piece), 2 + piece.len() / 2);
    }
    l.call(None, 2);
}

/// Every text of up to five of the bytes that values are made of or mistaken for, every byte
/// beside a digit, and many longer texts, as a value; every byte as a status.
#[test]
fn every_value() {
    const BYTES: &[u8] = b"07.-a";
    let rng = &mut Rng::new(2);
    let mut texts: Vec<Vec<u8>> = vec![vec![]];
    for i in 0..(1 + 5 + 25 + 125 + 625) {
        for b in BYTES {
            texts.push([&texts[i][..], &[*b]].concat());
        }
    }
    for b in 0..=255 {
        texts.extend([vec![b], vec![b, b'1'], vec![b'1', b], vec![b'1', b'.', b, b'1']]);
    }
    texts.extend((0..4000).map(|_| hostile::odd_value(rng)));
    let w = World::usual(rng, 20080510, 1, 1);
    let stamp = "20080511000000";
    let right = sample::record(rng, &w.meters[0], b'4', w.first, stamp, Values::Usual);
    for (i, text) in texts.iter().enumerate() {
        let mut lines = right.clone();
        hostile::put_field(&mut lines[5 + i % 24], 1 + 3 * (i / 24 % 4), text);
        one_record(rng, &w, &lines);
    }
    for b in 0..=255 {
        let mut lines = right.clone();
        hostile::put_field(&mut lines[5 + rng.below(24)], 2 + 3 * rng.below(4), &[b]);
        one_record(rng, &w, &lines);
    }
}

/// Every field of a header row with every text that is right or nearly so: one at a time, names of
/// every length, every byte in a name, and times with each digit changed.
#[test]
fn every_header() {
    let rng = &mut Rng::new(5);
    let w = World::usual(rng, 20080309, 1, 1);
    let stamp = "20080310000000";
    let right = sample::record(rng, &w.meters[0], b'4', w.first, stamp, Values::Usual);
    let mut changes: Vec<(usize, usize, Vec<u8>)> = vec![];
    for (row, field, texts) in hostile::NEAR {
        changes.extend(texts.split('|').map(|text| (*row, *field, text.as_bytes().to_vec())));
    }
    for (row, most) in [(0, 66), (2, 82)] {
        changes.extend((0..=most).map(|n| (row, 1, vec![b'a'; n])));
        changes.extend((0..=255).map(|b| (row, 1, vec![b'A', b, b'9'])));
    }
    for (row, field) in [(0, 3), (0, 4), (3, 1)] {
        for i in 0..14 * 12 {
            let mut time = *b"20080309235900";
            time[i / 12] = b'/' + i as u8 % 12;
            changes.push((row, field, time.to_vec()));
        }
    }
    for (row, field, text) in changes {
        let mut lines = right.clone();
        hostile::put_field(&mut lines[row], field, &text);
        one_record(rng, &w, &lines);
    }
    for i in 0..27 {
        let mut lines = right.clone();
        for (field, kind) in [(1, i % 3), (2, i / 3 % 3), (3, i / 9)] {
            hostile::put_field(&mut lines[1], field, [&b""[..], b"1", b"x"][kind]);
        }
        one_record(rng, &w, &lines);
    }
}

/// Every line of a record at lengths around the limit, with and without CR, and in the next piece.
#[test]
fn every_length() {
    let rng = &mut Rng::new(6);
    let w = World::usual(rng, 20080510, 1, 1);
    let stamp = "20080511000000";
    let right = sample::record(rng, &w.meters[0], b'4', w.first, stamp, Values::Usual);
    for row in 0..=right.len() {
        for n in 198..=203 {
            for fill in *b",0\r" {
                let mut lines = right.clone();
                lines.push(b"10".to_vec());
                lines[row].resize(n, fill);
                if rng.one_in(2) {
                    lines[row].push(b'\r');
                }
                one_record(rng, &w, &lines);
            }
        }
    }
}

/// A registry with each byte changed, cut at each place, each entry lost, doubled or moved, and
/// each number of days.
#[test]
fn every_registry() {
    const BYTES: &[u8] = b" /09:@AZ[`az{\0\x01\x02\x03\x04\x06\x07\x08\x80\xff";
    let entry = |kind: u8, text: &[u8], size: usize, end: &[u8]| {
        [&[kind], &padded(text, size)[..], end].concat()
    };
    let entries = [
        entry(1, b"2008051002", 10, b""),
        entry(2, b"123456789", 13, b""),
        entry(3, b"A", 64, &[6]),
        entry(2, b"1234567890123", 13, b""),
        entry(3, b"A0", 64, &[7]),
        entry(3, &[b'B'; 64], 64, &[0]),
    ];
    let right = entries.concat();
    assert_eq!(registry_call(&right), 3);
    for at in 0..right.len() {
        registry_call(&right[..at]);
        for b in BYTES {
            let mut changed = right.clone();
            changed[at] = *b;
            registry_call(&changed);
        }
    }
    for i in 0..entries.len() {
        registry_call(&[&entries[..i], &entries[i + 1..]].concat().concat());
        registry_call(&[&entries[..i], &entries[i..i + 1], &entries[i..]].concat().concat());
        for j in 0..i {
            let mut moved = entries.clone();
            moved.swap(i, j);
            registry_call(&moved.concat());
        }
    }
    for days in 0..100 {
        for first in [20070101, 20080510, 20991031, 20991101, 20991230, 20991231, 21000101] {
            let window = format!("\x01{first}{days:02}");
            registry_call(&[window.as_bytes(), &right[11..]].concat());
        }
    }
}

/// A thousand meters, in pieces of some kinds: the library against the fast loader alone.
#[test]
fn large_file() {
    let rng = &mut Rng::new(3);
    let w = World::usual(rng, 20081101, 3, 1000);
    let file = sample::file(rng, &w, Values::EveryLength, 50);
    for size in [4096, 65536, 1 << 20] {
        let (mut ours, mut theirs) = (vec![0; w.words()], vec![0; w.words()]);
        let (mut state, mut fast) = (State::fresh(), reference::fresh());
        let mut r = vec![FILLER; 2 + size / 2];
        let mut s = r.clone();
        for piece in file.chunks(size) {
            let answer = state.feed(piece, &w.registry, &mut ours, &mut r);
            let due = reference::feed(&mut fast, piece, &w.registry, &mut theirs, &mut s);
            assert_eq!(answer, due);
            assert!(r == s);
        }
        let answer = state.finish(&w.registry, &mut ours, &mut r);
        assert_eq!(answer, reference::finish(&mut fast, &w.registry, &mut theirs, &mut s));
        assert!(r == s && ours == theirs);
    }
}

/// Of another length a state is refused, before anything else, and nothing changes.
#[test]
fn state_lengths() {
    for n in [0, 1, layout::HELD, STATE_WORDS - 1, STATE_WORDS + 1, 1000] {
        let mut state = Guarded::new(&vec![7; n], GUARD);
        let mut table = vec![7; 10];
        let mut report = vec![7; 10];
        assert_eq!(kilnsorrel::fresh_words(state.run()), (1, 0));
        let answer = kilnsorrel::feed_words(state.run(), b"\n", b"", &mut table, &mut report);
        assert_eq!(answer, (1, 0));
        let answer = kilnsorrel::finish_words(state.run(), b"", &mut table, &mut report);
        assert_eq!(answer, (1, 0));
        let mut entries = [FILLER; 2];
        let answer = kilnsorrel::feed_entries(state.run(), b"\n", b"", &mut table, &mut entries);
        assert_eq!(answer, (1, 0));
        let answer = kilnsorrel::finish_entries(state.run(), b"", &mut table, &mut entries);
        assert_eq!(answer, (1, 0));
        assert_eq!(entries, [FILLER; 2]);
        assert!(state.run().iter().chain(&table).chain(&report).all(|w| *w == 7));
    }
}

/// The longest record that there is: it is written, and loaded back.
#[test]
fn longest_record() {
    let mut w = World::of_window(20081102, 1);
    w.add_owner(b"1234567890123");
    w.add_meter(vec![b'A'; 64], b"1234567890123".to_vec(), 6);
    let mut table = vec![0; w.words()];
    table[COUNT..MARKS].copy_from_slice(&[100, 20991231, 235959]);
    table[MARKS..VALUES].copy_from_slice(&[u32::MAX, u32::MAX, u32::MAX, 15]);
    table[VALUES..CELL_WORDS].fill(999_999_999);
    let mut out = vec![0; RECORD_BYTES];
    let answer = kilnsorrel::write(&w.registry, &table, 0, 0, 0, &[b'z'; 80], &mut out);
    assert_eq!(answer, (0, RECORD_BYTES));
    let due = plain::write(&w.registry, &table, 0, 0, 0, &[b'z'; 80], RECORD_BYTES);
    assert_eq!(due.as_ref(), Ok(&out));
    assert_eq!(kilnsorrel::estimates(&w.registry, &table, 0, 0, 0), (0, 100));
    load_back(&mut Rng::new(4), &w, &table, (0, 0, 0), &out);
}

/// 1,000 meters pass, 1,001 don't; 200,000,000 bytes pass, one more doesn't.
#[test]
fn limits() {
    for n in [1000, 1001] {
        let mut w = World::of_window(20080510, 1);
        w.add_owner(b"123456789");
        for i in 0..n {
            w.add_meter(format!("{i:05}").into_bytes(), vec![], 6);
        }
        let number = if n == 1000 { 6 } else { 2 };
        let table = vec![0; w.words()];
        assert_eq!(kilnsorrel::estimates(&w.registry, &table, n, 0, 0), (number, 0));
        assert_eq!(plain::estimates(&w.registry, &table, n, 0, 0), Err(number));
    }
    let registry = [&b"\x012008051001\x02"[..], &padded(b"123456789", 13)].concat();
    let mut l = Loaders::new(&registry, &[]);
    l.set_taken(MAX_TAKEN - 1);
    assert_eq!(l.call(Some(b"xy"), 3).0, 5);
    assert_eq!(l.call(Some(b"xy"), 2).0, 4);
    assert_eq!(l.call(Some(b"x"), 2).0, 0);
    assert_eq!(l.call(Some(b""), 2).0, 0);
    assert_eq!(l.call(Some(b"y"), 2).0, 5);
    assert_eq!(l.call(None, 2).1.len(), 1);
    assert_eq!(l.call(Some(b"y"), 2).0, 0);
}
