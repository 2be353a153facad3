//! Estimates and Write, at any address of any table, by all; what is written is loaded back. And
//! the registry's rules.

use kilnsorrel_bench::hostile;
use kilnsorrel_bench::kilnsorrel::{self, State};
use kilnsorrel_bench::reference::{self, plain, registry::Index, CELL_WORDS, RECORD_BYTES};
use kilnsorrel_bench::rng::Rng;
use kilnsorrel_bench::sample::World;

use crate::loaders::{Guarded, FILLER};
use crate::Seen;

/// A number below n, or now and then not.
fn below_or_not(rng: &mut Rng, n: usize) -> usize {
    if n == 0 || rng.one_in(15) {
        return rng.pick(&[n, n + 1, 1 << 31, 1 << 32, (1 << 32) + 1, 1 << 63, usize::MAX]);
    }
    rng.below(n)
}

/// The address of a cell that is not empty, if there is one; or any.
fn some_address(rng: &mut Rng, w: &World, table: &[u32]) -> (usize, usize, usize) {
    let days = w.days as usize;
    if rng.one_in(2) && w.cells() > 0 {
        let from = rng.below(w.cells());
        let filled = |n: &usize| table[n * CELL_WORDS] != 0;
        if let Some(n) = (from..w.cells()).chain(0..from).find(filled) {
            return (n / days / 2, n / days % 2, n % days);
        }
    }
    (below_or_not(rng, w.meters.len()), below_or_not(rng, 2), below_or_not(rng, days))
}

/// A table for Estimates and Write: as loaded, some cells spoiled, now and then too short.
pub fn spoiled(rng: &mut Rng, w: &World, table: &[u32]) -> Vec<u32> {
    let mut table = table.to_vec();
    for cell in table.chunks_exact_mut(CELL_WORDS).take(w.cells()) {
        if cell[0] != 0 && rng.one_in(3) {
            hostile::spoil(rng, cell);
        }
    }
    if rng.one_in(10) {
        table.truncate(w.words() - rng.below(2).min(w.words()));
    }
    table
}

/// Where a call looks for a cell.
struct Place<'a> {
    registry: &'a [u8],
    table: &'a [u32],
    at: (usize, usize, usize),
}

/// Estimates of a cell, by all: the number.
fn estimates_call(p: &Place) -> u32 {
    let (m, c, d) = p.at;
    let expected = match plain::estimates(p.registry, p.table, m, c, d) {
        Ok(count) => (0, count),
        Err(number) => (number, 0),
    };
    let answer = kilnsorrel::estimates(p.registry, p.table, m, c, d);
    assert_eq!(answer, expected, "the library's estimates of {:?}", p.at);
    let answer = reference::estimates(p.registry, p.table, m, c, d);
    assert_eq!(answer, expected, "the fast loader's estimates of {:?}", p.at);
    expected.0
}

/// A descriptor, sometimes wrong.
fn some_descriptor(rng: &mut Rng) -> Vec<u8> {
    let n = rng.pick(&[0, 1, 2, 20, 79, 80, 81]);
    let mut descriptor = rng.bytes(n, b"09AZaz");
    if n > 0 && rng.one_in(8) {
        descriptor[rng.below(n)] = rng.pick(b" ,./:@[`{\n\0\xc1");
    }
    descriptor
}

/// Write of a cell, by all, into more, enough or too little room: the record, or the number.
fn write_call(rng: &mut Rng, p: &Place) -> Result<Vec<u8>, u32> {
    let (m, c, d) = p.at;
    let descriptor = some_descriptor(rng);
    let plainly = |room| plain::write(p.registry, p.table, m, c, d, &descriptor, room);
    let whole = plainly(RECORD_BYTES).map_or(0, |record| record.len());
    let room = rng.pick(&[whole, whole, whole.saturating_sub(1), whole + 1, RECORD_BYTES, 900, 0]);
    let record = plainly(room);
    let expected = match &record {
        Ok(bytes) => (0, bytes.len()),
        Err(number) => (*number, 0),
    };
    let mut output = record.clone().unwrap_or_default();
    output.resize(room, b'#');
    let mut out = Guarded::new(&vec![b'#'; room], b'!');
    let answer = kilnsorrel::write(p.registry, p.table, m, c, d, &descriptor, out.run());
    assert_eq!(answer, expected, "the library's write of {:?}", p.at);
    assert!(out.run() == output, "the library's written bytes of {:?}", p.at);
    let mut out = vec![b'#'; room];
    let answer = reference::write(p.registry, p.table, m, c, d, &descriptor, &mut out);
    assert_eq!(answer, expected, "the fast loader's write of {:?}", p.at);
    assert!(out == output, "the fast loader's written bytes of {:?}", p.at);
    record
}

/// Estimates and Write of some cell; what is written is loaded back.
pub fn cell_calls(rng: &mut Rng, w: &World, registry: &[u8], table: &[u32], seen: &mut Seen) {
    let place = Place { registry, table, at: some_address(rng, w, table) };
    seen.numbers[estimates_call(&place) as usize] += 1;
    match write_call(rng, &place) {
        Err(number) => seen.numbers[number as usize] += 1,
        Ok(record) => {
            load_back(rng, w, table, place.at, &record);
            seen.loaded_back += 1;
        }
    }
}

/// A written record, loaded into a cleared table: it gives its cell where the meter's flags are 6,
/// and nothing else.
pub fn load_back(
    rng: &mut Rng,
    w: &World,
    table: &[u32],
    at: (usize, usize, usize),
    record: &[u8],
) {
    let (m, c, d) = at;
    let n = (m * 2 + c) * w.days as usize + d;
    let mut expected = vec![0; w.words()];
    if w.meters[m].flags == 6 {
        expected[n * CELL_WORDS..][..CELL_WORDS]
            .copy_from_slice(&table[n * CELL_WORDS..][..CELL_WORDS]);
    }
    let mut loaded = vec![0; w.words()];
    let mut state = State::fresh();
    let mut report = vec![FILLER; 2 + record.len() / 2];
    let (a, b) = record.split_at(rng.below(record.len()));
    let mut entries = 0;
    for piece in [a, b] {
        let (number, count) = state.feed(piece, &w.registry, &mut loaded, &mut report);
        assert_eq!(number, 0);
        entries += count;
    }
    let (number, count) = state.finish(&w.registry, &mut loaded, &mut report);
    assert_eq!((number, entries + count), (0, 1), "a written record is one record");
    assert_eq!(report[0].verdict == 0, w.meters[m].flags == 6);
    assert!(loaded == expected, "a written record gives another cell");
}

/// Whether a registry breaks a rule: by all, in Estimates, which else finds the table short or the
/// address outside. The number.
pub fn registry_call(registry: &[u8]) -> u32 {
    let number = plain::estimates(registry, &[], 2000, 0, 0).expect_err("no such meter");
    let answer = kilnsorrel::estimates(registry, &[], 2000, 0, 0);
    assert_eq!(answer, (number, 0), "of registry {}", registry.escape_ascii());
    let mut index = Index::EMPTY;
    let sound = index.read(registry);
    assert_eq!(sound, number != 2, "the fast loader, of registry {}", registry.escape_ascii());
    number
}
