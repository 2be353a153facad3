//! States that come from no calls: the library reads them freely, but returns, and writes nowhere
//! else.

use kilnsorrel_bench::header::{ENTRY_WORDS, STATE_WORDS};
use kilnsorrel_bench::hostile;
use kilnsorrel_bench::kilnsorrel::{self, layout, State};
use kilnsorrel_bench::reference::{plain, MAX_TAKEN};
use kilnsorrel_bench::rng::Rng;
use kilnsorrel_bench::sample::World;
use kilnsorrel_bench::Entry;

use crate::loaders::{Guarded, GUARD};
use crate::Seen;

/// A word of a report before a call.
const FILL: u32 = GUARD - 1;

/// Refusal 1, by a state's words.
fn overfull(s: &[u32; STATE_WORDS]) -> bool {
    let wide = |i: usize| s[i] as u64 + ((s[i + 1] as u64) << 32);
    let takes_rows = s[layout::UNIT] == 1;
    let details = s[layout::UNIT + 2].saturating_sub(4);
    wide(layout::HELD) > layout::LINE_BYTES as u64
        || wide(layout::TAKEN) > MAX_TAKEN as u64
        || takes_rows && details > 25
        || s[layout::LINES] as u64 > wide(layout::TAKEN)
}

/// The same call with a report of entries: it answers and leaves what the one with words did.
fn by_entries(
    w: &World,
    mut state: [u32; STATE_WORDS],
    piece: Option<&[u8]>,
    answer: (u32, usize),
    start: &[u32],
    [state_after, table_after, report_after]: [&mut Guarded<u32>; 3],
) {
    let room = report_after.run().len() / ENTRY_WORDS;
    let filler = Entry { line: FILL, verdict: FILL, at: FILL, meter: FILL, day: FILL };
    let mut table = Guarded::new(start, GUARD);
    let mut report = Guarded::new(&vec![filler; room], filler);
    let given = match piece {
        Some(p) => kilnsorrel::feed_entries(&mut state, p, &w.registry, table.run(), report.run()),
        None => kilnsorrel::finish_entries(&mut state, &w.registry, table.run(), report.run()),
    };
    assert_eq!(given, answer, "the answer by entries");
    assert!(state_after.run() == state, "the state by entries");
    assert!(table_after.run() == table.run(), "the table by entries");
    let words = kilnsorrel::words_of(report.run());
    assert!(report_after.run().starts_with(words), "the report of entries");
}

/// A call with a forged state: it returns, by number 1 just where it must, and writes nowhere but
/// in cells and entries.
fn forged_call(rng: &mut Rng, w: &World, state: &mut Guarded<u32>, piece: Option<&[u8]>) -> u32 {
    let before: [u32; STATE_WORDS] = state.run().try_into().expect("a state");
    let room = 2 + piece.map_or(0, |p| p.len() / 2);
    let start = hostile::table(rng, w);
    let mut table = Guarded::new(&start, GUARD);
    let words = room * ENTRY_WORDS + rng.below(ENTRY_WORDS);
    let mut report = Guarded::new(&vec![FILL; words], GUARD);
    let (number, count) = match piece {
        Some(p) => kilnsorrel::feed_words(state.run(), p, &w.registry, table.run(), report.run()),
        None => kilnsorrel::finish_words(state.run(), &w.registry, table.run(), report.run()),
    };
    by_entries(w, before, piece, (number, count), &start, [state, &mut table, &mut report]);
    let taken = before[layout::TAKEN] as usize;
    let due = match overfull(&before) {
        true => 1,
        false => plain::refusal(&w.registry, start.len(), room, taken, piece.map(<[u8]>::len)),
    };
    assert_eq!(number, due, "of the state {before:?}");
    assert!(count <= room, "more entries than there is room");
    let behind = &report.run()[count * ENTRY_WORDS..];
    assert!(behind.iter().all(|w| *w == FILL), "a write behind the entries");
    assert!(table.run()[w.words()..] == start[w.words()..], "a write past the last cell");
    let after: [u32; STATE_WORDS] = state.run().try_into().expect("a state");
    if number != 0 {
        assert!(count == 0 && table.run() == start && after == before, "a refusal's changes");
    } else {
        assert!(!overfull(&after), "a call that is done leaves an overfull state");
    }
    if number == 0 && piece.is_none() {
        assert!(after == *State::fresh().words(), "finish leaves a fresh state");
    }
    number
}

/// Some forged states, each fed twice and finished.
pub fn forged_states(rng: &mut Rng, w: &World, middle: &State, seen: &mut Seen) {
    for _ in 0..4 {
        let units = rng.below(3);
        let file = hostile::file(rng, w, units);
        let mut piece = file[rng.below(file.len() + 1)..].to_vec();
        let mut words = *middle.words();
        match rng.below(4) {
            0 => hostile::change_state(rng, &mut words),
            1 => (words, piece) = hostile::rows_due(rng),
            _ => words = hostile::any_state(rng),
        }
        let mut state = Guarded::new(&words, GUARD);
        for piece in [Some(&piece[..]), Some(&file), None] {
            let number = forged_call(rng, w, &mut state, piece);
            seen.numbers[number as usize] += 1;
        }
    }
}
