//! The library, the two fast loaders and the plain one, which get the same calls and must give the
//! same answers.

use kilnsorrel_bench::header::ENTRY_WORDS;
use kilnsorrel_bench::hostile;
use kilnsorrel_bench::kilnsorrel::{self, layout, State};
use kilnsorrel_bench::reference::plain::{self, Plain};
use kilnsorrel_bench::reference::{self, MAX_TAKEN};
use kilnsorrel_bench::rng::Rng;
use kilnsorrel_bench::sample::World;
use kilnsorrel_bench::Entry;

use crate::Seen;

/// What a report holds before a call.
pub const FILLER: Entry = Entry { line: 9, verdict: 99, at: 9, meter: 9, day: 9 };

/// A word that a call must leave alone.
pub const GUARD: u32 = 0xDEAD_BEEF;

/// Says more of a failure, such as the seed of its round.
pub struct Failing<T: std::fmt::Debug>(pub &'static str, pub T);

impl<T: std::fmt::Debug> Drop for Failing<T> {
    fn drop(&mut self) {
        if std::thread::panicking() {
            eprintln!("{} {:?}", self.0, self.1);
        }
    }
}

/// A run with guards before and behind it, so that a write outside is seen.
pub struct Guarded<T> {
    all: Vec<T>,
    guard: T,
}

const GUARDS: usize = 64;

impl<T: Copy + PartialEq> Guarded<T> {
    pub fn new(run: &[T], guard: T) -> Guarded<T> {
        let mut all = vec![guard; run.len() + 2 * GUARDS];
        all[GUARDS..GUARDS + run.len()].copy_from_slice(run);
        Guarded { all, guard }
    }

    /// The run, after a look at the guards.
    pub fn run(&mut self) -> &mut [T] {
        let n = self.all.len() - GUARDS;
        let intact = |run: &[T]| run.iter().all(|x| *x == self.guard);
        assert!(intact(&self.all[..GUARDS]) && intact(&self.all[n..]), "a write outside");
        &mut self.all[GUARDS..n]
    }
}

type Feed = fn(&mut reference::State, &[u8], &[u8], &mut [u32], &mut [Entry]) -> (u32, usize);

/// A fast loader at work.
struct Fast {
    feed: Feed,
    state: reference::State,
    table: Vec<u32>,
}

/// The library by the calls that take a report of entries.
struct ByEntries {
    state: State,
    table: Guarded<u32>,
}

/// All loaders, which get the same calls. `state` and `table` are the library's by the calls that
/// take a report of words.
pub struct Loaders {
    registry: Vec<u8>,
    state: State,
    pub table: Guarded<u32>,
    by_entries: ByEntries,
    fast: [Fast; 2],
    plain: Plain,
}

impl Loaders {
    pub fn new(registry: &[u8], table: &[u32]) -> Loaders {
        let fast = |feed: Feed| Fast { feed, state: reference::fresh(), table: table.to_vec() };
        Loaders {
            registry: registry.to_vec(),
            state: State::fresh(),
            table: Guarded::new(table, GUARD),
            by_entries: ByEntries { state: State::fresh(), table: Guarded::new(table, GUARD) },
            fast: [fast(reference::feed), fast(reference::feed_ordinary)],
            plain: Plain::new(registry, table),
        }
    }

    /// Forges how many bytes were taken, to come near the limit.
    pub fn set_taken(&mut self, taken: usize) {
        let mut words = *self.state.words();
        words[layout::TAKEN] = taken as u32;
        self.state = State::from_words(words);
        self.by_entries.state = self.state.clone();
        self.plain.taken = taken;
        for fast in &mut self.fast {
            fast.state.taken = taken;
        }
    }

    /// A feed of a piece, or a finish, by all loaders: the number and the entries, which must be
    /// the same.
    pub fn call(&mut self, piece: Option<&[u8]>, room: usize) -> (u32, Vec<Entry>) {
        let (number, entries) = match piece {
            Some(piece) => self.plain.feed(piece, room),
            None => self.plain.finish(room),
        };
        let mut report = entries.clone();
        report.resize(room, FILLER);
        assert!(report.starts_with(&entries), "more entries than there is room");
        self.call_library(piece, (number, entries.len()), &report);
        self.call_by_entries(piece, (number, entries.len()), &report);
        for fast in &mut self.fast {
            let mut r = vec![FILLER; room];
            let answer = match piece {
                Some(p) => (fast.feed)(&mut fast.state, p, &self.registry, &mut fast.table, &mut r),
                None => reference::finish(&mut fast.state, &self.registry, &mut fast.table, &mut r),
            };
            assert_eq!(answer, (number, entries.len()), "a fast loader's answer");
            assert!(r == report, "a fast loader's report: {r:?}, not {report:?}");
            assert!(fast.table == self.plain.table(), "a fast loader's table");
        }
        (number, entries)
    }

    /// The same of the library: what it must answer and write is given.
    fn call_library(&mut self, piece: Option<&[u8]>, answer: (u32, usize), report: &[Entry]) {
        let before = self.state.clone();
        let mut r = Guarded::new(&vec![FILLER; report.len()], FILLER);
        let given = match piece {
            Some(p) => self.state.feed(p, &self.registry, self.table.run(), r.run()),
            None => self.state.finish(&self.registry, self.table.run(), r.run()),
        };
        assert_eq!(given, answer, "the library's answer");
        assert_eq!(r.run(), report, "the library's report");
        assert!(self.table.run() == self.plain.table(), "the library's table");
        if answer.0 != 0 {
            assert!(self.state == before, "a refusal changed the state");
        } else if piece.is_none() {
            assert!(self.state == State::fresh(), "finish leaves a fresh state");
        }
    }

    /// The same by the calls that take a report of entries: the state must be the same, word by
    /// word.
    fn call_by_entries(&mut self, piece: Option<&[u8]>, answer: (u32, usize), report: &[Entry]) {
        let ByEntries { state, table } = &mut self.by_entries;
        let mut r = Guarded::new(&vec![FILLER; report.len()], FILLER);
        let given = match piece {
            Some(p) => state.feed_entries(p, &self.registry, table.run(), r.run()),
            None => state.finish_entries(&self.registry, table.run(), r.run()),
        };
        assert_eq!(given, answer, "the library's answer, by entries");
        assert_eq!(r.run(), report, "the library's report of entries");
        assert!(table.run() == self.plain.table(), "the library's table, by entries");
        assert!(*state == self.state, "the library's state, by entries");
    }

    /// A call that must be refused, with another registry, part of the table or a report of so many
    /// words: its number. Nothing may change. None: it would not be refused, and is not made.
    fn refused(
        &mut self,
        piece: Option<&[u8]>,
        registry: &[u8],
        words: usize,
        report: usize,
    ) -> Option<u32> {
        let (room, n) = (report / ENTRY_WORDS, piece.map(<[u8]>::len));
        let number = plain::refusal(registry, words, room, self.plain.taken, n);
        if number == 0 {
            return None;
        }
        let mut state = Guarded::new(self.state.words(), GUARD);
        let mut r = Guarded::new(&vec![GUARD - 1; report], GUARD);
        let table = &mut self.table.run()[..words];
        let answer = match piece {
            Some(p) => kilnsorrel::feed_words(state.run(), p, registry, table, r.run()),
            None => kilnsorrel::finish_words(state.run(), registry, table, r.run()),
        };
        assert_eq!(answer, (number, 0), "the library's refusal");
        assert!(state.run() == self.state.words(), "a refusal changed the state");
        assert!(self.table.run() == self.plain.table(), "a refusal changed the table");
        assert!(r.run().iter().all(|w| *w == GUARD - 1), "a refusal changed the report");
        let mut r = Guarded::new(&vec![FILLER; room], FILLER);
        let table = &mut self.by_entries.table.run()[..words];
        let answer = match piece {
            Some(p) => kilnsorrel::feed_entries(state.run(), p, registry, table, r.run()),
            None => kilnsorrel::finish_entries(state.run(), registry, table, r.run()),
        };
        assert_eq!(answer, (number, 0), "the library's refusal, by entries");
        assert!(state.run() == self.state.words(), "a refusal changed the state");
        assert!(self.by_entries.table.run() == self.plain.table(), "a refusal changed the table");
        assert!(r.run().iter().all(|e| *e == FILLER), "a refusal changed the report of entries");
        let fast = &mut self.fast[0];
        let (mut state, mut r) = (fast.state.clone(), vec![FILLER; room]);
        let answer = match piece {
            Some(p) => reference::feed(&mut state, p, registry, &mut fast.table[..words], &mut r),
            None => reference::finish(&mut state, registry, &mut fast.table[..words], &mut r),
        };
        assert_eq!(answer, (number, 0), "the fast loader's refusal");
        Some(number)
    }
}

/// Feeds and finishes that are refused.
fn refused_calls(rng: &mut Rng, l: &mut Loaders, piece: &[u8], seen: &mut Seen) {
    let good = l.registry.clone();
    let bad = hostile::registry(rng, &good);
    let words = l.table.run().len();
    for piece in [Some(piece), None] {
        let report = (2 + piece.map_or(0, |p| p.len() / 2)) * ENTRY_WORDS;
        let (few, less) = (rng.below(words + 1), rng.below(report));
        let (few, less) = rng.pick(&[(few, less), (words - words.min(1), report - 1)]);
        for (registry, words, report) in
            [(&bad, words, report), (&good, few, report), (&good, words, less), (&bad, few, less)]
        {
            if let Some(number) = l.refused(piece, registry, words, report) {
                seen.numbers[number as usize] += 1;
            }
        }
    }
}

/// A file in random pieces of up to so many bytes, with other calls in between; then the end,
/// sometimes more than once.
fn load(rng: &mut Rng, l: &mut Loaders, file: &[u8], most: usize, seen: &mut Seen) -> State {
    let mut middle = l.state.clone();
    let mut rest = file;
    loop {
        let (piece, behind) = rest.split_at(rng.below(most + 1).min(rest.len()));
        if rng.one_in(if most < 30 { 50 } else { 6 }) {
            refused_calls(rng, l, piece, seen);
        }
        let room = 2 + piece.len() / 2 + rng.below(2);
        let (number, entries) = l.call(Some(piece), room);
        seen.numbers[number as usize] += 1;
        entries.iter().for_each(|e| seen.verdicts[e.verdict as usize] += 1);
        if rng.one_in(4) {
            middle = l.state.clone();
        }
        rest = behind;
        if number != 0 || rest.is_empty() && rng.one_in(2) {
            break;
        }
        if rng.one_in(if most < 30 { 2000 } else { 60 }) {
            l.call(None, 2);
        }
    }
    for _ in 0..rng.pick(&[1, 1, 2]) {
        let room = 2 + rng.below(3);
        let (_, entries) = l.call(None, room);
        entries.iter().for_each(|e| seen.verdicts[e.verdict as usize] += 1);
    }
    middle
}

/// Files into a table, by all loaders: the table then, and a state from the midst.
pub fn loads(rng: &mut Rng, w: &World, seen: &mut Seen) -> (Vec<u32>, State) {
    let mut l = Loaders::new(&w.registry, &hostile::table(rng, w));
    let mut middle = State::fresh();
    for _ in 0..1 + rng.below(2) {
        // Tiny pieces make many calls, each with a look at the whole table.
        let most = match w.words() {
            0..10_000 => rng.pick(&[1, 3, 30, 300, 3000, 100_000]),
            10_000..50_000 => rng.pick(&[30, 300, 3000, 100_000]),
            _ => 100_000,
        };
        let units = if most < 30 { 1 + rng.below(2) } else { rng.below(9) };
        let file = hostile::file(rng, w, units);
        if rng.one_in(10) {
            let taken = (MAX_TAKEN - file.len() + rng.below(60)).min(MAX_TAKEN);
            l.set_taken(taken);
        }
        middle = load(rng, &mut l, &file, most, seen);
    }
    (l.table.run().to_vec(), middle)
}
