//! The speed of the library beside that of the two loaders in Rust, as a table for docs/SPEED.md.
//!
//!     cargo run --release --manifest-path bench/Cargo.toml --bin bench \
//!         [-- [--quick] [--odd | --forms | --pages | --reports] [RUNS]]
//!
//! Files stand in memory; the table is cleared before each load, outside the time. The loaders take
//! turns, so that all see the same machine, and medians are shown. What they load is compared too.
//! `--pages` lays reports out alone, as the last rows do; `--odd` has files that are not as they should
//! be instead, `--forms` the realistic file in other
//! forms beside itself, `--reports` reports of entries beside reports of words.

use kilnsorrel_bench::header::{PAGE_BYTES, PAGE_ENTRIES};
use kilnsorrel_bench::kilnsorrel::{self, State};
use kilnsorrel_bench::reference::{self, CELL_WORDS, MAX_RECORD};
use kilnsorrel_bench::rng::Rng;
use kilnsorrel_bench::sample::{self, Values, World};
use kilnsorrel_bench::Entry;
use std::hint::black_box;
use std::time::Instant;

const DESCRIPTOR: &[u8] = b"EXPORT0001";

#[derive(Clone, Copy)]
enum Loader {
    Library,
    /// The library, with a report of entries.
    Entries,
    Fast,
    Ordinary,
}

use Loader::{Entries, Fast, Library, Ordinary};

const ALL: [Loader; 3] = [Library, Fast, Ordinary];

/// What is loaded, and where to.
struct Job {
    registry: Vec<u8>,
    file: Vec<u8>,
    table: Vec<u32>,
    report: Vec<Entry>,
}

/// What a load gave: entries, how many of them loaded, and a sum over the table.
#[derive(Clone, Copy, PartialEq, Debug)]
struct Loaded {
    entries: usize,
    loaded: usize,
    sum: u64,
}

impl Job {
    fn new(world: &World, file: Vec<u8>) -> Job {
        let report = vec![Entry::default(); 2 + (1 << 20) / 2];
        Job { registry: world.registry.clone(), file, table: vec![0; world.words()], report }
    }

    /// Feeds the file in pieces and ends it: the entries, and how many of them loaded.
    fn run<S>(
        &mut self,
        mut state: S,
        size: usize,
        feed: impl Fn(&mut S, &[u8], &[u8], &mut [u32], &mut [Entry]) -> (u32, usize),
        finish: impl Fn(&mut S, &[u8], &mut [u32], &mut [Entry]) -> (u32, usize),
    ) -> (usize, usize) {
        let Job { registry, file, table, report } = self;
        let (mut entries, mut loaded) = (0, 0);
        let mut tally = |(number, count): (u32, usize), report: &[Entry]| {
            assert_eq!(number, 0, "a call is refused");
            entries += count;
            loaded += report[..count].iter().filter(|e| e.verdict == 0).count();
        };
        for piece in file.chunks(size) {
            tally(feed(&mut state, piece, registry, table, report), report);
        }
        tally(finish(&mut state, registry, table, report), report);
        (entries, loaded)
    }

    /// One load of the whole file: the seconds that it takes, and what it gives.
    fn load(&mut self, by: Loader, size: usize) -> (f64, Loaded) {
        self.table.fill(0);
        let start = Instant::now();
        let (entries, loaded) = match by {
            Library => self.run(State::fresh(), size, State::feed, State::finish),
            Entries => self.run(State::fresh(), size, State::feed_entries, State::finish_entries),
            Fast => self.run(reference::fresh(), size, reference::feed, reference::finish),
            Ordinary => {
                self.run(reference::fresh(), size, reference::feed_ordinary, reference::finish)
            }
        };
        let seconds = start.elapsed().as_secs_f64();
        let sum = self.table.iter().fold(0u64, |s, w| s.wrapping_mul(31).wrapping_add(*w as u64));
        (seconds, Loaded { entries, loaded, sum })
    }
}

/// Seconds of so many runs of each, in turn; one more before them warms up.
fn turns<const N: usize>(runs: usize, mut run: impl FnMut(usize) -> f64) -> [Vec<f64>; N] {
    let mut times = [const { Vec::new() }; N];
    for turn in 0..=runs {
        for (i, times) in times.iter_mut().enumerate() {
            let seconds = run(i);
            if turn > 0 {
                times.push(seconds);
            }
        }
    }
    times
}

fn median(times: impl Iterator<Item = f64>) -> f64 {
    let mut times: Vec<f64> = times.collect();
    times.sort_by(f64::total_cmp);
    times[times.len() / 2]
}

/// A number with commas between thousands.
fn grouped(x: f64) -> String {
    let digits = format!("{x:.0}");
    let mut text = String::new();
    for (i, digit) in digits.chars().enumerate() {
        if i > 0 && (digits.len() - i) % 3 == 0 {
            text.push(',');
        }
        text.push(digit);
    }
    text
}

/// One line of a table in which so many take part: what was done, how much of it in a second by
/// each, and how the first one's speed stands to the others', turn by turn, since the machine may be
/// busy with other things.
fn show(what: &str, amount: f64, times: &[Vec<f64>], parts: usize) {
    let mut speeds: Vec<String> =
        times.iter().map(|t| grouped(amount / median(t.iter().copied()))).collect();
    let to = |other: &Vec<f64>| median(times[0].iter().zip(other).map(|(a, b)| b / a));
    let mut ratios: Vec<String> = times[1..].iter().map(|t| format!("{:.2}", to(t))).collect();
    speeds.resize(parts, "-".to_string());
    ratios.resize(parts - 1, "-".to_string());
    println!("| {what} | {} | {} |", speeds.join(" | "), ratios.join(" | "));
}

/// Megabytes of the file that each loader takes in a second, in pieces of a size.
fn show_load<const N: usize>(what: &str, job: &mut Job, by: [Loader; N], size: usize, runs: usize) {
    let mut first = None;
    let times: [Vec<f64>; N] = turns(runs, |i| {
        let (seconds, loaded) = job.load(by[i], size);
        assert_eq!(*first.get_or_insert(loaded), loaded, "the loaders differ");
        seconds
    });
    show(what, job.file.len() as f64 / 1e6, &times, N);
}

/// Calls that each makes in a second; `call` makes call number i by the library, or else by the
/// fast loader.
fn show_calls(what: &str, calls: usize, runs: usize, mut call: impl FnMut(bool, usize)) {
    let times: [Vec<f64>; 2] = turns(runs, |by| {
        let start = Instant::now();
        for i in 0..calls {
            call(by == 0, i);
        }
        start.elapsed().as_secs_f64()
    });
    show(what, calls as f64, &times, ALL.len());
}

const SIZES: [(usize, &str); 3] = [(4096, "4 KiB"), (65536, "64 KiB"), (1 << 20, "1 MiB")];

/// Loads of five files, the first given, in pieces of each size; the table as the last left it.
fn loads(rng: &mut Rng, world: &World, realistic: Vec<u8>, runs: usize) -> Vec<u32> {
    let every_length = sample::file(rng, world, Values::EveryLength, 0);
    let damaged = sample::file(rng, world, Values::Usual, 50);
    let with_crs = sample::with_ends(&realistic, b"\r\n");
    let late = sample::stopping_late(&realistic);
    let mut job = Job::new(world, realistic);
    let files = [
        ("realistic", None),
        ("values of every length", Some(every_length)),
        ("5 % of records damaged", Some(damaged)),
        ("realistic, lines end with CR LF", Some(with_crs)),
        ("realistic, days stop at 235959", Some(late)),
    ];
    for (name, file) in files {
        if let Some(file) = file {
            job.file = file;
        }
        for (size, pieces) in SIZES {
            show_load(&format!("load, {name}, {pieces}, MB/s"), &mut job, ALL, size, runs);
        }
    }
    job.table
}

/// Loads of files that are not as they should be, in pieces of 1 MiB.
fn odd_loads(rng: &mut Rng, world: &World, realistic: Vec<u8>, runs: usize) {
    let files = [
        ("all records damaged", sample::file(rng, world, Values::Usual, 1000)),
        ("values of nine bytes", sample::file(rng, world, Values::Long, 0)),
        ("an empty line behind every line", sample::with_ends(&realistic, b"\n\n")),
        ("lines of one byte", b"x\n".repeat(20_000_000)),
        ("no LF at all", vec![b'x'; 80_000_000]),
    ];
    let mut job = Job::new(world, realistic);
    for (name, file) in files {
        job.file = file;
        show_load(&format!("load, {name}, 1 MiB, MB/s"), &mut job, ALL, 1 << 20, runs);
    }
}

/// The library with the realistic file in other forms beside itself, in pieces of 1 MiB.
fn forms(world: &World, realistic: Vec<u8>, runs: usize) {
    println!("| | in that form | as it is | form to file |");
    println!("|---|---:|---:|---:|");
    let forms = [
        ("days stop at 235959", sample::stopping_late(&realistic)),
        ("lines end with CR LF", sample::with_ends(&realistic, b"\r\n")),
    ];
    for (name, form) in forms {
        let mut jobs = [Job::new(world, form), Job::new(world, realistic.clone())];
        let mut first = None;
        let times: [Vec<f64>; 2] = turns(runs, |i| {
            let (seconds, loaded) = jobs[i].load(Library, 1 << 20);
            assert_eq!(*first.get_or_insert(loaded), loaded, "the forms differ");
            // As if both had the same bytes.
            seconds * realistic.len() as f64 / jobs[i].file.len() as f64
        });
        show(&format!("load, {name}, 1 MiB, MB/s"), realistic.len() as f64 / 1e6, &times, 2);
    }
}

/// The library with a report of entries beside the library with one of words, in pieces of 1 MiB: a
/// file in which a verdict falls once a record, and one in which it falls at every line.
fn reports(world: &World, realistic: Vec<u8>, runs: usize) {
    println!("| | entries | words | entries to words |");
    println!("|---|---:|---:|---:|");
    let mut job = Job::new(world, realistic);
    show_load("load, realistic, 1 MiB, MB/s", &mut job, [Entries, Library], 1 << 20, runs);
    job.file = b"00000001\n".repeat(9_000_000);
    let dense = "load, a verdict every nine bytes, 1 MiB, MB/s";
    show_load(dense, &mut job, [Entries, Library], 1 << 20, runs);
}

/// Write and Estimates, whole calls on cells spread over the table, and the registry's test by
/// itself.
fn calls(world: &World, table: &[u32], calls: usize, runs: usize) {
    let (registry, days) = (&world.registry[..], world.days as usize);
    let filled: Vec<usize> = (0..world.cells()).filter(|n| table[n * CELL_WORDS] != 0).collect();
    let address = |i: usize| {
        let n = filled[i * 7919 % filled.len()];
        (n / days / 2, n / days % 2, n % days)
    };
    let mut out = vec![0; MAX_RECORD];
    show_calls("Write, calls/s", calls, runs, |ours, i| {
        let (m, c, d) = address(i);
        let write = if ours { kilnsorrel::write } else { reference::write };
        let (number, _) = write(registry, table, m, c, d, DESCRIPTOR, &mut out);
        assert_eq!(number, 0);
        black_box(&out);
    });
    show_calls("Estimates, calls/s", calls, runs, |ours, i| {
        let (m, c, d) = address(i);
        let estimates = if ours { kilnsorrel::estimates } else { reference::estimates };
        let (number, count) = estimates(registry, table, m, c, d);
        assert_eq!(number, 0);
        black_box(count);
    });
    // With no table a call ends behind the registry's test, by 3.
    show_calls("registry test alone, calls/s", calls, runs, |ours, _| {
        let estimates = if ours { kilnsorrel::estimates } else { reference::estimates };
        let (number, _) = estimates(black_box(registry), &[], 0, 0, 0);
        assert_eq!(number, 3);
    });
}

/// A report of so many entries, as a month gives it, or with any verdict anywhere.
fn some_report(rng: &mut Rng, entries: u32, any_verdict: bool) -> Vec<Entry> {
    let entry = |i: u32| {
        let verdict = match any_verdict || rng.one_in(20) {
            true => rng.pick(&[0, 10, 12, 13, 15, 17, 20, 22, 30, 31, 34, 35]),
            false => 0,
        };
        let (line, meter) = (1 + 29 * i, 1 + rng.below(1000) as u32);
        Entry { line, verdict, at: line + 28, meter, day: 20081001 + rng.below(31) as u32 }
    };
    (0..entries).map(entry).collect()
}

/// Entries of a report that are laid out in a second.
fn pages(rng: &mut Rng, entries: u32, runs: usize) {
    let mut output = vec![0; PAGE_BYTES * (entries as usize).div_ceil(PAGE_ENTRIES)];
    for (name, any_verdict) in [("a month's verdicts", false), ("any verdicts", true)] {
        let mut report = some_report(rng, entries, any_verdict);
        let mut first = None;
        let times: [Vec<f64>; 2] = turns(runs, |by| {
            output.fill(0);
            let start = Instant::now();
            let answer = match by {
                0 => kilnsorrel::page(kilnsorrel::words_of(&mut report), &mut output),
                _ => reference::page(&report, &mut output),
            };
            let seconds = start.elapsed().as_secs_f64();
            assert_eq!(answer.0, 0);
            let sum = output.iter().fold(0u64, |s, b| s.wrapping_mul(31).wrapping_add(*b as u64));
            assert_eq!(*first.get_or_insert(sum), sum, "the pages differ");
            seconds
        });
        let what = format!("pages, {} entries, {name}, entries/s", grouped(entries.into()));
        show(&what, entries.into(), &times, ALL.len());
    }
}

/// What the processor calls itself.
fn processor() -> String {
    let about = std::fs::read_to_string("/proc/cpuinfo").unwrap_or_default();
    let name = about.lines().find_map(|line| line.strip_prefix("model name"));
    name.map_or("unknown", |name| name.trim_start_matches(['\t', ' ', ':'])).to_string()
}

const COLUMNS: &str = "| | Kilnsorrel | fast Rust | ordinary Rust | to fast | to ordinary |\n\
                       |---|---:|---:|---:|---:|---:|";

fn main() {
    let (mut days, mut some_calls, mut some_entries) = (62, 4000, 1_000_000);
    let (mut runs, mut only) = (7, String::new());
    for word in std::env::args().skip(1) {
        match word.parse() {
            Ok(n) if n > 0 => runs = n,
            _ if word == "--quick" => (days, some_calls, some_entries) = (6, 500, 50_000),
            _ if ["--odd", "--forms", "--pages", "--reports"].contains(&&word[..]) => only = word,
            _ => panic!("bench [--quick] [--odd | --forms | --pages | --reports] [RUNS]"),
        }
    }
    let rng = &mut Rng::new(1);
    let world = World::usual(rng, 20081001, days, 1000);
    let file = sample::file(rng, &world, Values::Usual, 0);
    let size = file.len() as f64 / 1e6;
    println!("Processor: {}. 1,000 meters, {days} days, a file of {size:.1} MB.", processor());
    println!("Medians of {runs} runs. MB are 10^6 bytes.\n");
    if only == "--reports" {
        return reports(&world, file, runs);
    }
    if only == "--forms" {
        return forms(&world, file, runs);
    }
    println!("{COLUMNS}");
    if only == "--pages" {
        return pages(rng, some_entries, runs);
    }
    if only == "--odd" {
        return odd_loads(rng, &world, file, runs);
    }
    let table = loads(rng, &world, file, runs);
    calls(&world, &table, some_calls, runs);
    pages(rng, some_entries, runs);
}
