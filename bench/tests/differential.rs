//! The library against document 01's plain loader and against the fast ones: every number, count,
//! entry, word and byte of every call, over files right and damaged, cut anywhere, with refused
//! calls and forged states in between.
//!
//!     ROUNDS=20000 SEED=1 cargo test --release --manifest-path bench/Cargo.toml -- --nocapture
//!
//! A round that fails says its seed.

use kilnsorrel_bench::hostile;
use kilnsorrel_bench::reference::plain;
use kilnsorrel_bench::rng::Rng;

#[path = "differential/cells.rs"]
mod cells;
#[path = "differential/every.rs"]
mod every;
#[path = "differential/loaders.rs"]
mod loaders;
#[path = "differential/pages.rs"]
mod pages;
#[path = "differential/states.rs"]
mod states;

/// How often each verdict, each number returned and a written record came up. 12 asks for a report
/// that rounds have no time for: pages::most_pages.
pub struct Seen {
    verdicts: [u64; 36],
    numbers: [u64; 12],
    loaded_back: u64,
}

/// A number from the environment.
fn setting(name: &str, default: u64) -> u64 {
    std::env::var(name).map_or(default, |s| s.parse().expect("a number"))
}

fn one_round(seed: u64, seen: &mut Seen) {
    let _round = loaders::Failing("this round again, with ROUNDS=1: SEED", seed);
    let rng = &mut Rng::new(seed);
    let w = hostile::world(rng);
    let (table, middle) = loaders::loads(rng, &w, seen);
    let table = cells::spoiled(rng, &w, &table);
    let bad = hostile::registry(rng, &w.registry);
    for _ in 0..20 {
        cells::cell_calls(rng, &w, &w.registry, &table, seen);
    }
    if plain::estimates(&bad, &table, usize::MAX, 0, 0) == Err(2) {
        cells::cell_calls(rng, &w, &bad, &table, seen);
    }
    for _ in 0..4 {
        let changed = hostile::registry(rng, &w.registry);
        seen.numbers[cells::registry_call(&changed) as usize] += 1;
    }
    states::forged_states(rng, &w, &middle, seen);
    seen.numbers[pages::some_pages(rng) as usize] += 1;
}

/// Random rounds; with enough of them every verdict and every number must have come up.
#[test]
fn rounds() {
    let (rounds, first) = (setting("ROUNDS", 2000), setting("SEED", 1));
    let mut seen = Seen { verdicts: [0; 36], numbers: [0; 12], loaded_back: 0 };
    for seed in first..first + rounds {
        one_round(seed, &mut seen);
    }
    println!("{rounds} rounds; number returned, how often: {:?}", seen.numbers);
    println!("verdict, how often: {:?}", seen.verdicts);
    println!("written and loaded back: {}", seen.loaded_back);
    if rounds >= 1000 {
        assert!(seen.numbers.iter().all(|n| *n > 0), "a number never came up");
        for verdict in (0..1).chain(10..23).chain(30..36) {
            assert!(seen.verdicts[verdict] > 0, "verdict {verdict} never came up");
        }
    }
}
