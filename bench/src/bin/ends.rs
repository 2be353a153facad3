//! The program lseload from end to end, beside the same program over the fast loader in Rust: a file
//! of 86 MB and one twice as long, from the file cache, and what is printed thrown away.
//!
//!     cargo run --release --manifest-path bench/Cargo.toml --bin ends [-- RUNS]
//!
//! The library's is ../crates/lseload/out/lseload, from bench/ on. The two take turns; medians are shown.

use kilnsorrel_bench::rng::Rng;
use kilnsorrel_bench::sample::{self, Values, World};
use std::fs::{self, File};
use std::path::{Path, PathBuf};
use std::process::{Command, Stdio};
use std::time::Instant;

const LEAST: usize = 86_000_000;

/// A run of a program in a folder with registry.dat and a file: the seconds that it takes.
fn run(program: &Path, folder: &Path, file: &str, out: Stdio) -> f64 {
    let input = File::open(folder.join(file)).expect("the file");
    let start = Instant::now();
    let status = Command::new(program)
        .current_dir(folder)
        .stdin(input)
        .stdout(out)
        .status()
        .unwrap_or_else(|e| panic!("{}: {e}", program.display()));
    assert!(status.success());
    start.elapsed().as_secs_f64()
}

/// What a program prints.
fn printed(program: &Path, folder: &Path, file: &str) -> Vec<u8> {
    let to = folder.join("printed");
    run(program, folder, file, File::create(&to).expect("a file").into());
    fs::read(&to).expect("what was printed")
}

fn median(mut times: Vec<f64>) -> f64 {
    times.sort_by(f64::total_cmp);
    times[times.len() / 2]
}

/// A folder with a registry of 32 days for a meter, which the program's table has room for, and
/// files of its reads, each again with other values and stamps.
fn prepare() -> PathBuf {
    let folder = std::env::temp_dir().join(format!("kilnsorrel-ends-{}", std::process::id()));
    fs::create_dir_all(&folder).expect("a folder");
    let rng = &mut Rng::new(1);
    let world = World::usual(rng, 20081001, 32, 1);
    let mut file = vec![];
    while file.len() < LEAST {
        file.extend(sample::file(rng, &world, Values::Usual, 0));
    }
    fs::write(folder.join("registry.dat"), &world.registry).expect("registry.dat");
    fs::write(folder.join("once"), &file).expect("a file");
    file.extend_from_within(..);
    fs::write(folder.join("twice"), &file).expect("a file");
    folder
}

fn main() {
    let runs = std::env::args().nth(1).map_or(9, |n| n.parse().expect("a number of runs"));
    let ours = Path::new(env!("CARGO_MANIFEST_DIR")).join("../crates/lseload/out/lseload");
    let ours = ours.canonicalize().expect("crates/lseload/out/lseload: make it by `rt run` in crates/lseload");
    let theirs = std::env::current_exe().expect("a path").with_file_name("lseload");
    let folder = prepare();
    println!("| lseload, seconds | Kilnsorrel | fast Rust | ratio |");
    println!("|---|---:|---:|---:|");
    for file in ["once", "twice"] {
        let same = printed(&ours, &folder, file) == printed(&theirs, &folder, file);
        assert!(same, "the programs print different reports");
        let (mut us, mut them, mut ratios) = (vec![], vec![], vec![]);
        for _ in 0..runs {
            us.push(run(&ours, &folder, file, Stdio::null()));
            them.push(run(&theirs, &folder, file, Stdio::null()));
            ratios.push(them[them.len() - 1] / us[us.len() - 1]);
        }
        let size = fs::metadata(folder.join(file)).expect("a size").len() as f64 / 1e6;
        let (us, them, ratio) = (median(us), median(them), median(ratios));
        println!("| {size:.0} MB | {us:.3} | {them:.3} | {ratio:.2} |");
    }
    fs::remove_dir_all(&folder).expect("the folder goes");
}
