//! The program lseload over the fast loader in Rust: what `ends` measures the library's against.
//!
//! It reads registry.dat and standard input and writes a line for each entry, as document 01 says.

use kilnsorrel_bench::reference::{feed, finish, fresh, CELL_WORDS};
use kilnsorrel_bench::Entry;
use std::io::{self, BufWriter, Read, Write};

const CELLS: usize = 64;
const PIECE_SIZE: usize = 262_144;

/// A piece of the input, as long as there is one.
fn read_piece(input: &mut impl Read, piece: &mut [u8]) -> io::Result<usize> {
    let mut n = 0;
    while n < piece.len() {
        match input.read(&mut piece[n..])? {
            0 => break,
            more => n += more,
        }
    }
    Ok(n)
}

fn main() -> io::Result<()> {
    let registry = match std::fs::read("registry.dat") {
        Err(error) if error.kind() == io::ErrorKind::NotFound => Vec::new(),
        read => read?,
    };
    let mut table = vec![0; CELLS * CELL_WORDS];
    let mut report = vec![Entry::default(); 2 + PIECE_SIZE / 2];
    let mut piece = vec![0; PIECE_SIZE];
    let mut input = io::stdin().lock();
    let mut out = BufWriter::new(io::stdout().lock());
    let mut state = fresh();
    writeln!(out, "line verdict at meter day")?;
    loop {
        let n = read_piece(&mut input, &mut piece)?;
        let (number, count) = match n {
            0 => finish(&mut state, &registry, &mut table, &mut report),
            _ => feed(&mut state, &piece[..n], &registry, &mut table, &mut report),
        };
        if number != 0 {
            writeln!(out, "refused {number}")?;
            break;
        }
        for e in &report[..count] {
            writeln!(out, "{} {} {} {} {}", e.line, e.verdict, e.at, e.meter, e.day)?;
        }
        if n == 0 {
            break;
        }
    }
    out.flush()
}
