//! A file of cases (crates/vectors/data) as a text that can be read and written by hand, and back.
//!
//!     case 7                  fed in pieces of 7 bytes
//!     registry
//!     |\x012008051001         these bytes
//!     file
//!     >00000001,104,4         these bytes and an LF
//!     |00000002               a last line with no LF
//!
//! Bytes that are not printed, a backslash and a blank at a line's end are written `\xHH`. In a text,
//! empty lines and those that begin with `#` say nothing.

use std::fmt::Write;

/// A registry, and a file that is fed in pieces of so many bytes.
#[derive(Default)]
struct Case {
    cut: u32,
    registry: Vec<u8>,
    file: Vec<u8>,
}

type Result<T> = std::result::Result<T, String>;

/// The next so many bytes.
fn take<'a>(rest: &mut &'a [u8], n: usize) -> Result<&'a [u8]> {
    let (taken, behind) = rest.split_at_checked(n).ok_or("the last case is cut off")?;
    *rest = behind;
    Ok(taken)
}

/// A number of four bytes, the lowest first.
fn number(rest: &mut &[u8]) -> Result<u32> {
    Ok(u32::from_le_bytes(take(rest, 4)?.try_into().expect("four bytes")))
}

fn sized(rest: &mut &[u8]) -> Result<Vec<u8>> {
    let size = number(rest)? as usize;
    Ok(take(rest, size)?.to_vec())
}

fn put_sized(out: &mut Vec<u8>, bytes: &[u8]) {
    out.extend((bytes.len() as u32).to_le_bytes());
    out.extend(bytes);
}

/// A line of the text.
fn put_line(out: &mut String, mark: char, bytes: &[u8]) {
    out.push(mark);
    for (i, &b) in bytes.iter().enumerate() {
        let plain = b.is_ascii_graphic() && b != b'\\' || b == b' ' && i + 1 < bytes.len();
        match plain {
            true => out.push(b as char),
            false => write!(out, "\\x{b:02x}").expect("a String takes all"),
        }
    }
    out.push('\n');
}

/// The bytes that a line of the text stands for.
fn bytes_of(line: &str) -> Option<Vec<u8>> {
    let mut parts = line.split('\\');
    let mut bytes = parts.next()?.as_bytes().to_vec();
    for part in parts {
        let (code, plain) = part.strip_prefix('x')?.split_at_checked(2)?;
        bytes.push(u8::from_str_radix(code, 16).ok()?);
        bytes.extend(plain.bytes());
    }
    Some(bytes)
}

/// A registry a line an entry, as far as it is one: each begins with a byte of value 1 to 3.
fn put_registry(out: &mut String, mut registry: &[u8]) {
    while let [_, behind @ ..] = registry {
        let kind = behind.iter().position(|b| (1..4).contains(b));
        let (entry, rest) = registry.split_at(kind.map_or(registry.len(), |n| n + 1));
        put_line(out, '|', entry);
        registry = rest;
    }
}

fn put_file(out: &mut String, file: &[u8]) {
    for line in file.split_inclusive(|b| *b == b'\n') {
        match line.strip_suffix(b"\n") {
            Some(line) => put_line(out, '>', line),
            None => put_line(out, '|', line),
        }
    }
}

/// The text of a file of cases.
pub fn text_of(mut cases: &[u8]) -> Result<String> {
    let mut out = String::new();
    while !cases.is_empty() {
        let cut = number(&mut cases)?;
        let (registry, file) = (sized(&mut cases)?, sized(&mut cases)?);
        writeln!(out, "case {cut}\nregistry").expect("a String takes all");
        put_registry(&mut out, &registry);
        out.push_str("file\n");
        put_file(&mut out, &file);
    }
    Ok(out)
}

/// The file of cases that a text stands for.
pub fn cases_of(text: &str) -> Result<Vec<u8>> {
    let (mut cases, mut in_file) = (Vec::<Case>::new(), false);
    for (i, line) in text.lines().enumerate() {
        let wrong = || format!("line {}: {line}", i + 1);
        match (line, cases.last_mut()) {
            ("registry", Some(_)) => in_file = false,
            ("file", Some(_)) => in_file = true,
            _ if line.is_empty() || line.starts_with('#') => {}
            (_, Some(case)) if line.starts_with(['|', '>']) => {
                let bytes = if in_file { &mut case.file } else { &mut case.registry };
                bytes.extend(bytes_of(&line[1..]).ok_or_else(wrong)?);
                bytes.extend(line.starts_with('>').then_some(b'\n'));
            }
            _ => {
                let cut = line.strip_prefix("case ").and_then(|cut| cut.parse().ok());
                cases.push(Case { cut: cut.ok_or_else(wrong)?, ..Case::default() });
                in_file = false;
            }
        }
    }
    let mut out = Vec::new();
    for case in cases {
        out.extend(case.cut.to_le_bytes());
        put_sized(&mut out, &case.registry);
        put_sized(&mut out, &case.file);
    }
    Ok(out)
}
