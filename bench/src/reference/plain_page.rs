//! The activity page as document 02 says it, S-2: literal and slow. It shares no code with the fast
//! one, and has the texts from docs/VERDICTS.md.

use crate::Entry;

const VERDICTS: &str = include_str!("../../../docs/VERDICTS.md");

/// The text of a verdict, if it has one.
pub fn text_of(verdict: u32) -> Option<&'static str> {
    VERDICTS.lines().find_map(|line| {
        let (number, text) = line.strip_prefix("| ")?.strip_suffix(" |")?.split_once(" | ")?;
        (number.parse() == Ok(verdict)).then_some(text)
    })
}

/// A number, right-aligned in a column; asterisks where it is too wide.
fn column(n: u32, width: usize) -> String {
    let text = format!("{n:>width$}");
    if text.len() > width {
        return "*".repeat(width);
    }
    text
}

pub fn line_of(e: &Entry) -> String {
    let numbers = [(e.line, 10), (e.verdict, 4), (e.at, 10), (e.meter, 6), (e.day, 10)];
    let columns = numbers.map(|(n, width)| column(n, width)).concat();
    format!("{columns}{:40}", text_of(e.verdict).unwrap_or_default())
}

/// The pages of a report, or the number of its refusal, with room for so many bytes.
pub fn pages(report: &[Entry], room: usize) -> Result<Vec<String>, u32> {
    let count = (report.len() + 57) / 58;
    if count > 99_999 {
        return Err(12);
    }
    if room < count * 60 * 81 {
        return Err(11);
    }
    let page = |(p, entries): (usize, &[Entry])| {
        let mut lines = vec![format!("PAGE {:05}", p + 1), String::new()];
        lines.extend(entries.iter().map(line_of));
        lines.resize(60, String::new());
        lines.iter().map(|line| format!("{line:80}\n")).collect()
    };
    Ok(report.chunks(58).enumerate().map(page).collect())
}
