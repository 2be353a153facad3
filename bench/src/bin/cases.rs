//! A file of cases, printed as a text, or made from one; `kilnsorrel_bench::cases` tells the text.
//!
//!     cases print < FILE.cases > TEXT
//!     cases make < TEXT > FILE.cases

use kilnsorrel_bench::cases::{cases_of, text_of};
use std::io::{self, Read, Write};

fn main() -> Result<(), Box<dyn std::error::Error>> {
    let mut given = Vec::new();
    io::stdin().read_to_end(&mut given)?;
    let made = match std::env::args().nth(1).as_deref() {
        Some("print") => text_of(&given)?.into_bytes(),
        Some("make") => cases_of(&String::from_utf8(given)?)?,
        _ => Err("cases print|make < FROM > TO")?,
    };
    Ok(io::stdout().write_all(&made)?)
}
