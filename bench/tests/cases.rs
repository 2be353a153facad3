//! The text of a file of cases and what is made from it are each other's inverse.

use kilnsorrel_bench::cases::{cases_of, text_of};

const DATA: &str = concat!(env!("CARGO_MANIFEST_DIR"), "/../crates/vectors/data");

#[test]
fn every_file() {
    let mut files = 0;
    for entry in std::fs::read_dir(DATA).expect("a folder") {
        let cases = std::fs::read(entry.expect("an entry").path()).expect("a file");
        let text = text_of(&cases).expect("whole cases");
        assert!(text.lines().all(|line| line.is_ascii() && !line.ends_with(' ')));
        let again = cases_of(&text).expect("a right text");
        assert!(again == cases);
        assert_eq!(text_of(&again).as_ref(), Ok(&text));
        files += 1;
    }
    assert!(files > 0);
}

#[test]
fn by_hand() {
    let made = cases_of("# one\n\ncase 7\nregistry\n|\\x01a\nfile\n>A\\x0d\n>\n|\\xff \\x20\n");
    assert_eq!(made, Ok(b"\x07\0\0\0\x02\0\0\0\x01a\x07\0\0\0A\r\n\n\xff  ".to_vec()));
}

/// What is not a file of cases, and what is no text of one, is told as such.
#[test]
fn refused() {
    assert!(text_of(b"\x07\0\0\0\x02\0\0\0a").is_err());
    for text in ["case x", "registry", "|a", "case 7\na", "case 7\n|\\", "case 7\n|\\xg0"] {
        assert!(cases_of(text).is_err(), "{text}");
    }
}
