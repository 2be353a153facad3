//! What the library asks of the program that links it: `memcpy` and `memset`, and no other name. So it
//! links where there is no C library, and the program has these two of its own.

use std::process::Command;

#[test]
fn asks_no_other_name() {
    let nm = Command::new("nm").args(["-u", env!("KILNSORREL_ARCHIVE")]).output().expect("nm");
    assert!(nm.status.success());
    let text = String::from_utf8(nm.stdout).expect("names");
    let names: Vec<&str> = text.lines().filter_map(|line| line.trim().strip_prefix("U ")).collect();
    assert!(names.iter().all(|name| ["memcpy", "memset"].contains(name)), "{names:?}");
}
