//! Links libkilnsorrel.a from the folder that KILNSORREL_LIB names (from bench/ on, if relative), by
//! default from crates/kilnsorrel/out, where `rt lib` puts it.

use std::env;
use std::path::PathBuf;

fn main() {
    let here = PathBuf::from(env::var_os("CARGO_MANIFEST_DIR").expect("cargo sets it"));
    let folder = here.join(env::var_os("KILNSORREL_LIB").unwrap_or("../crates/kilnsorrel/out".into()));
    let archive = folder.join("libkilnsorrel.a");
    println!("cargo:rerun-if-env-changed=KILNSORREL_LIB");
    println!("cargo:rerun-if-changed={}", archive.display());
    if !archive.is_file() {
        eprintln!("There is no {}.", archive.display());
        eprintln!("Make it by `rt lib` in crates/kilnsorrel, or set KILNSORREL_LIB to its folder.");
        std::process::exit(1);
    }
    println!("cargo:rustc-env=KILNSORREL_ARCHIVE={}", archive.display());
    println!("cargo:rustc-link-search=native={}", folder.display());
    println!("cargo:rustc-link-lib=static=kilnsorrel");
}
