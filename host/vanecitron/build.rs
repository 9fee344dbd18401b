//! Finds the archive of the proved library, libvanecitron.a, and links it; a build without it fails here.
//!
//! It is looked for in the directory that VANECITRON_LIB_DIR names, or else in crates/vanecitron/out of the tree that this crate belongs
//! to, where `rt lib --cpu x86-64` in crates/vanecitron puts it.

use std::env;
use std::path::PathBuf;
use std::process::exit;

fn main() {
    println!("cargo:rerun-if-env-changed=VANECITRON_LIB_DIR");
    let directory = match env::var_os("VANECITRON_LIB_DIR") {
        Some(directory) => PathBuf::from(directory),
        None => PathBuf::from(env::var_os("CARGO_MANIFEST_DIR").expect("cargo sets it")).join("../../crates/vanecitron/out"),
    };
    let archive = directory.join("libvanecitron.a");
    println!("cargo:rerun-if-changed={}", archive.display());
    if !archive.is_file() {
        eprintln!("{} is not there: run `rt lib --cpu x86-64` in crates/vanecitron of the tree, or set VANECITRON_LIB_DIR", archive.display());
        exit(1);
    }
    println!("cargo:rustc-link-search=native={}", directory.display());
    println!("cargo:rustc-link-lib=static=vanecitron");
}
