//! Has the calls made of aig.h, where the crate lies in its repository, and links libaig.a. It lies in the folder that AIG_LIB names, or
//! else in the crate's own folder `native`, which a packed crate has.

use std::path::Path;
use std::process::Command;

fn main() {
    if Path::new("../clients.py").is_file() {
        println!("cargo:rerun-if-changed=../clients.py");
        println!("cargo:rerun-if-changed=../../include");
        println!("cargo:rerun-if-changed=src");
        let made = Command::new("../clients.py").status().expect("lib/clients.py needs python3");
        assert!(made.success(), "lib/clients.py failed");
    }
    println!("cargo:rerun-if-env-changed=AIG_LIB");
    let folder = std::env::var("AIG_LIB").unwrap_or_else(|_| format!("{}/native", env!("CARGO_MANIFEST_DIR")));
    println!("cargo:rustc-link-search=native={folder}");
    println!("cargo:rustc-link-lib=static=aig");
}
