//! Links the proved static library. `host/library` sees first that it is there and not older
//! than its sources.

use std::path::Path;
use std::process::{exit, Command};

fn main() {
    let host = Path::new(env!("CARGO_MANIFEST_DIR"));
    let root = host.parent().expect("host/ stands in the repository");
    let folder = root.join("target").join("staticlib");
    let library = host.join("library");
    for changed in [
        &folder.join("libkechmowad.a"),
        &root.join("crates.txt"),
        &root.join("crates"),
        &library,
        &host.join("build.rs"),
    ] {
        println!("cargo:rerun-if-changed={}", changed.display());
    }
    match Command::new(&library).status() {
        Ok(status) if status.success() => {}
        // It has told what is wrong.
        Ok(_) => exit(1),
        Err(error) => {
            eprintln!("{} could not be started: {error}", library.display());
            exit(1);
        }
    }
    println!("cargo:rustc-link-search=native={}", folder.display());
    println!("cargo:rustc-link-lib=static=kechmowad");
}
