//! Links the proved engine, which `ci/build wilzhoram` puts into target/staticlib.

use std::path::Path;

fn main() {
    let folder = Path::new(env!("CARGO_MANIFEST_DIR")).join("../../target/staticlib");
    let archive = folder.join("libwilzhoram.a");
    println!("cargo:rerun-if-changed={}", archive.display());
    if !archive.exists() {
        eprintln!("no target/staticlib/libwilzhoram.a: run `ci/build wilzhoram` first");
        std::process::exit(1);
    }
    println!("cargo:rustc-link-search=native={}", folder.display());
    println!("cargo:rustc-link-lib=static=wilzhoram");
}
