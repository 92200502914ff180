//! Links the archive that `tools/archive` makes.

use std::path::Path;

fn main() {
    let folder = Path::new(env!("CARGO_MANIFEST_DIR")).join("../../target/staticlib");
    let archive = folder.join("libchecker.a");
    if !archive.exists() {
        eprintln!("target/staticlib/libchecker.a is missing: `tools/archive`, in the repository's folder, proves the calls and makes it.");
        std::process::exit(1);
    }
    println!("cargo:rerun-if-changed={}", archive.display());
    println!("cargo:rustc-link-search=native={}", folder.display());
    println!("cargo:rustc-link-lib=static=checker");
}
