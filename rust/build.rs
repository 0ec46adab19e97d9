//! Links the proved queue, static libraries with C functions. `libraries.txt` has the names of those that a host in C links as well,
//! `owned_libraries.txt` of those with the owned functions, which are for this crate alone.

use std::env;
use std::path::PathBuf;

const NAMES: [&str; 2] = [include_str!("libraries.txt"), include_str!("owned_libraries.txt")];

fn main() {
    println!("cargo::rerun-if-env-changed=DSQ_LIB_DIR");
    println!("cargo::rerun-if-changed=libraries.txt");
    println!("cargo::rerun-if-changed=owned_libraries.txt");
    let (machine, system) = (env::var("CARGO_CFG_TARGET_ARCH"), env::var("CARGO_CFG_TARGET_OS"));
    if machine.as_deref() != Ok("x86_64") || system.as_deref() != Ok("linux") {
        println!("cargo::error=the proved library is made for x86-64 Linux alone");
        return;
    }
    let folder = env::var_os("DSQ_LIB_DIR").map_or_else(
        || {
            let here = env::var_os("CARGO_MANIFEST_DIR").expect("cargo names the package's folder");
            PathBuf::from(here).join("../target/staticlib")
        },
        PathBuf::from,
    );
    println!("cargo::rustc-link-search=native={}", folder.display());
    for name in NAMES.iter().flat_map(|names| names.split_whitespace()) {
        let library = folder.join(format!("lib{name}.a"));
        println!("cargo::rerun-if-changed={}", library.display());
        if !library.is_file() {
            println!(
                "cargo::error={} is not there. `scripts/libraries --crate`, run in the repository's folder, makes it; DSQ_LIB_DIR names \
                 another folder",
                library.display()
            );
            return;
        }
        println!("cargo::rustc-link-lib=static={name}");
    }
}
