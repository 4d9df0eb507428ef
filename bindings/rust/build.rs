//! Links the archive of the proved map: `libdoor.a` in the folder that `MAVELINO_DOOR` names, or in
//! the repository's `target/staticlib`, where `tools/archive door` writes it.

use std::path::PathBuf;
use std::{env, process};

const PLACE: &str = "MAVELINO_DOOR";

fn main() {
    println!("cargo:rerun-if-env-changed={PLACE}");
    let here = PathBuf::from(env::var_os("CARGO_MANIFEST_DIR").unwrap_or_default());
    let named = env::var_os(PLACE).map(PathBuf::from);
    let folder = named.unwrap_or_else(|| here.join("../../target/staticlib"));
    let archive = folder.join("libdoor.a");
    println!("cargo:rerun-if-changed={}", archive.display());
    let machine = env::var("CARGO_CFG_TARGET_ARCH").unwrap_or_default();
    if machine != "x86_64" {
        stop(&format!(
            "the archive of the proved map is for x86-64, and this build is for {machine}"
        ));
    }
    if !archive.is_file() {
        stop(&format!(
            "there is no {}: 'tools/archive door' in the repository proves the map and writes it, \
             bindings/rust/try makes one without proofs, and {PLACE} names the folder of another",
            archive.display()
        ));
    }
    println!("cargo:rustc-link-search=native={}", folder.display());
    println!("cargo:rustc-link-lib=static=door");
}

fn stop(why: &str) {
    eprintln!("mavelino: {why}");
    process::exit(1);
}
