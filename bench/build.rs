//! Links the static library of the tank map where it has been written, and says so by the cfg
//! `ours`: `tools/archive timing` writes one for x86-64; one for another machine has to be named.
//! Without it the original is timed alone. A second archive, of another tree, is linked beside it
//! where one is named, and the cfg `before` says so.

use std::path::{Path, PathBuf};
use std::process::Command;
use std::{env, fs};

const PLACE: &str = "MAVELINO_STATICLIB";
const BEFORE: &str = "MAVELINO_STATICLIB_BEFORE";

fn main() {
    println!("cargo:rustc-check-cfg=cfg(ours, before)");
    println!("cargo:rerun-if-env-changed={PLACE}");
    println!("cargo:rerun-if-env-changed={BEFORE}");
    let here = PathBuf::from(env::var("CARGO_MANIFEST_DIR").unwrap());
    let named = env::var_os(PLACE).map(PathBuf::from);
    let fits = named.is_some() || env::var("CARGO_CFG_TARGET_ARCH").unwrap() == "x86_64";
    let folder = named.unwrap_or_else(|| here.join("../target/staticlib"));
    let archive = folder.join("libtiming.a");
    println!("cargo:rerun-if-changed={}", archive.display());
    if fits && fs::metadata(&archive).is_ok() {
        link("ours", &folder, "timing");
        if let Some(folder) = env::var_os(BEFORE) {
            link("before", &renamed(&PathBuf::from(folder).join("libtiming.a")), "before");
        }
    }
    if env::var_os("CARGO_FEATURE_COUNT").is_some() {
        println!("cargo:rustc-link-arg-bins=-Wl,--wrap=memcpy,--wrap=memmove");
    }
}

fn link(cfg: &str, folder: &Path, library: &str) {
    println!("cargo:rustc-cfg={cfg}");
    println!("cargo:rustc-link-search=native={}", folder.display());
    println!("cargo:rustc-link-lib=static={library}");
}

/// Both archives export `timing`, and nothing else: the earlier one gets another name for it. Answers
/// the folder of the copy.
fn renamed(archive: &Path) -> PathBuf {
    println!("cargo:rerun-if-changed={}", archive.display());
    let folder = PathBuf::from(env::var("OUT_DIR").unwrap()).join("before");
    fs::create_dir_all(&folder).unwrap();
    let ended = Command::new("objcopy")
        .args(["--redefine-sym", "timing=timing_before"])
        .args([archive, &folder.join("libbefore.a")])
        .status();
    let ended = ended.expect("objcopy, which is needed to link two archives");
    assert!(ended.success(), "objcopy {}: {ended}", archive.display());
    folder
}
