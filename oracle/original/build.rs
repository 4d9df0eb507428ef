//! Lays the three files of the original out in OUT_DIR, byte for byte, beside the stand-ins of
//! `layout/` for the modules that they name. The files themselves are not part of this repository:
//! each is known by its SHA-256 sum, and any other in its place stops the build.

mod sha256;

use std::path::{Path, PathBuf};
use std::{env, fs, process};

const PLACE: &str = "MAVELINO_RUST_SRC";

/// The files with their sums, as `sha256sum` prints them.
const ORIGINAL: [(&str, &str); 3] = [
    ("container/richtext.rs", "2a4028dbb596ec9cdc9b60c010c40fbd5c51159b45404d7433ed22a8f401e7d5"),
    (
        "container/richtext/style_range_map.rs",
        "5cd94693cf6165fefcf04a46cdd6f80e17a11904177d7b19d97e3f4ba172ac8a",
    ),
    (
        "container/richtext/config.rs",
        "5098d1b985f37c5096861e65a1ce39e9f7580c7ab337745779d47866e3d0396f",
    ),
];

const BESIDE: [(&str, &str); 6] = [
    ("mods.rs", "mods.rs"),
    ("container.rs", "container.rs"),
    ("richtext/fugue_span.rs", "container/richtext/fugue_span.rs"),
    ("richtext/richtext_state.rs", "container/richtext/richtext_state.rs"),
    ("richtext/str_slice.rs", "container/richtext/str_slice.rs"),
    ("richtext/tracker.rs", "container/richtext/tracker.rs"),
];

fn main() {
    println!("cargo:rerun-if-env-changed={PLACE}");
    let here = PathBuf::from(env::var("CARGO_MANIFEST_DIR").unwrap());
    let out = PathBuf::from(env::var("OUT_DIR").unwrap()).join("laid");
    let source = source(&here);
    for (file, sum) in ORIGINAL {
        let bytes = read(&source.join(file));
        hold(&source.join(file), &bytes, sum);
        lay(&bytes, &out.join(file));
    }
    for (from, to) in BESIDE {
        lay(&read(&here.join("layout").join(from)), &out.join(to));
    }
}

/// The folder that holds `container/`: below the folder that the variable names, or below
/// `shared/docs/src` beside this repository.
fn source(here: &Path) -> PathBuf {
    let named = env::var_os(PLACE).map(PathBuf::from);
    let place = named.unwrap_or_else(|| here.join("../../../shared/docs/src"));
    let source = place.join("src");
    if !source.join(ORIGINAL[0].0).is_file() {
        eprintln!("The Rust files of loro-internal 1.17.1 are not at {}.", place.display());
        eprintln!("Nothing can be compared with them. {PLACE} names the folder that holds");
        eprintln!("src/{} and its neighbours.", ORIGINAL[0].0);
        process::exit(1);
    }
    source
}

fn read(from: &Path) -> Vec<u8> {
    println!("cargo:rerun-if-changed={}", from.display());
    fs::read(from).unwrap_or_else(|e| panic!("{}: {e}", from.display()))
}

/// Nothing else may be compared with under the original's name.
fn hold(file: &Path, bytes: &[u8], wanted: &str) {
    let found = sha256::sum(bytes);
    if found != wanted {
        eprintln!("{} is not the file of loro-internal 1.17.1:", file.display());
        eprintln!("its SHA-256 sum is {found}");
        eprintln!("and has to be      {wanted}.");
        process::exit(1);
    }
}

/// Writes a file, and leaves an equal one alone so that nothing is compiled again.
fn lay(bytes: &[u8], to: &Path) {
    if fs::read(to).ok().as_deref() != Some(bytes) {
        fs::create_dir_all(to.parent().unwrap()).unwrap();
        fs::write(to, bytes).unwrap();
    }
}
