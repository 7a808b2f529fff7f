//! Links the static library: from CURVE_LIB_DIR if that is set, else from the repository's target/staticlib.

use std::env;
use std::path::{Path, PathBuf};
use std::process::exit;

const FILE: &str = "libcurve_c.a";

fn main() {
    println!("cargo::rerun-if-env-changed=CURVE_LIB_DIR");
    let wanted = wanted();
    let dir = wanted.canonicalize().unwrap_or_else(|_| missing(&wanted));
    let library = dir.join(FILE);
    if !library.is_file() {
        missing(&dir);
    }
    println!("cargo::rerun-if-changed={}", library.display());
    println!("cargo::rustc-link-search=native={}", dir.display());
    println!("cargo::rustc-link-lib=static=curve_c");
}

fn wanted() -> PathBuf {
    if let Some(dir) = env::var_os("CURVE_LIB_DIR") {
        return PathBuf::from(dir);
    }
    let here = env::var_os("CARGO_MANIFEST_DIR").expect("cargo sets it");

    Path::new(&here).join("../../target/staticlib")
}

fn missing(dir: &Path) -> ! {
    eprintln!("There is no {FILE} in {}.", dir.display());
    eprintln!("Run `tools/build curve_c` in the repository, or set CURVE_LIB_DIR to the folder that holds it.");
    exit(1)
}
