//! Links the archive: from the folder that FANTAILCLOCK_LIB names, else from where scripts/build puts it.

use std::env;
use std::path::PathBuf;

fn main() {
    let here = PathBuf::from(env::var_os("CARGO_MANIFEST_DIR").expect("cargo sets it"));
    let folder = env::var_os("FANTAILCLOCK_LIB").map_or_else(|| here.join("../../target/staticlib"), PathBuf::from);
    let archive = folder.join("libfantailclock.a");
    assert!(archive.is_file(), "no archive {}; build it first: bash scripts/build", archive.display());
    let folder = folder.canonicalize().expect("the folder of the archive"); // the linker runs elsewhere
    println!("cargo:rustc-link-search=native={}", folder.display());
    println!("cargo:rustc-link-lib=static=fantailclock");
    println!("cargo:rerun-if-env-changed=FANTAILCLOCK_LIB");
    println!("cargo:rerun-if-changed={}", archive.display());
}
