//! Where the library is: `libtautgaff.a` in the folder that TAUTGAFF_LIB names, or in `target/` of this repository, where `make library` puts it.

use std::env;
use std::path::PathBuf;

fn main() {
    let beside = PathBuf::from(env::var_os("CARGO_MANIFEST_DIR").expect("cargo sets it")).join("../target");
    let folder = env::var_os("TAUTGAFF_LIB").map_or(beside, PathBuf::from);
    let library = folder.join("libtautgaff.a");
    println!("cargo:rerun-if-env-changed=TAUTGAFF_LIB");
    println!("cargo:rerun-if-changed={}", library.display());
    if !library.exists() {
        eprintln!("{} is not there: `make library` makes it, or TAUTGAFF_LIB says where it is", library.display());
        std::process::exit(1);
    }
    println!("cargo:rustc-link-search=native={}", folder.display());
    println!("cargo:rustc-link-lib=static=tautgaff");
}
