//! Finds the static library: in the folder that BIHARGESH_LIB_DIR names, or where `bin/install target/prefix` puts it in this tree.

use std::env;
use std::path::PathBuf;
use std::process::exit;

fn main() {
    println!("cargo:rerun-if-env-changed=BIHARGESH_LIB_DIR");
    let own = || PathBuf::from(env::var("CARGO_MANIFEST_DIR").expect("cargo sets it")).join("../../target/prefix/lib");
    let folder = env::var("BIHARGESH_LIB_DIR").map_or_else(|_| own(), PathBuf::from);
    let library = folder.join("libbihargesh.a");
    if !library.is_file() {
        eprintln!("{} is not there: run `bin/install PREFIX` in the repository and set BIHARGESH_LIB_DIR to PREFIX/lib", library.display());
        exit(1);
    }
    println!("cargo:rerun-if-changed={}", library.display());
    println!("cargo:rustc-link-search=native={}", folder.display());
}
