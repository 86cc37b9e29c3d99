//! Links libsubgroups.a: from the folder that SUBGROUPS_LIB names, else from target/staticlib of the repository.
//! A relative folder counts from this crate.

use std::env;
use std::path::PathBuf;
use std::process::exit;

fn main() {
    println!("cargo:rerun-if-env-changed=SUBGROUPS_LIB");
    let crate_folder = PathBuf::from(env::var_os("CARGO_MANIFEST_DIR").expect("cargo sets CARGO_MANIFEST_DIR"));
    let named = env::var_os("SUBGROUPS_LIB").unwrap_or("../../target/staticlib".into());
    let folder = crate_folder.join(named);
    let library = folder.join("libsubgroups.a");
    println!("cargo:rerun-if-changed={}", library.display());
    if !library.is_file() {
        eprintln!("there is no {}", library.display());
        eprintln!("build it in the repository with 'scripts/library', or name its folder in SUBGROUPS_LIB");
        exit(1);
    }
    println!("cargo:rustc-link-search=native={}", folder.display());
    println!("cargo:rustc-link-lib=static=subgroups");
}
