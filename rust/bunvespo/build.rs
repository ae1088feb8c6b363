//! Links the proved archive. Its folder is `target/staticlib` of the repository, or the one that BUNVESPO_LIB names.

use std::env;
use std::path::PathBuf;

fn main() {
    println!("cargo:rerun-if-env-changed=BUNVESPO_LIB");
    let folder = match env::var_os("BUNVESPO_LIB") {
        Some(folder) => PathBuf::from(folder),
        None => PathBuf::from(env!("CARGO_MANIFEST_DIR")).join("../../target/staticlib"),
    };
    let archive = folder.join("libbunvespo.a");
    println!("cargo:rerun-if-changed={}", archive.display());
    if !archive.is_file() {
        eprintln!(
            "error: there is no {}.\nRun `scripts/archive` in the repository first, \
             or set BUNVESPO_LIB to the folder that has libbunvespo.a.",
            archive.display()
        );
        std::process::exit(1);
    }
    println!("cargo:rustc-link-search=native={}", folder.display());
    println!("cargo:rustc-link-lib=static=bunvespo");
}
