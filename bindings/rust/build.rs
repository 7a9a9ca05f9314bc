//! Links libchirdaluko.a, from the folder that CHIRDALUKO_LIB_DIR names, or from where `bash bindings/library` puts
//! it.

use std::env;
use std::path::{Path, PathBuf};
use std::process::exit;

const VARIABLE: &str = "CHIRDALUKO_LIB_DIR";

fn main() {
    println!("cargo:rerun-if-env-changed={VARIABLE}");
    let folder = match env::var_os(VARIABLE) {
        Some(folder) => PathBuf::from(folder),
        None => made_here(),
    };
    // Cargo and the linker start in different folders.
    if !folder.is_absolute() {
        fail(&format!("{VARIABLE} is {}: it has to be an absolute path", folder.display()));
    }
    let library = folder.join("libchirdaluko.a");
    println!("cargo:rerun-if-changed={}", library.display());
    if !library.is_file() {
        let make = "`bash bindings/library` in the project's folder makes target/staticlib/libchirdaluko.a";
        fail(&format!("{} is not there: {make}; {VARIABLE} names another folder that has it", library.display()));
    }
    println!("cargo:rustc-link-search=native={}", folder.display());
    println!("cargo:rustc-link-lib=static=chirdaluko");
}

/// The project's own static library.
fn made_here() -> PathBuf {
    let package = env::var_os("CARGO_MANIFEST_DIR").expect("cargo sets CARGO_MANIFEST_DIR");
    Path::new(&package).join("../../target/staticlib")
}

fn fail(message: &str) -> ! {
    eprintln!("chirdaluko: {message}");
    exit(1)
}
