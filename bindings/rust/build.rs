//! Finds libgateway.a: in the folder that HULMISKER_LIB_DIR names, or else in the repository's target/native.

use std::env;
use std::path::{Path, PathBuf};
use std::process::exit;

const ARCHIVE: &str = "libgateway.a";

fn main() {
    println!("cargo:rerun-if-changed=build.rs");
    println!("cargo:rerun-if-env-changed=HULMISKER_LIB_DIR");
    let folder = folder();
    println!("cargo:rerun-if-changed={}", folder.join(ARCHIVE).display());
    if !folder.join(ARCHIVE).is_file() {
        refuse(&folder)
    }
    println!("cargo:rustc-link-search=native={}", folder.display());
    println!("cargo:rustc-link-lib=static=gateway");
}

/// Where to look.
fn folder() -> PathBuf {
    if let Some(folder) = env::var_os("HULMISKER_LIB_DIR") {
        return PathBuf::from(folder);
    }
    let crate_folder = env::var_os("CARGO_MANIFEST_DIR").unwrap_or_default();
    Path::new(&crate_folder).join("../../target/native")
}

fn refuse(folder: &Path) -> ! {
    eprintln!("hulmisker: there is no {ARCHIVE} to link with. Looked in:");
    eprintln!("    {}", folder.display());
    eprintln!("Make it by `tools/native-lib gateway` in the repository,");
    eprintln!("or set HULMISKER_LIB_DIR to the folder that holds it.");
    exit(1)
}
