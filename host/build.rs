//! Finds libcabi.a: in the folder that LO_LIB_DIR names, else in ../crates/cabi/out.

use std::env;
use std::path::PathBuf;
use std::process::exit;

fn main() {
    println!("cargo:rerun-if-changed=build.rs");
    println!("cargo:rerun-if-env-changed=LO_LIB_DIR");
    if env::var_os("CARGO_FEATURE_MODEL_ONLY").is_some() {
        return;
    }
    let folder = match env::var_os("LO_LIB_DIR") {
        Some(folder) => PathBuf::from(folder),
        None => PathBuf::from(env::var_os("CARGO_MANIFEST_DIR").expect("cargo sets this"))
            .join("../crates/cabi/out"),
    };
    let archive = folder.join("libcabi.a");
    println!("cargo:rerun-if-changed={}", archive.display());
    let Ok(folder) = folder.canonicalize() else {
        missing(archive)
    };
    if !archive.is_file() {
        missing(archive);
    }
    println!("cargo:rustc-link-search=native={}", folder.display());
    println!("cargo:rustc-link-lib=static=cabi");
    // The C program in the tests links the same archive.
    println!(
        "cargo:rustc-env=LO_ARCHIVE={}",
        folder.join("libcabi.a").display()
    );
}

fn missing(archive: PathBuf) -> ! {
    eprintln!("error: {} is missing.", archive.display());
    eprintln!("Run `rt lib` in crates/cabi first,");
    eprintln!("or set LO_LIB_DIR to the folder that holds libcabi.a.");
    eprintln!("(`--features model-only` builds without it, for work on the model alone.)");
    exit(1)
}
