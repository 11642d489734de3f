//! C programs in the tests.

use std::env;
use std::path::{Path, PathBuf};
use std::process::Command;

/// The header's folder: LO_INCLUDE_DIR, else ../include.
pub fn include_folder() -> PathBuf {
    let folder = match env::var_os("LO_INCLUDE_DIR") {
        Some(folder) => PathBuf::from(folder),
        None => Path::new(env!("CARGO_MANIFEST_DIR")).join("../include"),
    };
    assert!(
        folder.join("lunetteorris.h").is_file(),
        "no header in {}",
        folder.display()
    );
    folder
}

/// What a C program prints: its source, with an archive if it calls the library. Every warning is
/// an error, and the program's status is 0. The program is called after its source.
pub fn printed_by(source: &Path, archive: Option<&str>) -> String {
    let name = source.file_stem().expect("the source is a file");
    let program = Path::new(env!("CARGO_TARGET_TMPDIR")).join(name);
    let compiled = Command::new("cc")
        .args(["-std=c99", "-Wall", "-Wextra", "-Wpedantic", "-Werror"])
        .arg("-I")
        .arg(include_folder())
        .arg(source)
        .args(archive)
        .arg("-o")
        .arg(&program)
        .output()
        .expect("cc runs");
    assert!(
        compiled.status.success(),
        "{}",
        String::from_utf8_lossy(&compiled.stderr)
    );
    let output = Command::new(&program).output().expect("the program runs");
    let printed = String::from_utf8(output.stdout).expect("the program prints ASCII");
    assert!(output.status.success(), "{printed}");
    printed
}
