//! The demonstration program on the stored runs in data/runs: what it prints for NAME.in is NAME.out.
//! The stored output is what documents 01 and 02 want, worked out by tools/runs.py.
#![cfg(not(feature = "model-only"))]

use std::env;
use std::fs::{self, File};
use std::path::{Path, PathBuf};
use std::process::{Command, Stdio};

fn root() -> PathBuf {
    Path::new(env!("CARGO_MANIFEST_DIR")).join("..")
}

/// The program: LO_DEMO, else crates/demo/out/demo in the repository.
fn program() -> PathBuf {
    let program = match env::var_os("LO_DEMO") {
        Some(path) => PathBuf::from(path),
        None => root().join("crates/demo/out/demo"),
    };
    assert!(
        program.is_file(),
        "{} is missing: run `rt run` in crates/demo first",
        program.display()
    );
    program
}

/// What the program prints for the file's lines.
fn printed(input: &Path) -> String {
    let output = Command::new(program())
        .stdin(Stdio::from(File::open(input).expect("the input opens")))
        .output()
        .expect("the program runs");
    assert!(output.status.success(), "{}", input.display());
    String::from_utf8(output.stdout).expect("the program prints ASCII")
}

#[test]
fn stored_runs() {
    let mut inputs: Vec<PathBuf> = fs::read_dir(root().join("data/runs"))
        .expect("data/runs is there")
        .map(|entry| entry.expect("an entry").path())
        .filter(|path| path.extension().is_some_and(|end| end == "in"))
        .collect();
    inputs.sort();
    assert!(inputs.len() >= 90, "{} stored runs", inputs.len());
    for input in inputs {
        let stored = fs::read_to_string(input.with_extension("out")).expect("the stored output");
        assert_eq!(printed(&input), stored, "{}", input.display());
    }
}

/// 01's own example is among them, byte for byte.
#[test]
fn example() {
    let stored = fs::read_to_string(root().join("data/runs/example.out")).expect("stored");
    assert_eq!(
        stored,
        "Q 00010801\nA 0004\nQ 020004\nA 0203ab01\nP 0 4 2\nX 1011 1 4\n"
    );
}
