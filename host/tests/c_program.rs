//! C programs that link the archive.
#![cfg(not(feature = "model-only"))]

mod common;

use std::path::Path;

use common::c::printed_by;

fn printed(source: &str) -> String {
    let source = Path::new(env!("CARGO_MANIFEST_DIR"))
        .join("tests")
        .join(source);
    printed_by(&source, Some(env!("LO_ARCHIVE")))
}

/// 01's demonstration run.
#[test]
fn demonstration() {
    let want = "\
Q 00010801
A 0004
Q 020004
A 0203ab01
P 0 4 2
X 1011 1 4
";
    assert_eq!(printed("demo.c"), want);
}

/// Empty slices at NULL, and odd addresses.
#[test]
fn slices() {
    assert_eq!(printed("slices.c"), "");
}
