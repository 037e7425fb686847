//! The Rust's files are as published.

use std::process::Command;

#[test]
fn the_sources_are_unchanged() {
    let checked = Command::new("sha256sum")
        .args(["--quiet", "-c", "SHA256SUMS"])
        .current_dir(concat!(env!("CARGO_MANIFEST_DIR"), "/.."))
        .status()
        .expect("sha256sum runs");
    assert!(checked.success());
}
