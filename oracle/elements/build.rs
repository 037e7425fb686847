//! Leaves out the first line of the unchanged basis.rs, which an included text can't have: the
//! module that includes it says it. Nothing else is touched.

use std::{env, fs, path::Path};

fn main() {
    let source = "../rust/src/basis.rs";
    println!("cargo:rerun-if-changed=build.rs");
    println!("cargo:rerun-if-changed={}", source);
    let text = fs::read_to_string(source).expect("the source is there");
    let (first, rest) = text.split_once('\n').expect("the source has lines");
    assert_eq!(first, "#![allow(non_snake_case)]");
    let out = env::var("OUT_DIR").expect("cargo sets OUT_DIR");
    fs::write(Path::new(&out).join("basis.rs"), rest).expect("the text is written");
}
