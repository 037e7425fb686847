//! Tells the linker where libxewumbal.a is.
use std::{env, path::Path, process::exit};

fn main() {
    println!("cargo:rerun-if-env-changed=XEWUMBAL_ARCHIVE");
    let folder = env::var("XEWUMBAL_ARCHIVE").unwrap_or_default();
    let archive = Path::new(&folder).join("libxewumbal.a");
    if folder.is_empty() || !archive.is_file() {
        eprintln!("XEWUMBAL_ARCHIVE has to name the folder of libxewumbal.a, in full; it is `{folder}`.");
        eprintln!("`./run archive` at the top of the repository builds the archive and prints its place.");
        exit(1);
    }
    println!("cargo:rerun-if-changed={}", archive.display());
    println!("cargo:rustc-link-search=native={folder}");
    println!("cargo:rustc-link-lib=static=xewumbal");
}
