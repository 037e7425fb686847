//! Links the archive of `./run archive`, whose folder stands in XEWUMBAL_ARCHIVE.

fn main() {
    let folder = std::env::var("XEWUMBAL_ARCHIVE").expect("bench/run sets XEWUMBAL_ARCHIVE");
    println!("cargo:rerun-if-env-changed=XEWUMBAL_ARCHIVE");
    println!("cargo:rerun-if-changed={}/libxewumbal.a", folder);
    println!("cargo:rustc-link-search=native={}", folder);
    println!("cargo:rustc-link-lib=static=xewumbal");
}
