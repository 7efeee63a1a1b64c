//! Links the static library that `examples/library` writes.

fn main() {
    let root = std::env::var("CARGO_MANIFEST_DIR").unwrap();
    let archive = format!("{root}/../target/staticlib/libtms_replay.a");
    println!("cargo:rerun-if-changed={archive}");
    println!("cargo:rustc-link-search=native={root}/../target/staticlib");
    println!("cargo:rustc-link-lib=static=tms_replay");
}
