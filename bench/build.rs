// Links the static library that `tools/build library` made.
fn main() {
    let root = std::env::var("CARGO_MANIFEST_DIR").unwrap();
    println!("cargo:rustc-link-search={root}/../target/staticlib");
    println!("cargo:rustc-link-lib=static=zembrusha");
    println!("cargo:rerun-if-changed={root}/../target/staticlib/libzembrusha.a");
}
