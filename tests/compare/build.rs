//! Links target/staticlib/libzembrusha.a of the repository.

fn main() {
    let archives = concat!(env!("CARGO_MANIFEST_DIR"), "/../../target/staticlib");
    println!("cargo:rerun-if-changed={archives}/libzembrusha.a");
    println!("cargo:rustc-link-search=native={archives}");
    println!("cargo:rustc-link-lib=static=zembrusha");
}
