//! Names the product's static library, which `tools/build adapter` writes, to the linker.

fn main() {
    let folder = concat!(env!("CARGO_MANIFEST_DIR"), "/../../target/staticlib");
    println!("cargo:rustc-link-search=native={folder}");
    println!("cargo:rustc-link-lib=static=adapter");
    println!("cargo:rerun-if-changed={folder}/libadapter.a");
}
