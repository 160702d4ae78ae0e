//! Links the proved library, which `./library` writes.
fn main() {
    let folder = concat!(env!("CARGO_MANIFEST_DIR"), "/../target/staticlib");
    println!("cargo:rustc-link-search=native={folder}");
    println!("cargo:rustc-link-lib=static=dawnhawse");
    println!("cargo:rerun-if-changed={folder}/libdawnhawse.a");
}
