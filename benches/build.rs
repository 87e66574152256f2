//! Links the proved library that scripts/native wrote for this machine.

fn main() {
    let folder = concat!(env!("CARGO_MANIFEST_DIR"), "/../target/native");
    println!("cargo:rustc-link-search=native={folder}");
    println!("cargo:rustc-link-lib=static=coldroom");
    println!("cargo:rerun-if-changed={folder}/libcoldroom.a");
}
