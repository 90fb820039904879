//! Links the library as `tools/build certifier_c` leaves it.

fn main() {
    let here = std::env::var("CARGO_MANIFEST_DIR").expect("cargo gives the folder");
    let folder = format!("{here}/../../target/staticlib");
    println!("cargo:rustc-link-search=native={folder}");
    println!("cargo:rustc-link-lib=static=certifier");
    println!("cargo:rerun-if-changed={folder}/libcertifier.a");
}
