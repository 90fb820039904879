//! Links the libraries as `tools/build` leaves them: the entries for C, and those for tests.

fn main() {
    let here = std::env::var("CARGO_MANIFEST_DIR").expect("cargo gives the folder");
    let folder = format!("{here}/../../target/staticlib");
    println!("cargo:rustc-link-search=native={folder}");
    for library in ["certifier", "test_entries"] {
        println!("cargo:rustc-link-lib=static={library}");
        println!("cargo:rerun-if-changed={folder}/lib{library}.a");
    }
}
