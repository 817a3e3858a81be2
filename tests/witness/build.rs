//! Links the witness to target/native/libsoroluzko.a of this repository.

fn main() {
    let witness = std::env::var("CARGO_MANIFEST_DIR").expect("a build by cargo");
    let folder = format!("{witness}/../../target/native");
    println!("cargo:rerun-if-changed={folder}/libsoroluzko.a");
    println!("cargo:rustc-link-search=native={folder}");
    println!("cargo:rustc-link-lib=static=soroluzko");
}
