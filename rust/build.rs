//! Links the static library from the folder `DIMEWAGON_LIB`, or from `target/native` of the repository.
use std::path::Path;

fn main() {
    let folder = std::env::var("DIMEWAGON_LIB")
        .unwrap_or_else(|_| concat!(env!("CARGO_MANIFEST_DIR"), "/../target/native").to_string());
    if !Path::new(&folder).join("libdimewagon.a").exists() {
        println!("cargo:warning=no libdimewagon.a in {folder}: DIMEWAGON_LIB names its folder, and the repository's");
        println!("cargo:warning=tools/staticlib exports_c target/native/libdimewagon.a makes it");
    }
    println!("cargo:rustc-link-search=native={folder}");
    println!("cargo:rustc-link-lib=static=dimewagon");
    println!("cargo:rerun-if-env-changed=DIMEWAGON_LIB");
    println!("cargo:rerun-if-changed={folder}/libdimewagon.a");
}
