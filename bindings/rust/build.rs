//! Links the proved engine: libcapi.a from the folder that CAVIAR_LIB_DIR names, else from this repository's target/staticlib.

use std::path::PathBuf;

fn main() {
    println!("cargo:rerun-if-env-changed=CAVIAR_LIB_DIR");
    let folder = match std::env::var_os("CAVIAR_LIB_DIR") {
        Some(folder) => PathBuf::from(folder),
        None => PathBuf::from(env!("CARGO_MANIFEST_DIR")).join("../../target/staticlib"),
    };
    let library = folder.join("libcapi.a");
    if !library.exists() {
        println!("cargo:warning=no {}: run `tools/build-library`, or set CAVIAR_LIB_DIR", library.display());
    }
    println!("cargo:rerun-if-changed={}", library.display());
    println!("cargo:rustc-link-search=native={}", folder.display());
    println!("cargo:rustc-link-lib=static=capi");
}
