//! Links the product's static library.

use std::{env, path::PathBuf};

fn main() {
    println!("cargo:rerun-if-env-changed=BKM_STATICLIB_DIR");
    let directory = env::var_os("BKM_STATICLIB_DIR").map_or_else(
        || PathBuf::from(env::var_os("CARGO_MANIFEST_DIR").unwrap()).join("../../target/staticlib"),
        PathBuf::from,
    );
    let library = directory.join("libcontroller.a");
    println!("cargo:rerun-if-changed={}", library.display());
    if !library.exists() {
        panic!(
            "{} is missing: run `bash tools/build library`, or set BKM_STATICLIB_DIR",
            library.display()
        );
    }
    println!("cargo:rustc-link-search=native={}", directory.display());
    println!("cargo:rustc-link-lib=static=controller");
}
