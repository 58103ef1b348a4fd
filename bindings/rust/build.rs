//! Links the engine, `libatlas_c.a`, from the folder that the environment
//! variable ATLAS_LIBRARY names; `make library` writes it to target/staticlib.

use std::env;

fn main() {
    println!("cargo:rerun-if-env-changed=ATLAS_LIBRARY");
    let folder = env::var("ATLAS_LIBRARY")
        .expect("ATLAS_LIBRARY must name the folder that holds libatlas_c.a");
    println!("cargo:rerun-if-changed={folder}/libatlas_c.a");
    println!("cargo:rustc-link-search=native={folder}");
    println!("cargo:rustc-link-lib=static=atlas_c");
}
