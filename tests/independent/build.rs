//! Links the engine's test interface, `libtest_interface.a`, from the folder
//! that the environment variable TEST_LIBRARY names.

use std::env;

fn main() {
    println!("cargo:rerun-if-env-changed=TEST_LIBRARY");
    let folder = env::var("TEST_LIBRARY")
        .expect("TEST_LIBRARY must name the folder that holds libtest_interface.a");
    println!("cargo:rerun-if-changed={folder}/libtest_interface.a");
    println!("cargo:rustc-link-search=native={folder}");
    println!("cargo:rustc-link-lib=static=test_interface");
}
