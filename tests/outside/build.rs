//! Links the product's static library, if the environment names its folder.
//!
//! `ZUCCARVENTO_LIB` is the folder that holds `libexports.a`. Without it the
//! program is built with a stand-in over its own functions, which tests the
//! tests and nothing else. `ZUCCARVENTO_LINK_ARG` hands one more argument to
//! the linker, for a library that needs one.

use std::path::Path;

fn main() {
    println!("cargo:rustc-check-cfg=cfg(product)");
    println!("cargo:rerun-if-env-changed=ZUCCARVENTO_LIB");
    println!("cargo:rerun-if-env-changed=ZUCCARVENTO_LINK_ARG");
    let Ok(folder) = std::env::var("ZUCCARVENTO_LIB") else {
        return;
    };
    let library = Path::new(&folder).join("libexports.a");
    if !library.is_file() {
        // A wrong folder must not fall back to the stand-in unnoticed.
        panic!("ZUCCARVENTO_LIB names no folder with libexports.a");
    }
    println!("cargo:rerun-if-changed={}", library.display());
    println!("cargo:rustc-link-search=native={folder}");
    println!("cargo:rustc-cfg=product");
    if let Ok(argument) = std::env::var("ZUCCARVENTO_LINK_ARG") {
        println!("cargo:rustc-link-arg-bins={argument}");
    }
}
