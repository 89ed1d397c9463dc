// Compiles the plain C beside the plain Rust, and links the proved library, whose folder ZUCCARVENTO_LIB names.
// Every function starts at a multiple of 64, in all three (`run` sees to Rust's): otherwise where the linker happens to put them
// moves a ratio by a quarter.
use std::env;
use std::process::Command;

fn done(what: &str, command: &mut Command) {
    let status = command.status().unwrap_or_else(|error| panic!("{what}: {error}"));
    assert!(status.success(), "{what} failed");
}

fn main() {
    let out = env::var("OUT_DIR").unwrap();
    let library = env::var("ZUCCARVENTO_LIB").expect("ZUCCARVENTO_LIB: the folder of libexports.a") + "/libexports.a";
    let compiler = env::var("CC").unwrap_or_else(|_| "cc".into());
    for name in ["decide", "reduce"] {
        let (source, object) = (format!("plain/{name}.c"), format!("{out}/{name}.o"));
        done("the C compiler", Command::new(&compiler).args(["-O2", "-falign-functions=64", "-c", &source, "-o", &object]));
        println!("cargo:rustc-link-arg={object}");
    }
    let aligned = format!("{out}/libexports.a");
    done("objcopy", Command::new("objcopy").args(["--set-section-alignment", ".text.*=64", &library, &aligned]));
    println!("cargo:rustc-link-search=native={out}");
    println!("cargo:rustc-link-lib=static=exports");
    println!("cargo:rerun-if-changed=plain");
    println!("cargo:rerun-if-changed={library}");
    println!("cargo:rerun-if-env-changed=ZUCCARVENTO_LIB");
    println!("cargo:rerun-if-env-changed=CC");
}
