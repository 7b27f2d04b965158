// Says where libboughladder.a is: in the directory BOUGHLADDER_LIB, else where the repository builds it.
use std::{env, path::PathBuf};

fn main() {
    println!("cargo:rerun-if-env-changed=BOUGHLADDER_LIB");
    let here = PathBuf::from(env::var("CARGO_MANIFEST_DIR").unwrap());
    let lib = env::var("BOUGHLADDER_LIB").map_or_else(|_| here.join("../../target/staticlib"), PathBuf::from);
    let archive = lib.join("libboughladder.a");
    if !archive.exists() {
        panic!(
            "{} is missing: run examples/library, or set BOUGHLADDER_LIB to the archive's directory",
            archive.display()
        );
    }
    println!("cargo:rerun-if-changed={}", archive.display());
    println!("cargo:rustc-link-search=native={}", lib.display());
    println!("cargo:rustc-link-lib=static=boughladder");
}
