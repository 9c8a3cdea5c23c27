//! Links libaamediate.a: from the folder AAMEDIATE_LIB, or where the linker looks anyway.
use std::env;

fn main() {
    println!("cargo:rerun-if-env-changed=AAMEDIATE_LIB");
    if let Ok(folder) = env::var("AAMEDIATE_LIB") {
        println!("cargo:rustc-link-search=native={folder}");
    }
    println!("cargo:rustc-link-lib=static=aamediate");
}
