//! Says where the proved core's static library is, if it is asked for.

use std::env;

fn main() {
    println!("cargo:rerun-if-changed=build.rs");
    println!("cargo:rerun-if-env-changed=XM_LIB_DIR");
    // A checksum of the library, if the caller gives one: a library with an older date is linked anew, too.
    println!("cargo:rerun-if-env-changed=XM_LIB_SUM");
    if env::var_os("CARGO_FEATURE_PROVED").is_none() {
        return;
    }
    let folder = env::var("XM_LIB_DIR").expect("XM_LIB_DIR must name the folder of libentrance.a");
    println!("cargo:rerun-if-changed={folder}/libentrance.a");
    println!("cargo:rustc-link-search=native={folder}");
    println!("cargo:rustc-link-lib=static=entrance");
    // The library may bring its own copy of the standard library's symbols; the first of two equal ones will do.
    println!("cargo:rustc-link-arg=-Wl,--allow-multiple-definition");
}
