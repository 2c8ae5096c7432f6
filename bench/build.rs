//! Links the monitor's static library, or replaces it where BENCH_NO_LIBRARY is set.

use std::env;
use std::path::Path;

fn main() {
    println!("cargo:rerun-if-changed=build.rs");
    println!("cargo:rerun-if-env-changed=BENCH_NO_LIBRARY");
    println!("cargo:rustc-check-cfg=cfg(no_library)");
    if env::var_os("BENCH_NO_LIBRARY").is_some() {
        println!("cargo:rustc-cfg=no_library");
    } else {
        link_the_library();
    }
}

fn link_the_library() {
    let crate_folder = env::var("CARGO_MANIFEST_DIR").expect("cargo names the crate's folder");
    let folder = Path::new(&crate_folder).join("../target/staticlib");
    let library = folder.join("libembed.a");
    if !library.exists() {
        println!("cargo:warning={} is missing: build it first, or set BENCH_NO_LIBRARY", library.display());
    }
    println!("cargo:rerun-if-changed={}", library.display());
    println!("cargo:rustc-link-search=native={}", folder.display());
    println!("cargo:rustc-link-lib=static=embed");
}
