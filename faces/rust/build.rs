//! Links libkp.a, which the folder that LEMBICSOV_LIBRARY_DIR names has in `lib`.

use std::env;
use std::path::Path;

const NAME: &str = "LEMBICSOV_LIBRARY_DIR";

fn main() {
    println!("cargo::rerun-if-env-changed={NAME}");
    println!("cargo::rustc-check-cfg=cfg(has_library)");
    // Documentation is built without the library. All else is refused by src/lib.rs, in words, where none is named.
    let Some(folder) = env::var_os(NAME) else {
        return;
    };
    let library = Path::new(&folder).join("lib");
    let archive = library.join("libkp.a");
    println!("cargo::rerun-if-changed={}", archive.display());
    if !library.is_absolute() {
        println!("cargo::error={NAME} names no absolute path: {}", library.display());
    } else if !archive.is_file() {
        println!("cargo::error={NAME}: there is no {}; `./library --into DIR` makes it", archive.display());
    } else {
        println!("cargo::rustc-link-search=native={}", library.display());
        println!("cargo::rustc-link-lib=static=kp");
        println!("cargo::rustc-cfg=has_library");
    }
}
