//! Links the static library libcrossbar5.a: from the folder in CROSSBAR5_LIB_DIR, else from bindings/out.

use std::env;
use std::path::{Path, PathBuf};

fn main() {
    println!("cargo:rerun-if-env-changed=CROSSBAR5_LIB_DIR");
    let folder = match env::var_os("CROSSBAR5_LIB_DIR") {
        Some(folder) => PathBuf::from(folder),
        None => Path::new(&env::var_os("CARGO_MANIFEST_DIR").unwrap()).join("../out"),
    };
    let library = folder.join("libcrossbar5.a");
    println!("cargo:rerun-if-changed={}", library.display());
    if !library.is_file() {
        panic!(
            "there is no {}: run bindings/build, or set CROSSBAR5_LIB_DIR",
            library.display()
        );
    }
    println!("cargo:rustc-link-search=native={}", folder.display());
    println!("cargo:rustc-link-lib=static=crossbar5");
}
