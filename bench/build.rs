//! Links libsepia.a: from target/staticlib of the repository, or from the folder that SEPIA_LIB_DIR names.

use std::env;
use std::path::{Path, PathBuf};

fn main() {
    let folder = match env::var_os("SEPIA_LIB_DIR") {
        Some(folder) => PathBuf::from(folder),
        None => Path::new(&env::var_os("CARGO_MANIFEST_DIR").expect("run by cargo")).join("../target/staticlib"),
    };
    println!("cargo:rerun-if-env-changed=SEPIA_LIB_DIR");
    println!("cargo:rerun-if-changed={}", folder.join("libsepia.a").display());
    println!("cargo:rustc-link-search=native={}", folder.display());
    println!("cargo:rustc-link-lib=static=sepia");
}
