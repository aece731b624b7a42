//! Links the proved static library, made by `tools/make-library`.

use std::env;
use std::path::PathBuf;

fn main() {
    // GEOPOTENTIAL_LIB_DIR is taken from the repository's root, where it is not absolute.
    let root = PathBuf::from(env::var_os("CARGO_MANIFEST_DIR").unwrap()).join("../..");
    let folder = root.join(env::var_os("GEOPOTENTIAL_LIB_DIR").unwrap_or("target/staticlib".into()));
    let library = folder.join("libgeopotential.a");
    println!("cargo::rerun-if-env-changed=GEOPOTENTIAL_LIB_DIR");
    println!("cargo::rerun-if-changed={}", library.display());
    if !library.is_file() {
        println!("cargo::error={} is absent: make it by tools/make-library, or name its folder in GEOPOTENTIAL_LIB_DIR", library.display());
        return;
    }
    println!("cargo::rustc-link-search=native={}", folder.display());
    println!("cargo::rustc-link-lib=static=geopotential");
}
