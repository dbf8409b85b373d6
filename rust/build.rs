//! Links the proved library, `libcapi.a`: from the folder that SHX_LIB names, else from where `tools/library` writes it.

use std::env;
use std::path::PathBuf;

fn main() {
    let written = || PathBuf::from(env::var_os("CARGO_MANIFEST_DIR").unwrap()).join("../target/staticlib");
    let folder = env::var_os("SHX_LIB").map_or_else(written, PathBuf::from);
    println!("cargo:rerun-if-env-changed=SHX_LIB");
    println!("cargo:rerun-if-changed={}", folder.join("libcapi.a").display());
    println!("cargo:rustc-link-search=native={}", folder.display());
    println!("cargo:rustc-link-lib=static=capi");
}
