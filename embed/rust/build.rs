//! Links the archive that `embed/run` makes, in `embed/out` or where `STACKWASM_LIB` says.
use std::env;
use std::path::PathBuf;

fn main() {
    let beside = PathBuf::from(env::var_os("CARGO_MANIFEST_DIR").expect("cargo sets it")).join("../out");
    let folder = env::var_os("STACKWASM_LIB").map_or(beside, PathBuf::from);
    println!("cargo:rustc-link-search=native={}", folder.display());
    println!("cargo:rustc-link-lib=static=stackwasm");
    println!("cargo:rerun-if-env-changed=STACKWASM_LIB");
    println!("cargo:rerun-if-changed={}", folder.join("libstackwasm.a").display());
}
