// Links libreadstore.a. scripts/archive writes it to the repository's target/staticlib; READSTORE_LIB names another folder.
use std::{env, path::PathBuf, process::Command};

fn main() {
    let root = PathBuf::from(env::var("CARGO_MANIFEST_DIR").unwrap()).join("..");
    let folder = env::var("READSTORE_LIB").map(PathBuf::from).unwrap_or_else(|_| root.join("target/staticlib"));
    if !folder.join("libreadstore.a").exists() {
        let made = Command::new(root.join("scripts/archive")).status();
        assert!(matches!(made, Ok(s) if s.success()), "scripts/archive failed: is the Rattle toolchain's command rt on the path?");
    }
    println!("cargo:rustc-link-search=native={}", folder.display());
    println!("cargo:rustc-link-lib=static=readstore");
    println!("cargo:rerun-if-changed={}", folder.join("libreadstore.a").display());
    println!("cargo:rerun-if-env-changed=READSTORE_LIB");
}
