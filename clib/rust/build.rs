//! Finds `libtracerd`: in the folder of `TRACERD_LIB`, or where `pkg-config` says it is.
use std::process::Command;

fn main() {
    println!("cargo:rerun-if-env-changed=TRACERD_LIB");
    println!("cargo:rerun-if-env-changed=PKG_CONFIG_PATH");
    println!("cargo:rerun-if-changed=build.rs");
    let folder = std::env::var("TRACERD_LIB").ok().or_else(|| {
        let asked = Command::new("pkg-config").args(["--variable=libdir", "tracerd"]).output().ok()?;
        let said = String::from_utf8(asked.stdout).ok()?.trim().to_owned();
        (!said.is_empty()).then_some(said)
    });
    let folder = folder.expect("TRACERD_LIB names no folder, and pkg-config has no package tracerd");
    println!("cargo:rerun-if-changed={folder}/libtracerd.a");
    println!("cargo:rustc-link-search=native={folder}");
    println!("cargo:rustc-link-lib=static=tracerd");
}
