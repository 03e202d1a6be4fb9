//! Links the static library: that of the folder that RKYV_BTREE_LIB_DIR names, or that of `make bindings`, or the installed one.
use std::env;
use std::path::PathBuf;
use std::process::Command;

const LIBRARY: &str = "librkyv_btree.a";

/// Returns the folder that RKYV_BTREE_LIB_DIR names.
fn named() -> Option<PathBuf> {
    env::var_os("RKYV_BTREE_LIB_DIR").map(PathBuf::from)
}

/// Returns the folder of `make bindings`, if the crate lies in its repository.
fn built() -> Option<PathBuf> {
    let folder = PathBuf::from(env::var_os("CARGO_MANIFEST_DIR")?).join("../build");
    folder.join(LIBRARY).is_file().then_some(folder)
}

/// Returns the folder that pkg-config knows.
fn installed() -> Option<PathBuf> {
    let output = Command::new("pkg-config")
        .args(["--variable=libdir", "rkyv_btree"])
        .output()
        .ok()?;
    let folder = String::from_utf8(output.stdout).ok()?;
    output.status.success().then(|| PathBuf::from(folder.trim()))
}

fn main() {
    println!("cargo:rerun-if-env-changed=RKYV_BTREE_LIB_DIR");
    println!("cargo:rerun-if-env-changed=PKG_CONFIG_PATH");
    let folder = named()
        .or_else(built)
        .or_else(installed)
        .unwrap_or_else(|| panic!("no {LIBRARY}: run `make bindings`, install it, or name its folder in RKYV_BTREE_LIB_DIR"));
    let library = folder.join(LIBRARY);
    assert!(library.is_file(), "there is no {}", library.display());
    println!("cargo:rustc-link-search=native={}", folder.display());
    println!("cargo:rustc-link-lib=static=rkyv_btree");
    println!("cargo:rerun-if-changed={}", library.display());
}
