//! Finds the library: `FDB_READ_VERSION_LIB` names its folder or a file there, by a path from the
//! root; else it is that of the repository, where that has built one, or what pkg-config knows as
//! `fdb-read-version`, of the crate's minor version. Documents are made without it.

use std::env;
use std::path::{Path, PathBuf};
use std::process::{exit, Command};

const STATIC: &str = "libfdb_read_version.a";
const HOW: &str = "make it with tools/bindings, install the package fdb-read-version, or set \
    FDB_READ_VERSION_LIB to its folder";

fn main() {
    for name in ["FDB_READ_VERSION_LIB", "DOCS_RS", "PKG_CONFIG"] {
        println!("cargo:rerun-if-env-changed={name}");
    }
    for name in ["PATH", "LIBDIR", "SYSROOT_DIR"] {
        println!("cargo:rerun-if-env-changed=PKG_CONFIG_{name}");
    }
    if env::var_os("DOCS_RS").is_some() {
        return;
    }
    let here = PathBuf::from(env::var_os("CARGO_MANIFEST_DIR").expect("cargo sets it"));
    let built = here.join("../../../crates/fdb_c/out");
    if let Some(named) = env::var_os("FDB_READ_VERSION_LIB") {
        let mut folder = PathBuf::from(named);
        if folder.is_file() {
            folder.pop();
        }
        link_in(&folder);
    } else if built.join(STATIC).is_file() {
        link_in(&built);
    } else if let Some(words) = installed() {
        for word in words.split_whitespace() {
            if let Some(folder) = word.strip_prefix("-L") {
                println!("cargo:rustc-link-search=native={folder}");
            } else if let Some(name) = word.strip_prefix("-l") {
                println!("cargo:rustc-link-lib={name}");
            }
        }
    } else {
        eprintln!("there is no libfdb_read_version: {HOW}");
        exit(1);
    }
}

/// Links the static library of a folder, with what it asks of the C library where that stands apart.
fn link_in(folder: &Path) {
    let library = folder.join(STATIC);
    if !library.is_file() {
        eprintln!("{} is missing: {HOW}", library.display());
        exit(1);
    }
    println!("cargo:rustc-link-search=native={}", folder.display());
    for (file, name) in [(STATIC, "fdb_read_version"), ("liblibc_c.a", "libc_c")] {
        let path = folder.join(file);
        if path.is_file() {
            println!("cargo:rerun-if-changed={}", path.display());
            println!("cargo:rustc-link-lib=static={name}");
        }
    }
}

/// How the library is linked that is installed, if one of the crate's minor version is.
fn installed() -> Option<String> {
    let number = |it: &str| it.parse::<u32>().expect("cargo's numbers");
    let major = number(env!("CARGO_PKG_VERSION_MAJOR"));
    let minor = number(env!("CARGO_PKG_VERSION_MINOR"));
    let program = env::var_os("PKG_CONFIG").unwrap_or_else(|| "pkg-config".into());
    let said = Command::new(program)
        .arg("--libs")
        .arg(format!("fdb-read-version >= {major}.{minor}"))
        .arg(format!("fdb-read-version < {major}.{}", minor + 1))
        .output()
        .ok()?;
    said.status.success().then(|| String::from_utf8_lossy(&said.stdout).into_owned())
}
