//! Says which targets there are, and where the archive is if `LIMEKEEL_LIB_DIR` names its folder. Without that the crate has
//! it as assembly, and needs no C compiler and nothing built before.

use std::path::{Path, PathBuf};
use std::{env, fs};

/// What this crate is made of beside its sources: in a package it lies in the crate, in the repository one folder above.
const LAID_BESIDE: [&str; 2] = ["limekeel.h", "limekeel.s"];

fn main() {
    println!("cargo::rustc-check-cfg=cfg(limekeel_lib_dir)");
    println!("cargo::rerun-if-env-changed=LIMEKEEL_LIB_DIR");
    let out = read("OUT_DIR");
    LAID_BESIDE.iter().for_each(|name| copy(name, Path::new(&out)));
    println!("cargo::metadata=include={out}");
    let target = ["ARCH", "OS", "POINTER_WIDTH"].map(|what| read(&format!("CARGO_CFG_TARGET_{what}")));
    if target != ["x86_64", "linux", "64"] {
        println!("cargo::error=limekeel is compiled for x86-64 Linux alone, and not for {}", read("TARGET"));
        return;
    }
    if let Some(folder) = env::var_os("LIMEKEEL_LIB_DIR").map(PathBuf::from) {
        link(&folder.join("liblimekeel.a"));
    }
}

/// Copies a file to where this crate is built.
fn copy(name: &str, out: &Path) {
    let here = PathBuf::from(read("CARGO_MANIFEST_DIR"));
    let places = [here.join(name), here.join("..").join(name)];
    let Some(place) = places.iter().find(|place| place.exists()) else {
        println!("cargo::error={name} is neither in this crate nor in the folder above: dist/crates lays packages out");
        return;
    };
    println!("cargo::rerun-if-changed={}", place.display());
    if let Err(error) = fs::copy(place, out.join(name)) {
        println!("cargo::error={}: {error}", place.display());
    }
}

/// Links an archive in place of the assembly.
fn link(archive: &Path) {
    println!("cargo::rerun-if-changed={}", archive.display());
    if !archive.exists() {
        // `cargo check`, `clippy` and `doc` link nothing, so they go on without it
        println!("cargo::warning=LIMEKEEL_LIB_DIR: there is no {}", archive.display());
    }
    println!("cargo::rustc-cfg=limekeel_lib_dir");
    println!("cargo::rustc-link-search=native={}", archive.parent().expect("it has a folder").display());
    println!("cargo::rustc-link-lib=static=limekeel");
}

/// A variable that cargo sets.
fn read(name: &str) -> String {
    env::var(name).unwrap_or_else(|error| panic!("{name}: {error}"))
}
