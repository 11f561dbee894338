//! Links the engine's archive where it is for this machine: the toolchain's is for x86-64,
//! ENGINE names the folder of one made for another (checks/native), and the stub may stand
//! in for it. Elsewhere the engine is called through a pipe.

use std::env;
use std::path::{Path, PathBuf};

fn main() {
    println!("cargo:rustc-check-cfg=cfg(linked)");
    println!("cargo:rerun-if-env-changed=ENGINE");
    let here = env::var("CARGO_MANIFEST_DIR").expect("cargo sets it");
    let named = env::var_os("ENGINE").map(PathBuf::from);
    let own = env::var("CARGO_CFG_TARGET_ARCH").expect("cargo sets it") == "x86_64";
    let linked = own || named.is_some();
    let folder = named.unwrap_or_else(|| Path::new(&here).join("../target/staticlib"));
    let archive = folder.join("libengine.a");
    println!("cargo:rerun-if-changed={}", archive.display());
    if env::var_os("CARGO_FEATURE_STUB").is_some() {
        println!("cargo:rustc-cfg=linked");
        return;
    }
    if !linked {
        return;
    }
    println!("cargo:rustc-cfg=linked");
    if !archive.is_file() {
        eprintln!("{} is missing.", archive.display());
        eprintln!("Build it at the repository's top: checks/archive");
        eprintln!("To try this package without the engine: cargo run --package beside --features stub --bin beside");
        std::process::exit(1);
    }
    println!("cargo:rustc-link-search=native={}", folder.display());
    println!("cargo:rustc-link-lib=static=engine");
}
