//! Links the engine, `../target/staticlib/libcabinet.a`, if it has been built, and sets the cfg `cabinet`.
//! Sets the cfg `session` if the printing program, `../target/bin/session`, has been built, and the cfg
//! `before` if the engine of another revision, `../target/before/libbefore.a` (made by `host/before`), has
//! been. Without them everything else still compiles, and the tests run on the plain reader and the plain
//! interpreter alone.

use std::env;
use std::path::PathBuf;

fn main() {
    println!("cargo::rustc-check-cfg=cfg(cabinet)");
    println!("cargo::rustc-check-cfg=cfg(session)");
    println!("cargo::rustc-check-cfg=cfg(before)");
    println!("cargo::rerun-if-changed=build.rs");
    let package = PathBuf::from(env::var("CARGO_MANIFEST_DIR").expect("cargo names the package's folder"));
    link(package.join("../target/staticlib"), "cabinet");
    link(package.join("../target/before"), "before");
    let program = package.join("../target/bin/session");
    println!("cargo::rerun-if-changed={}", program.display());
    if program.is_file() {
        println!("cargo::rustc-cfg=session");
    }
}

/// Links the library of this name and sets the cfg of this name, if it is in the folder.
fn link(folder: PathBuf, name: &str) {
    let library = folder.join(format!("lib{name}.a"));
    println!("cargo::rerun-if-changed={}", library.display());
    if library.is_file() {
        println!("cargo::rustc-link-search=native={}", folder.display());
        println!("cargo::rustc-link-lib=static={name}");
        println!("cargo::rustc-cfg={name}");
    }
}
