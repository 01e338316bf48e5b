//! Links the planner's line call if its archive is there and this machine is
//! the x86-64 that it is compiled for; otherwise the program times the plain
//! flow alone.

use std::path::Path;

fn main() {
    let folder =
        Path::new(&std::env::var("CARGO_MANIFEST_DIR").unwrap()).join("../target/staticlib");
    let archive = folder.join("libaurhennig.a");
    println!("cargo:rustc-check-cfg=cfg(line_call)");
    println!("cargo:rerun-if-changed={}", archive.display());
    let x86_64 = std::env::var("CARGO_CFG_TARGET_ARCH").as_deref() == Ok("x86_64");
    if x86_64 && archive.exists() {
        println!("cargo:rustc-cfg=line_call");
        println!("cargo:rustc-link-search=native={}", folder.display());
        println!("cargo:rustc-link-lib=static=aurhennig");
    }
}
