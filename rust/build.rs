// Links the proved archive. Without it, or for another processor, the questions are left out and a line says why.
use std::env;
use std::path::Path;

fn main() {
    let archive = Path::new("../target/staticlib/libstill_c.a");
    println!("cargo:rustc-check-cfg=cfg(still_linked)");
    println!("cargo:rerun-if-changed=build.rs");
    println!("cargo:rerun-if-changed={}", archive.display());
    let processor = env::var("CARGO_CFG_TARGET_ARCH").unwrap();
    let system = env::var("CARGO_CFG_TARGET_OS").unwrap();
    if (processor.as_str(), system.as_str()) != ("x86_64", "linux") {
        println!("cargo:warning=questions and their tests left out: the archive is for x86_64 linux, not for {processor} {system} (install Rust's target x86_64-unknown-linux-gnu and build with --target)");
    } else if !archive.exists() {
        println!("cargo:warning=questions and their tests left out: no target/staticlib/libstill_c.a (`tools/archive` writes it)");
    } else {
        let place = archive.canonicalize().unwrap();
        println!("cargo:rustc-link-search=native={}", place.parent().unwrap().display());
        println!("cargo:rustc-link-lib=static=still_c");
        println!("cargo:rustc-cfg=still_linked");
    }
}
