//! Links the proved archive `libropethatch.a`, and stops with a clear message where that can't be done.

use std::env;
use std::path::PathBuf;
use std::process;

fn main() {
    println!("cargo:rerun-if-changed=build.rs");
    println!("cargo:rerun-if-env-changed=ROPETHATCH_LIB_DIR");
    check_target();
    link(archive_dir());
}

/// The archive holds x86-64 code that follows the System V calling convention with 64-bit pointers.
fn check_target() {
    let is = |name: &str, wanted: &str| env::var(name).as_deref() == Ok(wanted);
    let fits = is("CARGO_CFG_TARGET_ARCH", "x86_64")
        && is("CARGO_CFG_TARGET_OS", "linux")
        && is("CARGO_CFG_TARGET_POINTER_WIDTH", "64");
    if !fits {
        let target = env::var("TARGET").unwrap_or_default();
        fail(&format!(
            "libropethatch.a is x86-64 Linux code and can't be linked into a program for {target}; \
             build with --target x86_64-unknown-linux-gnu"
        ));
    }
}

/// Where the archive stands: `ROPETHATCH_LIB_DIR`, else `target/staticlib` of the project that this crate is part of.
fn archive_dir() -> PathBuf {
    match env::var_os("ROPETHATCH_LIB_DIR") {
        Some(dir) => PathBuf::from(dir),
        None => {
            let here = env::var_os("CARGO_MANIFEST_DIR").expect("cargo names the crate's folder");
            PathBuf::from(here).join("../../target/staticlib")
        }
    }
}

fn link(dir: PathBuf) {
    let archive = dir.join("libropethatch.a");
    println!("cargo:rerun-if-changed={}", archive.display());
    if !archive.is_file() {
        fail(&format!(
            "there is no {}; build it at the project's root with `tools/library`, \
             or name the folder that holds libropethatch.a in ROPETHATCH_LIB_DIR",
            archive.display()
        ));
    }
    println!("cargo:rustc-link-search=native={}", dir.display());
    println!("cargo:rustc-link-lib=static=ropethatch");
}

fn fail(why: &str) -> ! {
    eprintln!("ropethatch: {why}");
    process::exit(1)
}
