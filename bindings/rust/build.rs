//! Links target/libtambuyeel.a, which `./library` at the top of the repository makes; makes it where it is missing and the toolchain is at hand.
//! TAMBUYEEL_LIB names another folder that has it.

use std::env::var;
use std::path::{Path, PathBuf};
use std::process::{exit, Command};

fn stop(why: &str) -> ! {
    eprintln!("tambuyeel: {why}");
    exit(1)
}

fn main() {
    println!("cargo:rerun-if-env-changed=TAMBUYEEL_LIB");
    let target = (var("CARGO_CFG_TARGET_ARCH"), var("CARGO_CFG_TARGET_OS"));
    if target != (Ok("x86_64".into()), Ok("linux".into())) {
        stop("the library is built for x86-64 Linux alone; another target can't be linked");
    }
    let top = Path::new(env!("CARGO_MANIFEST_DIR")).join("../..");
    let folder = var("TAMBUYEEL_LIB").map(PathBuf::from).unwrap_or_else(|_| top.join("target"));
    let archive = folder.join("libtambuyeel.a");
    println!("cargo:rerun-if-changed={}", archive.display());
    if !archive.exists() && var("TAMBUYEEL_LIB").is_err() {
        make(&top);
    }
    if !archive.exists() {
        stop(&format!("{} isn't there: run ./library at the top of the repository (it wants the command `rt`)", archive.display()));
    }
    println!("cargo:rustc-link-search=native={}", folder.display());
    println!("cargo:rustc-link-lib=static=tambuyeel");
}

/// Runs ./library where `rt` is on the PATH.
fn make(top: &Path) {
    let path = var("PATH").unwrap_or_default();
    if std::env::split_paths(&path).any(|folder| folder.join("rt").exists()) {
        let done = Command::new(top.join("library")).stdout(std::process::Stdio::null()).status();
        if !done.is_ok_and(|status| status.success()) {
            stop("./library failed; run it at the top of the repository to see why");
        }
    }
}
