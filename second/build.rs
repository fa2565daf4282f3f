//! Finds the C library in the folder that MULLODAI_LIB_DIR names; there is no building without it.
#![forbid(unsafe_code)]

use std::path::PathBuf;
use std::process::exit;

const VARIABLE: &str = "MULLODAI_LIB_DIR";
const FILE: &str = "libmullodai.a";

fn main() {
    println!("cargo:rerun-if-env-changed={VARIABLE}");
    let Some(named) = std::env::var_os(VARIABLE) else {
        stop(&format!("set {VARIABLE} to the folder that has {FILE}"));
    };
    let Ok(folder) = PathBuf::from(&named).canonicalize() else {
        stop(&format!(
            "{VARIABLE} names {named:?}, which is no folder here"
        ));
    };
    let file = folder.join(FILE);
    if !file.is_file() {
        stop(&format!("{VARIABLE} names {named:?}, which has no {FILE}"));
    }
    println!("cargo:rerun-if-changed={}", file.display());
    // The library comes last, and may bring a panic handler of its own beside this program's.
    println!("cargo:rustc-link-arg-bins={}", file.display());
    println!("cargo:rustc-link-arg-bins=-Wl,--allow-multiple-definition");
}

fn stop(message: &str) -> ! {
    eprintln!("{message}");
    exit(1)
}
