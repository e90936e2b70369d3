//! Finds libffi.a: SHILLINGREED_LIB names it or the folder it is in; else it is where `tools/archive ffi` writes it. It is linked under
//! another name, since libffi is also the name of a library that many programs have.
use std::path::PathBuf;
use std::{env, fs, process};

fn main() {
    println!("cargo:rerun-if-env-changed=SHILLINGREED_LIB");
    let here = PathBuf::from(env::var_os("CARGO_MANIFEST_DIR").expect("cargo sets CARGO_MANIFEST_DIR"));
    let out = PathBuf::from(env::var_os("OUT_DIR").expect("cargo sets OUT_DIR"));
    let given = env::var_os("SHILLINGREED_LIB").map_or_else(|| here.join("../../target/staticlib"), PathBuf::from);
    let archive = if given.is_dir() { given.join("libffi.a") } else { given };
    if let Err(why) = fs::copy(&archive, out.join("libshillingreed.a")) {
        eprintln!("{}: {why}. Build it with `tools/archive ffi`, or set SHILLINGREED_LIB", archive.display());
        process::exit(1);
    }
    println!("cargo:rerun-if-changed={}", archive.display());
    println!("cargo:rustc-link-search=native={}", out.display());
    println!("cargo:rustc-link-lib=static=shillingreed");
}
