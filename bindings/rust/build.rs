//! Finds libcapi.a, the archive of the C functions, and links it; where it is not there, says how it is made.
use std::env;
use std::path::PathBuf;

/// The folder that STREET_DRILL_ARCHIVE names, else the one that `tools/build capi` writes to.
fn folder() -> PathBuf {
    match env::var_os("STREET_DRILL_ARCHIVE") {
        Some(named) => PathBuf::from(named),
        None => PathBuf::from(env!("CARGO_MANIFEST_DIR")).join("../../target/staticlib"),
    }
}

fn is(name: &str, value: &str) -> bool {
    env::var(name).is_ok_and(|v| v == value)
}

fn main() {
    // Made absolute, since the linker need not start where this does.
    let folder = std::path::absolute(folder()).expect("the folder has a name");
    let archive = folder.join("libcapi.a");
    println!("cargo::rerun-if-env-changed=STREET_DRILL_ARCHIVE");
    println!("cargo::rerun-if-changed={}", archive.display());
    if !(is("CARGO_CFG_TARGET_ARCH", "x86_64") && is("CARGO_CFG_TARGET_OS", "linux")) {
        println!("cargo::error=the archive of the street drill forecast is made for x86-64 Linux only");
    } else if !archive.is_file() {
        println!("cargo::error=there is no {}", archive.display());
        println!(
            "cargo::error=run `tools/build capi` in the repository's root, which writes target/staticlib/libcapi.a,"
        );
        println!("cargo::error=or set STREET_DRILL_ARCHIVE to the folder that has a libcapi.a");
    } else {
        println!("cargo::rustc-link-search=native={}", folder.display());
        println!("cargo::rustc-link-lib=static=capi");
    }
}
