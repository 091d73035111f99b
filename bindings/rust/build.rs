//! Finds the static library of the C interface, or has `rt` make it.
//!
//! `QUAYTHISTLE_LIB` names `libquaythistle.a` or its folder; without it the library is the one in the repository's `crates/quaythistle/out`,
//! and where there is none, `rt lib` in `crates/quaythistle` makes it. With `QUAYTHISTLE_LIB=none` nothing is linked: enough for `cargo check`.

use std::env;
use std::path::{Path, PathBuf};
use std::process::{exit, Command};

const ARCHIVE: &str = "libquaythistle.a";

fn fail(reason: &str) -> ! {
    eprintln!("quaythistle: {reason}");
    exit(1);
}

/// The library is x86-64 Linux code, and no other machine's linker takes it.
fn refuse_other_machines() {
    let arch = env::var("CARGO_CFG_TARGET_ARCH").unwrap_or_default();
    let system = env::var("CARGO_CFG_TARGET_OS").unwrap_or_default();
    if (arch.as_str(), system.as_str()) != ("x86_64", "linux") {
        fail(&format!(
            "the proved library is x86-64 Linux code, and cannot be linked into a program for {arch} {system}. \
             Build on x86-64 Linux or for the target x86_64-unknown-linux-gnu; \
             for `cargo check` alone, which links nothing, set QUAYTHISTLE_LIB=none"
        ));
    }
}

/// The folder that holds the library named by `QUAYTHISTLE_LIB`.
fn named(path: &Path) -> PathBuf {
    let folder = match path.parent() {
        Some(parent) if !path.is_dir() => parent,
        _ => path,
    };
    if !folder.join(ARCHIVE).is_file() {
        fail(&format!(
            "QUAYTHISTLE_LIB is {}, and that is neither {ARCHIVE} nor its folder",
            path.display()
        ));
    }
    folder.to_path_buf()
}

/// `rt lib`, in the crate's folder.
fn make(crate_folder: &Path) {
    let run = Command::new("rt")
        .arg("lib")
        .current_dir(crate_folder)
        .output();
    match run {
        Ok(output) if output.status.success() => {}
        Ok(output) => fail(&format!(
            "`rt lib` in crates/quaythistle failed:\n{}{}",
            String::from_utf8_lossy(&output.stdout),
            String::from_utf8_lossy(&output.stderr)
        )),
        Err(error) => fail(&format!(
            "there is no {ARCHIVE} in crates/quaythistle/out, and `rt lib` cannot be run there ({error}). \
             Install the Rattle kit, or name the library by QUAYTHISTLE_LIB"
        )),
    }
}

/// The folder of the repository's own library, which is made where it is missing.
fn found_or_made() -> PathBuf {
    let here = PathBuf::from(env::var_os("CARGO_MANIFEST_DIR").unwrap_or_default());
    let crate_folder = here.join("../../crates/quaythistle");
    let folder = crate_folder.join("out");
    if !folder.join(ARCHIVE).is_file() {
        make(&crate_folder);
    }
    folder
}

fn main() {
    println!("cargo:rerun-if-changed=build.rs");
    println!("cargo:rerun-if-env-changed=QUAYTHISTLE_LIB");
    let given = env::var_os("QUAYTHISTLE_LIB");
    if given.as_deref() == Some("none".as_ref()) {
        return;
    }
    refuse_other_machines();
    let folder = match given {
        Some(path) => named(Path::new(&path)),
        None => found_or_made(),
    };
    println!("cargo:rerun-if-changed={}", folder.join(ARCHIVE).display());
    println!("cargo:rustc-link-search=native={}", folder.display());
    println!("cargo:rustc-link-lib=static=quaythistle");
}
