//! Links libntske.a of the machine that is built for, from where ./archive puts it or from the folder that NTSKE_LIB
//! names. Where there is none, that is said and not refused: `cargo check` and `cargo doc` need none, and the linker
//! misses it.

use std::env::var_os;
use std::ffi::OsString;
use std::path::{Path, PathBuf};

fn main() {
    println!("cargo:rerun-if-env-changed=NTSKE_LIB");
    let told = |name: &str| var_os(name).unwrap_or_else(|| panic!("cargo tells {name}"));
    let (package, host, machine) = (told("CARGO_MANIFEST_DIR"), told("HOST"), told("CARGO_CFG_TARGET_ARCH"));
    let (host, machine) = (host.to_string_lossy(), machine.to_string_lossy());
    let lib = folder(var_os("NTSKE_LIB"), package.as_ref(), &host, &machine);
    let archive = lib.join("libntske.a");
    if !archive.is_file() {
        println!(
            "cargo:warning=there is no {}: make it with ./archive {machine}, or say in NTSKE_LIB in which folder it is",
            archive.display()
        );
    }
    println!("cargo:rerun-if-changed={}", archive.display());
    println!("cargo:rustc-link-search=native={}", lib.display());
    println!("cargo:rustc-link-lib=static=ntske");
}

/// The folder of the archive: the one that is named, otherwise that of ./archive, which has the own machine's in
/// target/lib and another's in a folder of that machine's name below it. `host` is the own machine's triple.
pub fn folder(named: Option<OsString>, package: &Path, host: &str, machine: &str) -> PathBuf {
    if let Some(named) = named {
        return named.into();
    }
    let project = package.join("../..");
    let lib = project.canonicalize().unwrap_or(project).join("target/lib");
    if host.split('-').next() == Some(machine) {
        lib
    } else {
        lib.join(machine)
    }
}
