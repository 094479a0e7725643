//! Links libvayemuku.a from target/staticlib, or from the folder that VAYEMUKU_LIB names. Where target/staticlib has
//! none, `make lib` makes it.

use std::path::{Path, PathBuf};
use std::process::{exit, Command};

/// Gives cargo the place of the library.
fn main() {
    println!("cargo:rerun-if-env-changed=VAYEMUKU_LIB");
    let folder = match std::env::var_os("VAYEMUKU_LIB") {
        Some(folder) => given(PathBuf::from(folder)),
        None => found_or_made(&Path::new(env!("CARGO_MANIFEST_DIR")).join("../..")),
    };
    println!("cargo:rerun-if-changed={}", library(&folder).display());
    println!("cargo:rustc-link-search=native={}", folder.display());
    println!("cargo:rustc-link-lib=static=vayemuku");
}

/// The library in a folder.
fn library(folder: &Path) -> PathBuf {
    folder.join("libvayemuku.a")
}

/// The folder that VAYEMUKU_LIB names.
fn given(folder: PathBuf) -> PathBuf {
    if !library(&folder).exists() {
        stop(&format!("VAYEMUKU_LIB names {}, which has no libvayemuku.a", folder.display()));
    }
    folder
}

/// target/staticlib of the repository, with the library in it.
fn found_or_made(repository: &Path) -> PathBuf {
    let folder = repository.join("target/staticlib");
    if !library(&folder).exists() {
        make(repository);
    }
    if !library(&folder).exists() {
        stop("`make lib` ended well, but target/staticlib/libvayemuku.a is missing");
    }
    folder
}

/// Makes the library with the Rattle toolchain.
fn make(repository: &Path) {
    match Command::new("make").args(["--no-print-directory", "lib"]).current_dir(repository).status() {
        Ok(status) if status.success() => {}
        Ok(status) => stop(&format!(
            "target/staticlib/libvayemuku.a is missing, and `make lib`, which makes it, failed with {status}: run it \
             where the Rattle toolchain's command rt is on the PATH, or set VAYEMUKU_LIB to a folder that has \
             libvayemuku.a"
        )),
        Err(_) => stop(
            "target/staticlib/libvayemuku.a is missing, and make, with which `make lib` makes it, is not on the PATH: \
             run it where it is, or set VAYEMUKU_LIB to a folder that has libvayemuku.a",
        ),
    }
}

/// Ends the build with one line.
fn stop(why: &str) -> ! {
    eprintln!("vayemuku: {why}");
    exit(1)
}
