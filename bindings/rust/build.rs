//! Links the static library of FONNALICH_DIR, or that of this crate's lib/TARGET, or of the repository's out/ or
//! out/aarch64/.

use std::env;
use std::path::{Path, PathBuf};

const NAME: &str = "libfonnalich.a";

/// The folder that FONNALICH_DIR names, if it is set. Cargo runs this in the crate's folder, and doesn't say where it
/// was called, so that folder's path has to be an absolute one.
fn folder_set() -> Option<PathBuf> {
    let folder = PathBuf::from(env::var_os("FONNALICH_DIR").filter(|it| !it.is_empty())?);
    if !folder.is_absolute() {
        panic!("fonnalich: FONNALICH_DIR: {} is no absolute path", folder.display());
    }
    if !folder.join(NAME).is_file() {
        panic!("fonnalich: FONNALICH_DIR: no {NAME} in {}", folder.display());
    }
    Some(folder)
}

/// The folder of the library for a target, if there is one.
fn folder_for(target: &str) -> Option<PathBuf> {
    if let Some(folder) = folder_set() {
        return Some(folder);
    }
    let home = env::var("CARGO_MANIFEST_DIR").unwrap();
    let home = Path::new(&home);
    let built = if target.starts_with("aarch64-") { "../../out/aarch64" } else { "../../out" };
    let folders = [home.join("lib").join(target), home.join(built)];
    folders.into_iter().find(|folder| folder.join(NAME).exists())
}

fn main() {
    let target = env::var("TARGET").unwrap();
    println!("cargo:rerun-if-env-changed=FONNALICH_DIR");
    let Some(folder) = folder_for(&target) else {
        panic!(
            "fonnalich: there is no {NAME} for {target}: set FONNALICH_DIR to the folder of one. \
             Packages have it for Linux on x86_64 and aarch64"
        );
    };
    println!("cargo:rustc-link-search=native={}", folder.display());
    println!("cargo:rustc-link-lib=static=fonnalich");
    println!("cargo:rerun-if-changed={}", folder.join(NAME).display());
}
