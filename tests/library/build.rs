//! Links the archives of the compiled hub.

use std::env;
use std::path::{Path, PathBuf};

fn main() {
    let folder = match env::var_os("CHAFFDANCER_LIBRARY") {
        Some(folder) => PathBuf::from(folder),
        None => PathBuf::from(env::var_os("CARGO_MANIFEST_DIR").expect("cargo sets it"))
            .join("../../target/staticlib"),
    };
    println!("cargo:rerun-if-env-changed=CHAFFDANCER_LIBRARY");
    println!("cargo:rustc-link-search=native={}", folder.display());
    link(&folder, "hub", "HUB_ARCHIVE");
    if env::var_os("CARGO_FEATURE_JOURNAL").is_some() {
        link(&folder, "hub_journal", "HUB_JOURNAL_ARCHIVE");
    }
}

/// Links one archive of the folder, and tells the binding where it is.
fn link(folder: &Path, name: &str, variable: &str) {
    let archive = folder.join(format!("lib{name}.a"));
    println!("cargo:rerun-if-changed={}", archive.display());
    if !archive.is_file() {
        eprintln!("The archive {} is missing.", archive.display());
        eprintln!("Build it first with host/archives, or set");
        eprintln!("CHAFFDANCER_LIBRARY to the folder that holds it.");
        std::process::exit(1);
    }
    println!("cargo:rustc-link-lib=static={name}");
    println!("cargo:rustc-env={variable}={}", archive.display());
}
