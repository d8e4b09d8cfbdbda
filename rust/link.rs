//! Links a static archive that tools/library has made: what the build scripts of this workspace share.

use std::env;
use std::path::PathBuf;
use std::process::ExitCode;

/// Links `libNAME.a` of target/staticlib, or of the folder that SKIMP_STATICLIB names.
pub fn link(name: &str) -> ExitCode {
    println!("cargo:rerun-if-env-changed=SKIMP_STATICLIB");
    let manifest = PathBuf::from(env::var_os("CARGO_MANIFEST_DIR").expect("cargo sets it"));
    let folder = match env::var_os("SKIMP_STATICLIB") {
        Some(folder) => manifest.join(folder),
        None => manifest.join("../../target/staticlib"),
    };
    let archive = folder.join(format!("lib{name}.a"));
    if !archive.is_file() {
        eprintln!(
            "{} is missing: run `make test` (or tools/library) in the repository's root",
            archive.display()
        );
        return ExitCode::FAILURE;
    }
    println!("cargo:rerun-if-changed={}", archive.display());
    println!("cargo:rustc-link-search=native={}", folder.display());
    println!("cargo:rustc-link-lib=static={name}");
    ExitCode::SUCCESS
}
