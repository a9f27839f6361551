//! Links the proved static library: the one in the folder that `REWRITES_LIB_DIR` names, else that of the repository, which is made
//! first where it is missing.

use std::path::{Path, PathBuf};
use std::process::{self, Command};
use std::{env, io};

/// Makes the library, which proves the crates that it stands on where they aren't.
fn make(package: &Path) -> io::Result<bool> {
    Ok(Command::new("bash").arg(package.join("../.ci/library")).status()?.success())
}

fn fail(message: String) -> ! {
    eprintln!("{message}");
    process::exit(1);
}

/// The caller's folder, which must have the archive: it is never made there.
fn told(folder: PathBuf) -> PathBuf {
    if !folder.is_absolute() {
        let found = folder.display();
        fail(format!("REWRITES_LIB_DIR: expected an absolute path, found `{found}`"));
    }
    if !folder.join("librewrites.a").is_file() {
        let found = folder.display();
        fail(format!("REWRITES_LIB_DIR: expected a folder with librewrites.a, found `{found}`"));
    }
    folder
}

/// The repository's folder.
fn own(package: &Path) -> PathBuf {
    let folder = package.join("../target/staticlib");
    let archive = folder.join("librewrites.a");
    if !archive.is_file() && !matches!(make(package), Ok(true)) {
        fail(format!(
            "{} is missing: `.ci/library` makes it, or REWRITES_LIB_DIR names the folder of another",
            archive.display()
        ));
    }
    folder
}

fn main() {
    let package = env::var("CARGO_MANIFEST_DIR").expect("cargo sets CARGO_MANIFEST_DIR");
    let folder = match env::var_os("REWRITES_LIB_DIR").filter(|folder| !folder.is_empty()) {
        Some(folder) => told(folder.into()),
        None => own(Path::new(&package)),
    };
    let archive = folder.join("librewrites.a");
    println!("cargo:rerun-if-changed=build.rs");
    println!("cargo:rerun-if-env-changed=REWRITES_LIB_DIR");
    println!("cargo:rerun-if-changed={}", archive.display());
    println!("cargo:rustc-link-search=native={}", folder.display());
    println!("cargo:rustc-link-lib=static=rewrites");
    // For the tests, which link C programs to it.
    println!("cargo:rustc-env=REWRITES_ARCHIVE={}", archive.display());
}
