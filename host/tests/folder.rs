//! `REWRITES_LIB_DIR` names the folder of the archive that is linked.

use std::path::Path;
use std::process::{Command, Output};
use std::{env, fs};

/// Builds this package with the variable set, in a target folder of its own.
fn built(folder: &Path) -> Output {
    Command::new(env!("CARGO"))
        .args(["build", "--offline", "--locked", "--target-dir"])
        .arg(Path::new(env!("CARGO_TARGET_TMPDIR")).join("folder_build"))
        .current_dir(env!("CARGO_MANIFEST_DIR"))
        .env("REWRITES_LIB_DIR", folder)
        .output()
        .expect("cargo runs")
}

/// The build fails, and says this.
fn fails(folder: &Path, words: &str) {
    let output = built(folder);
    let told = String::from_utf8_lossy(&output.stderr);
    assert!(!output.status.success() && told.contains(words), "{told}");
}

#[test]
fn the_archive_of_a_told_folder_is_linked() {
    let folder = Path::new(env!("CARGO_TARGET_TMPDIR")).join("folder");
    let _ = fs::remove_dir_all(&folder);
    fs::create_dir_all(&folder).expect("a folder is made");
    fails(&folder, "REWRITES_LIB_DIR: expected a folder with librewrites.a, found `/");
    fails(Path::new("folder"), "REWRITES_LIB_DIR: expected an absolute path, found `folder`");

    fs::copy(env!("REWRITES_ARCHIVE"), folder.join("librewrites.a"))
        .expect("the archive is copied");
    let output = built(&folder);
    assert!(output.status.success(), "{}", String::from_utf8_lossy(&output.stderr));
}
