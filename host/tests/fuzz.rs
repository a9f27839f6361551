//! The fuzz target on its seeds.

mod common;

use std::fs;
use std::path::Path;
use std::process::Command;

#[test]
fn the_fuzz_target_finds_nothing_in_its_seeds() {
    let folder = Path::new(env!("CARGO_MANIFEST_DIR")).join("../fuzz");
    let seeds: Vec<_> = fs::read_dir(folder.join("seeds"))
        .expect("there are seeds")
        .map(|entry| entry.expect("the folder is read").path())
        .collect();
    assert!(!seeds.is_empty());
    let target = common::linked("fuzz", &[folder.join("calls.c"), folder.join("replay.c")]);
    let ran = Command::new(target).args(seeds).status().expect("the C program runs");
    assert!(ran.success());
}
