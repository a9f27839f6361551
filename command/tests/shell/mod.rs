//! What the command's tests share. Each test file uses a part of it.
#![allow(dead_code)]

use std::ffi::OsStr;
use std::fs;
use std::io::Write;
use std::os::unix::process::ExitStatusExt;
use std::path::{Path, PathBuf};
use std::process::{Command, Output, Stdio};

/// The command, ready to be given arguments.
pub fn rewrites() -> Command {
    Command::new(env!("CARGO_BIN_EXE_rewrites"))
}

/// A new folder that has these files.
pub fn folder(name: &str, files: &[(&str, &[u8])]) -> PathBuf {
    let folder = Path::new(env!("CARGO_TARGET_TMPDIR")).join(name);
    let _ = fs::remove_dir_all(&folder);
    fs::create_dir_all(&folder).expect("a folder is made");
    for (file, bytes) in files {
        fs::write(folder.join(file), bytes).expect("a file is written");
    }
    folder
}

/// A folder of the examples.
pub fn example(name: &str) -> PathBuf {
    Path::new(env!("CARGO_MANIFEST_DIR")).join("../examples").join(name)
}

/// Runs the command in a folder. It ends by itself, and never by a panic.
pub fn run_in<W: AsRef<OsStr>>(folder: &Path, words: &[W]) -> Output {
    let output = rewrites().args(words).current_dir(folder).output().expect("the command runs");
    ended(&output);
    output
}

/// Runs the command where the tests are.
pub fn run<W: AsRef<OsStr>>(words: &[W]) -> Output {
    run_in(Path::new(env!("CARGO_TARGET_TMPDIR")), words)
}

fn ended(output: &Output) {
    let said = said(output);
    assert!(matches!(output.status.code(), Some(0..=3)), "{:?}: {said}", output.status);
    assert!(!said.contains("panicked"), "{said}");
}

pub fn status(output: &Output) -> i32 {
    output.status.code().unwrap_or_else(|| -output.status.signal().expect("a status"))
}

pub fn printed(output: &Output) -> String {
    String::from_utf8_lossy(&output.stdout).into_owned()
}

pub fn said(output: &Output) -> String {
    String::from_utf8_lossy(&output.stderr).into_owned()
}

/// What a Python program of this folder prints for an input.
pub fn python(program: &str, input: &[u8]) -> Vec<u8> {
    let path = Path::new(env!("CARGO_MANIFEST_DIR")).join("tests").join(program);
    let mut child = Command::new("python3")
        .arg(path)
        .stdin(Stdio::piped())
        .stdout(Stdio::piped())
        .spawn()
        .expect("python3 runs");
    let (mut to, input) = (child.stdin.take().expect("a pipe"), input.to_vec());
    let writer = std::thread::spawn(move || to.write_all(&input));
    let output = child.wait_with_output().expect("python3 ends");
    writer.join().expect("the input is written").expect("the input is read");
    assert!(output.status.success(), "{program} refused what it read");
    output.stdout
}

/// What Python makes of lines of JSON: a text for each.
pub fn told_again(json: &[u8]) -> Vec<String> {
    let text = String::from_utf8(python("read.py", json)).expect("a text");
    text.split_terminator('\0').map(str::to_string).collect()
}

/// Compiles the faults of a disk, to be loaded before the command, under a name that no other test's has.
pub fn faults(name: &str) -> PathBuf {
    let source = Path::new(env!("CARGO_MANIFEST_DIR")).join("tests/fault.c");
    let library = Path::new(env!("CARGO_TARGET_TMPDIR")).join(format!("{name}_fault.so"));
    let status = Command::new("cc")
        .args(["-std=gnu99", "-Wall", "-Wextra", "-Werror", "-shared", "-fPIC", "-o"])
        .args([&library, &source])
        .status()
        .expect("cc runs");
    assert!(status.success());
    library
}
