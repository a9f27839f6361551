//! What the tests share. Each test file uses a part of it.
#![allow(dead_code)]

use rewrites::{Outcome, Prices, Refusal, STATEMENTS, VARIABLES};
use std::path::{Path, PathBuf};
use std::process::{Command, Output};
use std::{env, fs};

/// The program to check against.
pub const P: &str = "\
read i0
i1 := i0
i2 := 7
i3 := i1 + i2
if i0 goto 6 else 8
i0 := i0 - 1
if i0 goto 4 else 8
write i3
";

/// The lines, each ended by byte 10.
pub fn text<L: AsRef<str>>(lines: &[L]) -> Vec<u8> {
    let mut text = Vec::new();
    for line in lines {
        text.extend_from_slice(line.as_ref().as_bytes());
        text.push(10);
    }
    text
}

/// n good lines: `read`, as many `skip` as fit, `write`.
pub fn lines(n: usize) -> Vec<String> {
    let mut lines = vec!["skip".to_string(); n];
    lines[0] = "read i0".to_string();
    lines[n - 1] = "write i0".to_string();
    lines
}

/// The values before a run: all different, none small.
pub fn given() -> [u32; VARIABLES] {
    std::array::from_fn(|x| 1000 + x as u32)
}

/// A run by our prices.
pub fn run(
    program: &[u8],
    values: &[u32; VARIABLES],
    input: u32,
    budget: u32,
) -> Result<Outcome, Refusal> {
    rewrites::run(program, values, input, budget, &Prices::ours())
}

/// Programs that are refused 2 to 5.
pub fn refused_programs() -> Vec<(Vec<u8>, u8)> {
    vec![
        (b"rubbish".to_vec(), 2),
        (P.as_bytes()[..P.len() - 1].to_vec(), 2),
        (b"\n".to_vec(), 2),
        (Vec::new(), 3),
        (text(&["read i0"]), 3),
        (text(&lines(STATEMENTS + 1)), 3),
        (text(&["read i0", "skip"]), 4),
        (text(&["read i0", "if i0 goto 1 else 2", "write i0"]), 5),
    ]
}

/// The number that an environment variable has, if it is set.
pub fn option(name: &str, otherwise: u64) -> u64 {
    match env::var(name) {
        Ok(number) => number.parse().unwrap_or_else(|_| panic!("{name} is no number")),
        Err(_) => otherwise,
    }
}

/// The start of a text, for a message.
pub fn shown(text: &[u8]) -> String {
    let end = text.len().min(200);
    text[..end].escape_ascii().to_string()
}

/// Compiles a C program of this folder, links it to the library, and tells where it is.
pub fn compiled(name: &str) -> PathBuf {
    let folder = Path::new(env!("CARGO_MANIFEST_DIR")).join("tests");
    linked(name, &[folder.join(name).with_extension("c")])
}

/// Compiles C files, links them to the library, and tells where the program is.
pub fn linked(name: &str, sources: &[PathBuf]) -> PathBuf {
    linked_by("cc", &["-std=c99"], name, sources)
}

/// Whether a compiler is installed.
pub fn installed(compiler: &str) -> bool {
    Command::new(compiler).arg("--version").output().map_or(false, |told| told.status.success())
}

/// The archive that the host crate is linked to. Other packages that share this file take the repository's.
fn archive() -> PathBuf {
    let own = || Path::new(env!("CARGO_MANIFEST_DIR")).join("../target/staticlib/librewrites.a");
    option_env!("REWRITES_ARCHIVE").map_or_else(own, PathBuf::from)
}

/// The same by a compiler with these words.
pub fn linked_by(compiler: &str, words: &[&str], name: &str, sources: &[PathBuf]) -> PathBuf {
    let package = Path::new(env!("CARGO_MANIFEST_DIR"));
    let program = Path::new(env!("CARGO_TARGET_TMPDIR")).join(name);
    let status = Command::new(compiler)
        .args(["-Wall", "-Wextra", "-Wpedantic", "-Werror", "-pthread", "-o"])
        .arg(&program)
        .arg("-I")
        .arg(package.join("../include"))
        .args(words)
        .args(sources)
        // The archive is no source, whatever language the sources are taken as.
        .args(["-x", "none"])
        .arg(archive())
        .status()
        .expect("the compiler runs");
    assert!(status.success());
    program
}

/// A program of the repository, built where it isn't.
pub fn built(name: &str) -> PathBuf {
    let script = Path::new(env!("CARGO_MANIFEST_DIR")).join("../.ci/program");
    let output = Command::new("bash").arg(script).arg(name).output().expect("bash runs");
    assert!(output.status.success());
    PathBuf::from(String::from_utf8(output.stdout).expect("a path").trim_end())
}

/// Runs a program in a folder of its own that has these files, with these arguments.
pub fn in_folder(program: &Path, name: &str, files: &[(&str, &[u8])], words: &[&str]) -> Output {
    let folder = Path::new(env!("CARGO_TARGET_TMPDIR")).join(name);
    let _ = fs::remove_dir_all(&folder);
    fs::create_dir_all(&folder).expect("a folder is made");
    for (file, bytes) in files {
        fs::write(folder.join(file), bytes).expect("a file is written");
    }
    Command::new(program).args(words).current_dir(&folder).output().expect("the program runs")
}
