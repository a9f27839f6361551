//! `rewrites check -o FILE`: a file is replaced whole or kept, whatever goes wrong.

mod shell;

use shell::{example, faults, folder, printed, rewrites, run_in, said, status};
use std::fs::{self, File, Permissions};
use std::io::Read;
use std::os::unix::fs::{symlink, FileTypeExt, PermissionsExt};
use std::path::{Path, PathBuf};
use std::process::{Command, Output};

/// A new folder with P's program and marks, and `old` in the file `new`.
fn ready(name: &str) -> PathBuf {
    let read = |file| fs::read(example("p").join(file)).expect("a file is read");
    let files: [(&str, &[u8]); 3] =
        [("given", &read("given")), ("marks", &read("marks")), ("new", b"old")];
    folder(name, &files)
}

/// P with its accepted mark made.
fn rewritten() -> String {
    let report = fs::read_to_string(example("p/expected")).expect("a file is read");
    let end = report.find("1 4 4\n").expect("prices");
    report[report.find("read").expect("a program")..end].to_string()
}

fn read(path: &Path) -> String {
    fs::read_to_string(path).expect("a file is read")
}

fn mode(path: &Path) -> u32 {
    fs::metadata(path).expect("a file").permissions().mode() & 0o7777
}

/// Nothing is left beside the files.
fn holds(base: &Path, names: &[&str]) {
    let mut there: Vec<String> = fs::read_dir(base)
        .expect("a folder is read")
        .map(|entry| entry.expect("an entry").file_name().to_string_lossy().into_owned())
        .collect();
    there.sort();
    assert_eq!(there, names);
}

#[test]
fn the_program_alone() {
    for shape in [&[][..], &["--text"], &["--json"], &["--explain"]] {
        let base = ready("alone");
        let words = [&["check", ".", "-o", "new"], shape].concat();
        let output = run_in(&base, &words);
        assert_eq!((status(&output), said(&output).as_str()), (0, ""));
        assert_eq!(read(&base.join("new")), rewritten());
        let without = run_in(&base, &[&["check", "."], shape].concat());
        assert_eq!(printed(&output), printed(&without));
        holds(&base, &["given", "marks", "new"]);
    }
    // The program itself may be the file.
    let base = ready("alone");
    assert_eq!(status(&run_in(&base, &["check", ".", "--output", "given"])), 0);
    assert_eq!(read(&base.join("given")), rewritten());
}

#[test]
fn permissions_and_links_stay() {
    let base = ready("kept");
    fs::set_permissions(base.join("new"), Permissions::from_mode(0o640)).expect("they are set");
    symlink("new", base.join("link")).expect("a link is made");
    assert_eq!(status(&run_in(&base, &["check", ".", "-o", "link"])), 0);
    assert_eq!((read(&base.join("new")), mode(&base.join("new"))), (rewritten(), 0o640));
    assert!(fs::symlink_metadata(base.join("link")).expect("a link").file_type().is_symlink());
    // A new file gets what any new file gets.
    assert_eq!(status(&run_in(&base, &["check", ".", "-o", "newer"])), 0);
    File::create(base.join("usual")).expect("a file is made");
    assert_eq!(mode(&base.join("newer")), mode(&base.join("usual")));
    holds(&base, &["given", "link", "marks", "new", "newer", "usual"]);
}

/// What isn't a file is written to, and not replaced.
#[test]
fn a_pipe_stays() {
    let base = ready("pipe");
    let fifo = base.join("fifo");
    assert!(Command::new("mkfifo").arg(&fifo).status().expect("mkfifo runs").success());
    let reader = std::thread::spawn({
        let fifo = fifo.clone();
        move || {
            let mut text = String::new();
            File::open(fifo)
                .and_then(|mut file| file.read_to_string(&mut text))
                .expect("it is read");
            text
        }
    });
    assert_eq!(status(&run_in(&base, &["check", ".", "-o", "fifo"])), 0);
    assert_eq!(reader.join().expect("it is read"), rewritten());
    assert!(fs::metadata(&fifo).expect("a pipe").file_type().is_fifo());
}

#[test]
fn kept_where_nothing_is_made() {
    let reason = "new: not written, for the reason above\n";
    for (file, bytes, expected) in [
        ("given", Some("read i0\n"), 1),
        ("marks", Some("rubbish\n"), 1),
        ("given", None, 2),
        ("marks", None, 2),
    ] {
        let base = ready("refused");
        match bytes {
            Some(bytes) => fs::write(base.join(file), bytes).expect("a file is written"),
            None => fs::remove_file(base.join(file)).expect("a file is removed"),
        }
        let output = run_in(&base, &["check", ".", "-o", "new"]);
        assert_eq!((status(&output), read(&base.join("new")).as_str()), (expected, "old"));
        assert!(said(&output).ends_with(reason), "{}", said(&output));
    }
}

#[test]
fn places_that_can_not_be_written() {
    let base = ready("places");
    for (place, reason) in [
        ("nowhere/new", "No such file or directory"),
        (".", "Is a directory"),
        ("given/new", "Not a directory"),
    ] {
        let output = run_in(&base, &["check", ".", "-o", place]);
        assert_eq!((status(&output), said(&output)), (3, format!("{place}: {reason}\n")));
        assert!(printed(&output).starts_with(".: marks 5, accepted 1"), "{place}");
    }
    holds(&base, &["given", "marks", "new"]);
}

/// The command under a limit on the size of files, which ends it by a signal, or fails the write
/// where the signal is ignored.
fn limited(base: &Path, ignored: &str) -> Output {
    Command::new("bash")
        .args(["-c", "trap \"$2\" XFSZ; ulimit -f 0; exec \"$1\" check . -o new", "bash"])
        .arg(env!("CARGO_BIN_EXE_rewrites"))
        .arg(ignored)
        .current_dir(base)
        .output()
        .expect("bash runs")
}

#[test]
fn a_crash_leaves_the_old_file() {
    const SIGXFSZ: i32 = 25;
    let base = ready("crash");
    assert_eq!(status(&limited(&base, "-")), -SIGXFSZ);
    assert_eq!(read(&base.join("new")), "old");
    let base = ready("crash");
    let output = limited(&base, "");
    assert_eq!((status(&output), said(&output).as_str()), (3, "new: File too large\n"));
    assert_eq!(read(&base.join("new")), "old");
    holds(&base, &["given", "marks", "new"]);
}

/// A disk that is full, that loses what was written, and that has no room for the new name.
#[test]
fn faults_of_the_disk() {
    let library = faults("replace");
    let faulty = |base: &Path, fault: &str, place: &str| {
        rewrites()
            .args(["check", ".", "-o", "new"])
            .current_dir(base)
            .env("LD_PRELOAD", &library)
            .envs([("FAULT", fault), ("PLACE", place)])
            .output()
            .expect("the command runs")
    };
    for (fault, place, reason) in [
        ("write", "/.rewrites-", "No space left on device"),
        ("fsync", "/.rewrites-", "Input/output error"),
        ("rename", "new", "Disk quota exceeded"),
    ] {
        let base = ready("faults");
        let output = faulty(&base, fault, place);
        assert_eq!((status(&output), said(&output)), (3, format!("new: {reason}\n")), "{fault}");
        assert_eq!(read(&base.join("new")), "old", "{fault}");
        holds(&base, &["given", "marks", "new"]);
    }
    // A list that can't be read to its end isn't judged.
    let base = ready("faults");
    let output = faulty(&base, "read", "/marks");
    assert!(said(&output).starts_with("./marks: the caller: can't be read: Input/output error; "));
    assert_eq!((status(&output), read(&base.join("new")).as_str()), (2, "old"));
    let output = faulty(&base, "none", "/");
    assert_eq!((status(&output), read(&base.join("new"))), (0, rewritten()));
}
