//! The command's manners: usage, output that can't be written, files that can't be read, what a
//! terminal shows.

mod shell;

use shell::{example, folder, printed, rewrites, run, run_in, said, status};
use std::fs::{self, File, Permissions};
use std::io::Write;
use std::os::unix::fs::{symlink, MetadataExt, PermissionsExt};
use std::os::unix::process::CommandExt;
use std::path::{Path, PathBuf};
use std::process::{Command, Stdio};

const CALLS: [&[&str]; 10] = [
    &["check", "."],
    &["check", "--json", "."],
    &["check", "--text", "."],
    &["tabulate", "."],
    &["review", "."],
    &["run", "."],
    &["price", "."],
    &["lines", "."],
    &["list", "."],
    &["stage", "."],
];

#[test]
fn help_and_version() {
    for words in [
        &["--help"][..],
        &["-h"],
        &["help", "run"],
        &["review", "-h"],
        &["check", "--help"],
        &["price", "-h"],
        &["lines", "-h"],
        &["list", "-h"],
        &["join", "-h"],
        &["stage", "-h"],
        &["desk", "-h"],
    ] {
        let output = run(words);
        assert_eq!((status(&output), said(&output).as_str()), (0, ""), "{words:?}");
        assert!(printed(&output).contains("Usage: rewrites"), "{words:?}");
        assert!(printed(&output).contains("3  output that wasn't written"), "{words:?}");
    }
    let output = run(&["--version"]);
    assert_eq!((status(&output), printed(&output).as_str()), (0, "rewrites 0.1.0\n"));
}

#[test]
fn usage() {
    for words in [
        &[][..],
        &["chek", "."],
        &["check"],
        &["check", ""],
        &["check", ".", "--nothing"],
        &["check", ".", ".", "--text"],
        &["check", ".", ".", "-o", "new"],
        &["check", ".", "--text", "--json"],
        &["check", ".", "--text", "--explain"],
        &["tabulate"],
        &["tabulate", ".", "."],
        &["tabulate", ".", "--condition"],
        &["review"],
        &["review", ".", "."],
        &["review", ".", "--condition", "true"],
        &["run"],
        &["run", ".", "--input", "x"],
        &["run", ".", "--input", "-0"],
        &["run", ".", "--input", "-2147483649"],
        &["run", ".", "--input=--1"],
        &["run", ".", "--set", "i3=-0"],
        &["run", ".", "--set", "i3=--1"],
        &["run", ".", "--set", "i3=-2147483649"],
        &["run", ".", "--budget", "-1"],
        &["run", ".", "--set", "i64=1"],
        &["run", ".", "--set", "i3"],
        &["desk"],
        &["desk", ".", "."],
        &["price"],
        &["price", ".", "."],
        &["price", ".", "--prices", "prices"],
        &["lines"],
        &["lines", ".", "."],
        &["lines", ".", "--text"],
        &["list"],
        &["list", ".", "."],
        &["list", ".", "--text"],
        &["relist", "."],
        &["join"],
        &["join", "given"],
        &["join", "given", "given", "given"],
        &["join", "given", "given", "-o"],
        &["join", "given", "given", "--text"],
        &["stage"],
        &["stage", ".", "keep"],
        &["stage", ".", "return"],
        &["stage", ".", "drop", "first"],
        &["stage", ".", "return", "first", "second"],
        &["stage", ".", "keep", "first", "-o", "new"],
        &["stage", ".", "-o", "new"],
        &["stage", ".", "--text"],
    ] {
        let output = run_in(&example("p"), words);
        assert_eq!((status(&output), printed(&output).as_str()), (2, ""), "{words:?}");
        assert!(
            said(&output).contains("rewrites") || said(&output).contains("--help"),
            "{words:?}"
        );
    }
}

/// The words of a message for output that wasn't written.
fn unwritten(place: &str, reason: &str) -> String {
    format!("{place}: {reason}\n")
}

#[test]
fn a_full_disk() {
    let full = "No space left on device";
    let also_help =
        CALLS.into_iter().chain([&["join", "given", "given"][..], &["--help"], &["--version"]]);
    for words in also_help {
        let device = File::options().write(true).open("/dev/full").expect("there is /dev/full");
        let output = rewrites()
            .args(words)
            .current_dir(example("p"))
            .stdout(device)
            .output()
            .expect("the command runs");
        assert_eq!(said(&output), unwritten("standard output", full), "{words:?}");
        assert_eq!(status(&output), 3, "{words:?}");
    }
    let output = run_in(&example("p"), &["check", ".", "-o", "/dev/full"]);
    assert_eq!((status(&output), said(&output)), (3, unwritten("/dev/full", full)));
}

/// A pipe that nobody reads from any more: its reader has ended, and so has every process that was
/// being started meanwhile.
fn closed_pipe() -> Stdio {
    let mut reader = Command::new("true").stdin(Stdio::piped()).spawn().expect("true runs");
    let mut pipe = reader.stdin.take().expect("a pipe");
    reader.wait().expect("true ends");
    while pipe.write_all(b" ").is_ok() {
        std::thread::sleep(std::time::Duration::from_millis(1));
    }
    pipe.into()
}

#[test]
fn a_closed_pipe_ends_quietly() {
    let also_help =
        CALLS.into_iter().chain([&["join", "given", "given"][..], &["--help"], &["--version"]]);
    for words in also_help {
        let output = rewrites()
            .args(words)
            .current_dir(example("p"))
            .stdout(closed_pipe())
            .output()
            .expect("the command runs");
        assert_eq!((status(&output), said(&output).as_str()), (3, ""), "{words:?}");
    }
    // Nobody reads what is said: the status tells it.
    let status = rewrites().arg("check").stderr(closed_pipe()).status().expect("the command runs");
    assert_eq!(status.code(), Some(2));
}

const NAMES: [&str; 6] = ["given", "marks", "condition", "conditions", "start", "prices"];

/// P's files, but for one.
fn without(name: &str, left_out: &str) -> PathBuf {
    let base = folder(name, &[]);
    for file in NAMES.into_iter().filter(|&file| file != left_out) {
        fs::copy(example("p").join(file), base.join(file)).expect("a file is copied");
    }
    base
}

/// The calls that read a file, each in the shape that prints least.
fn readers(file: &str) -> Vec<&'static [&'static str]> {
    let reads = |words: &&&[&str]| match words[0] {
        "check" => file == "given" || file == "marks",
        "tabulate" => file == "given" || file == "condition",
        "review" => file == "given" || file == "conditions",
        "lines" => file == "marks",
        "list" => file == "given",
        "price" => ["given", "marks", "prices", "start"].contains(&file),
        "stage" => false,
        _ => file == "given" || file == "start",
    };
    CALLS.iter().filter(reads).copied().collect()
}

/// A file that opens and can't be read to its end leaves nothing but a line of the folder.
fn is_unread(base: &Path, file: &str, reason: &str) {
    for words in readers(file) {
        let output = run_in(base, words);
        let expected = format!(
            "./{file}: the caller: can't be read: {reason}; expected a file of at most 65,535 bytes\n"
        );
        assert_eq!(said(&output), expected, "{words:?}");
        assert_eq!(status(&output), 2, "{words:?}");
        match words {
            ["check", "."] => {
                assert!(printed(&output).contains(&format!(": {file} can't be read")))
            }
            ["check", "--json", ..] => assert!(printed(&output).contains("\"status\":2")),
            _ => assert_eq!(printed(&output), "", "{words:?}"),
        }
    }
}

#[test]
fn a_folder_in_a_files_place() {
    for file in NAMES {
        let base = without("in_place", file);
        fs::create_dir(base.join(file)).expect("a folder is made");
        is_unread(&base, file, "Is a directory");
    }
}

#[test]
fn files_of_a_megabyte() {
    for file in NAMES {
        let base = without("megabyte", file);
        fs::write(base.join(file), b"skip\n".repeat(210_000)).expect("a file is written");
        is_unread(&base, file, "over 65,535 bytes");
    }
}

/// 65,535 bytes are read, and refused for what they hold.
#[test]
fn files_at_the_limit() {
    for (file, bytes, refused) in [
        ("given", b"skip\n".repeat(13_107), 1),
        ("marks", b"2: mark(rm, i0, 1)\n".repeat(3_450)[..65_535].to_vec(), 1),
        ("condition", b"!".repeat(65_535), 1),
        ("conditions", b"true\n".repeat(13_107), 1),
        ("start", b"1\n".repeat(32_768)[..65_535].to_vec(), 1),
        ("prices", b"7777\n".repeat(13_107), 1),
    ] {
        let base = without("limit", file);
        assert_eq!(bytes.len(), 65_535);
        fs::write(base.join(file), &bytes).expect("a file is written");
        for words in readers(file) {
            assert_eq!(status(&run_in(&base, words)), refused, "{file} {words:?}");
        }
        fs::write(base.join(file), [&bytes[..], b"\n"].concat()).expect("a file is written");
        is_unread(&base, file, "over 65,535 bytes");
    }
}

/// A file that opens and whose first read fails.
#[test]
fn a_file_that_fails() {
    for file in NAMES {
        let base = without("failing", file);
        symlink("/proc/self/mem", base.join(file)).expect("a link is made");
        is_unread(&base, file, "Input/output error");
    }
}

const TEXT_FILE_BUSY: i32 = 26;

/// Whether the tests run as a user who may read every file.
fn is_root() -> bool {
    fs::metadata("/proc/self").expect("there is /proc").uid() == 0
}

/// The command as a user who may not read every file: the tests' own, or nobody in a root's place.
fn as_nobody(command: &Path, base: &Path, words: &[&str]) -> std::process::Output {
    let mut command = Command::new(command);
    command.args(words).current_dir(base);
    if is_root() {
        command.uid(65_534).gid(65_534);
    }
    // The copy is busy while a process that is being started has it open still.
    loop {
        match command.output() {
            Err(error) if error.raw_os_error() == Some(TEXT_FILE_BUSY) => {}
            output => break output.expect("the command runs"),
        }
    }
}

#[test]
fn files_that_may_not_be_read() {
    // Others may not enter the folders above the tests' own, so all is put where they may.
    let place = tempfile::tempdir().expect("a folder is made");
    fs::set_permissions(place.path(), Permissions::from_mode(0o755)).expect("it is opened");
    let command = place.path().join("rewrites");
    fs::copy(env!("CARGO_BIN_EXE_rewrites"), &command).expect("the command is copied");
    let base = place.path().join("p");
    fs::create_dir(&base).expect("a folder is made");
    for file in NAMES {
        fs::copy(example("p").join(file), base.join(file)).expect("a file is copied");
        fs::set_permissions(base.join(file), Permissions::from_mode(0o644)).expect("it is opened");
    }
    let output = as_nobody(&command, &base, &["check", "."]);
    assert_eq!((status(&output), said(&output).as_str()), (0, ""));
    for file in NAMES {
        fs::set_permissions(base.join(file), Permissions::from_mode(0o000)).expect("it is closed");
        let mut calls = readers(file);
        if file == "start" {
            // A start that is there is read, also where it isn't needed.
            calls.push(&["run", ".", "--input", "3"]);
        }
        for words in calls {
            let output = as_nobody(&command, &base, words);
            assert_eq!(status(&output), 2, "{file} {words:?}");
            // The check program reads a file that can't be opened as empty.
            let said = said(&output);
            let expected = match words[0] {
                "check" => format!("./{file}: the caller: is read as empty: Permission denied; "),
                _ => format!("./{file}: the caller: can't be read: Permission denied; "),
            };
            assert!(said.starts_with(&expected), "{said}");
            match (words, file) {
                (["check", "--text", ..], "given") => assert_eq!(printed(&output), "refused 3\n"),
                (["check", "--text", ..], _) => {
                    assert!(printed(&output).starts_with("marks 0 accepted 0\nread i0\n"));
                }
                _ => {}
            }
        }
        fs::set_permissions(base.join(file), Permissions::from_mode(0o644)).expect("it is opened");
    }
    // Nor may nobody write there.
    let output = as_nobody(&command, &base, &["check", ".", "-o", "new"]);
    assert_eq!((status(&output), said(&output)), (3, unwritten("new", "Permission denied")));
    // Nor look into a folder that is closed.
    fs::set_permissions(&base, Permissions::from_mode(0o000)).expect("it is closed");
    let output = as_nobody(&command, place.path(), &["check", "p"]);
    fs::set_permissions(&base, Permissions::from_mode(0o755)).expect("it is opened");
    assert_eq!(status(&output), 2);
    assert!(said(&output).starts_with("p/given: the caller: is read as empty: Permission denied; "));
}

/// FIFOs are read to their ends, however their bytes come.
#[test]
fn files_that_come_in_pieces() {
    let base = without("fifos", "given");
    let fifo = base.join("given");
    assert!(Command::new("mkfifo").arg(&fifo).status().expect("mkfifo runs").success());
    let bytes = fs::read(example("p/given")).expect("a file is read");
    let writer = std::thread::spawn(move || {
        let mut fifo = File::options().write(true).open(fifo).expect("a reader opens it");
        for piece in bytes.chunks(30) {
            fifo.write_all(piece).expect("a reader reads it");
            std::thread::sleep(std::time::Duration::from_millis(20));
        }
    });
    let output = run_in(&base, &["check", "--text", "."]);
    writer.join().expect("all is written");
    assert_eq!(output.stdout, fs::read(example("p/expected")).expect("a file is read"));
}

/// The command on a terminal: what it shows there, and its status.
fn on_terminal(base: &Path, words: &[&str], variables: &[(&str, &str)]) -> (String, i32) {
    in_terminal(base, &[&[env!("CARGO_BIN_EXE_rewrites")], words].concat(), variables)
}

fn in_terminal(base: &Path, words: &[&str], variables: &[(&str, &str)]) -> (String, i32) {
    let script = Path::new(env!("CARGO_MANIFEST_DIR")).join("tests/terminal.py");
    let output = Command::new("python3")
        .arg(script)
        .args(words)
        .env_remove("NO_COLOR")
        .env("TERM", "xterm")
        .envs(variables.iter().copied())
        .current_dir(base)
        .stdin(Stdio::null())
        .output()
        .expect("python3 runs");
    assert_eq!(said(&output), "");
    (printed(&output), status(&output))
}

#[test]
fn colour_on_a_terminal_alone() {
    let base = folder("colour", &[("given", b"read i0\n"), ("marks", b"")]);
    let words = ["check", "."];
    let red =
        "\x1b[31mrefused 3: the author of the shift program: under 2 or over 1,024 lines\x1b[0m";
    let (shown, status_there) = on_terminal(&base, &words, &[]);
    assert!(shown.contains(red), "{shown:?}");
    assert_eq!(status_there, 1);
    let (shown, _) = on_terminal(&base, &words, &[("NO_COLOR", "")]);
    assert!(shown.contains(red), "{shown:?}");
    for variable in [("NO_COLOR", "1"), ("TERM", "dumb")] {
        let (shown, _) = on_terminal(&base, &words, &[variable]);
        assert!(shown.contains(".: refused 3: "), "{shown:?}");
        assert!(!shown.contains('\x1b'), "{shown:?}");
    }
    let (shown, _) = on_terminal(&base, &["--help"], &[("NO_COLOR", "1")]);
    assert!(!shown.contains('\x1b'), "{shown:?}");
    let piped = run_in(&base, &words);
    assert!(!printed(&piped).contains('\x1b') && !said(&piped).contains('\x1b'));
}

#[test]
fn progress_on_a_terminal_alone() {
    let p = example("p");
    let many = ["check", ".", ".", ".", "."];
    let (shown, status_there) = on_terminal(&p, &many, &[]);
    assert!(shown.starts_with("\r0 of 4 folders\r"), "{shown:?}");
    assert_eq!(status_there, 0);
    // It leaves nothing behind: what stands on the lines in the end is what is printed elsewhere.
    let piped = run_in(&p, &many);
    let left: Vec<&str> =
        shown.split("\r\n").map(|line| line.rsplit('\r').next().unwrap_or_default()).collect();
    assert_eq!(left.join("\n"), printed(&piped));
    assert_eq!(said(&piped), "");
    for words in [&["check", "."][..], &["tabulate", "."], &["run", "."]] {
        let (shown, _) = on_terminal(&p, words, &[]);
        assert!(!shown.contains(" of 1 folders"), "{shown:?}");
    }
    // Results that go elsewhere leave the terminal's line to the progress.
    let elsewhere =
        ["sh", "-c", "exec \"$0\" check . . . >/dev/null", env!("CARGO_BIN_EXE_rewrites")];
    let (shown, status_there) = in_terminal(&p, &elsewhere, &[]);
    assert!(
        shown.starts_with("\r0 of 3 folders") && shown.ends_with("\r              \r"),
        "{shown:?}"
    );
    assert!(!shown.contains('\n'), "{shown:?}");
    assert_eq!(status_there, 0);
}
