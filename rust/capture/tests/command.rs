//! The command: its files, its messages and its exit status.

use std::fs;
use std::io::Write;
use std::os::unix::fs::PermissionsExt;
use std::path::{Path, PathBuf};
use std::process::{Command, Output, Stdio};

use independent::transcript::transcript;

mod stored;

const CAPTURE: &str = concat!(
    env!("CARGO_MANIFEST_DIR"),
    "/../../reference/captures/ms2_red_typed1_lossy.pcap"
);

fn run(arguments: &[&str], input: &[u8]) -> Output {
    let mut child = Command::new(env!("CARGO_BIN_EXE_capture-to-journal"))
        .args(arguments)
        .stdin(Stdio::piped())
        .stdout(Stdio::piped())
        .stderr(Stdio::piped())
        .spawn()
        .unwrap();
    // A wrong argument ends the program before it reads.
    let _ = child.stdin.take().unwrap().write_all(input);
    child.wait_with_output().unwrap()
}

fn text(bytes: &[u8]) -> &str {
    std::str::from_utf8(bytes).unwrap()
}

/// A directory of this test's own, empty at first.
fn directory(name: &str) -> PathBuf {
    let path = Path::new(env!("CARGO_TARGET_TMPDIR")).join(name);
    let _ = fs::remove_dir_all(&path);
    fs::create_dir(&path).unwrap();
    path
}

fn files(directory: &Path) -> Vec<String> {
    let entries = fs::read_dir(directory).unwrap();
    let name = |entry: std::io::Result<fs::DirEntry>| entry.unwrap().file_name();
    let mut names: Vec<_> = entries
        .map(|entry| name(entry).into_string().unwrap())
        .collect();
    names.sort();
    names
}

#[test]
fn to_standard_output() {
    let settings = ["--t140", "98", "--red", "100", "--port", "40001"];
    let output = run(&[&settings[..], &[CAPTURE]].concat(), b"");
    assert_eq!(text(&output.stderr), "");
    assert_eq!(output.status.code(), Some(0));
    assert_eq!(text(&transcript(&output.stdout)), stored::lossy());
    let capture = fs::read(CAPTURE).unwrap();
    for arguments in [&settings[..], &["-"], &[]] {
        assert_eq!(run(arguments, &capture).stdout, output.stdout);
    }
}

#[test]
fn to_a_file() {
    let directory = directory("to_a_file");
    let journal = directory.join("call.journal");
    let name = journal.to_str().unwrap();
    for before in [None, Some("old")] {
        if let Some(before) = before {
            fs::write(&journal, before).unwrap();
        }
        let output = run(&["-o", name, CAPTURE], b"");
        assert_eq!(output.status.code(), Some(0), "{}", text(&output.stderr));
        assert_eq!(output.stdout, b"");
        let printed = transcript(&fs::read(&journal).unwrap());
        assert_eq!(text(&printed), stored::lossy());
        assert_eq!(files(&directory), ["call.journal"]);
    }
}

/// What may be read by few stays so.
#[test]
fn mode_of_a_file() {
    let directory = directory("mode_of_a_file");
    let journal = directory.join("call.journal");
    for mode in [0o640, 0o600, 0o444] {
        fs::write(&journal, "old").unwrap();
        fs::set_permissions(&journal, fs::Permissions::from_mode(mode)).unwrap();
        let output = run(&["-o", journal.to_str().unwrap(), CAPTURE], b"");
        assert_eq!(output.status.code(), Some(0), "{}", text(&output.stderr));
        let after = fs::metadata(&journal).unwrap().permissions().mode();
        assert_eq!(after & 0o7777, mode);
        let printed = transcript(&fs::read(&journal).unwrap());
        assert_eq!(text(&printed), stored::lossy());
        fs::remove_file(&journal).unwrap();
    }
}

/// A refused capture leaves no file and changes none.
#[test]
fn refused() {
    let directory = directory("refused");
    let journal = directory.join("call.journal");
    let name = journal.to_str().unwrap();
    let capture = fs::read(CAPTURE).unwrap();
    let cut = &capture[..capture.len() - 1];
    let cases: [(&[&str], &[u8], &str); 4] = [
        (
            &[],
            cut,
            "standard input: byte 611: a packet takes 50 bytes, but 49 are left",
        ),
        (&["--port", "5004"], &capture, "no packet to take"),
        (&[], b"80\n8x\n", "line 2, column 2"),
        (&["no such file"], b"", "no such file: "),
    ];
    for before in [None, Some("old")] {
        for (arguments, input, expected) in cases {
            if let Some(before) = before {
                fs::write(&journal, before).unwrap();
            }
            for arguments in [arguments.to_vec(), [arguments, &["-o", name]].concat()] {
                let output = run(&arguments, input);
                let said = text(&output.stderr);
                assert_eq!(output.status.code(), Some(1), "{said}");
                assert!(said.starts_with("capture-to-journal: "), "{said}");
                assert!(said.contains(expected), "{said}");
                assert_eq!(output.stdout, b"");
                let left = fs::read_to_string(&journal).ok();
                assert_eq!(left.as_deref(), before);
                assert_eq!(files(&directory).len(), usize::from(before.is_some()));
            }
        }
    }
}

#[test]
fn places_that_cannot_be_written() {
    let directory = directory("places");
    let capture = directory.join("call.pcap");
    fs::copy(CAPTURE, &capture).unwrap();
    let name = capture.to_str().unwrap();
    for (output, expected) in [
        (name, "this is the capture"),
        (directory.to_str().unwrap(), "no file"),
        ("/dev/null", "no file"),
        ("/no/such/directory/journal", "/no/such/directory/journal: "),
    ] {
        let ended = run(&["-o", output, name], b"");
        let said = text(&ended.stderr);
        assert_eq!(ended.status.code(), Some(1), "{said}");
        assert!(said.contains(expected), "{said}");
    }
    assert_eq!(files(&directory), ["call.pcap"]);
    assert_eq!(fs::read(&capture).unwrap(), fs::read(CAPTURE).unwrap());
}

#[test]
fn full_device() {
    let full = fs::OpenOptions::new()
        .write(true)
        .open("/dev/full")
        .unwrap();
    let output = Command::new(env!("CARGO_BIN_EXE_capture-to-journal"))
        .arg(CAPTURE)
        .stdout(full)
        .output()
        .unwrap();
    assert_eq!(output.status.code(), Some(1));
    assert!(text(&output.stderr).contains("standard output: "));
}

#[test]
fn closed_output() {
    let shell = |redirection: &str| {
        let line = format!("exec \"$0\" \"$1\" {redirection}");
        Command::new("sh")
            .args([
                "-c",
                &line,
                env!("CARGO_BIN_EXE_capture-to-journal"),
                CAPTURE,
            ])
            .output()
            .unwrap()
    };
    let output = shell(">&-");
    assert_eq!(output.status.code(), Some(1));
    assert!(text(&output.stderr).contains("standard output is closed"));
    assert_eq!(shell("> /dev/null").status.code(), Some(0));
}

#[test]
fn usage() {
    let cases: [(&[&str], &str); 11] = [
        (
            &["--t140", "95"],
            "--t140 95: give a whole number from 96 to 127",
        ),
        (
            &["--red", "x"],
            "--red x: give a whole number from 96 to 127",
        ),
        (&["--red"], "--red wants a payload type after it"),
        (
            &["--red", "98"],
            "both have payload type 98; give two different ones",
        ),
        (
            &["--port", "0"],
            "--port 0: give a whole number from 1 to 65535",
        ),
        (&["--port", "65536"], "--port 65536"),
        (&["--port"], "--port wants a port after it"),
        (
            &["--ssrc", "5b8e4731"],
            "--ssrc 5b8e4731: give a 32-bit number, hex ones after 0x",
        ),
        (&["--what"], "unknown option --what; --help lists them"),
        (&["a", "b"], "a second capture, b"),
        (&["-o", "a", "-o", "b"], "-o stands twice"),
    ];
    for (arguments, expected) in cases {
        let output = run(arguments, b"");
        assert_eq!(output.status.code(), Some(2), "{arguments:?}");
        assert!(text(&output.stderr).contains(expected), "{arguments:?}");
        assert_eq!(output.stdout, b"");
    }
    let output = run(&["--help"], b"");
    assert_eq!(output.status.code(), Some(0));
    assert!(text(&output.stdout).starts_with("Usage: capture-to-journal"));
}
