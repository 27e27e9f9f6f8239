//! The comparison passes a program that is right, and finds each fault.

use std::fs;
use std::process::{Command, Output};

const RIGHT: &str = env!("CARGO_BIN_EXE_independent-transcript");
const WRONG: &str = env!("CARGO_BIN_EXE_wrong-transcript");

fn transcripts(program: &str, fault: &str, arguments: &[&str]) -> Output {
    Command::new(env!("CARGO_BIN_EXE_transcripts"))
        .env("STEWPIGEON_TRANSCRIPT", program)
        .env("WRONG", fault)
        .args(arguments)
        .output()
        .unwrap()
}

fn text(bytes: &[u8]) -> &str {
    std::str::from_utf8(bytes).unwrap()
}

#[test]
fn right_program() {
    for program in [RIGHT, WRONG] {
        let output = transcripts(program, "", &["--journals", "300", "--seed", "9"]);
        assert_eq!(text(&output.stderr), "");
        assert_eq!(output.status.code(), Some(0));
        assert!(text(&output.stdout).contains("300 random journals of seed 9"));
    }
}

#[test]
fn faults() {
    for (fault, found) in [
        ("count", "stored run break:\nexpected: "),
        ("newline", "stored run early-after-open:"),
        ("mark", "stored run jump-forward-forward:"),
        ("rare", "random journal "),
        ("holds", "text at once, expected: "),
        ("waits", "still running after 5 s"),
        ("crashes", "not ended by itself: signal"),
        ("talks", "on standard error: done"),
        (
            "silent",
            "nothing on standard error when the output's device is full",
        ),
    ] {
        let output = transcripts(WRONG, fault, &["--journals", "4000"]);
        let said = text(&output.stderr);
        assert_eq!(output.status.code(), Some(1), "{fault}: {said}");
        assert!(said.contains(found), "{fault}: {said}");
        let (_, path) = said.split_once("the journal is saved in ").unwrap();
        let journal = fs::read(path.trim_end()).unwrap();
        assert!(!journal.is_empty());
        fs::remove_file(path.trim_end()).unwrap();
    }
}

/// Where nobody reads on, the comparison ends at once.
#[test]
fn closed_output() {
    for arguments in [&[][..], &["--help"]] {
        let (reader, writer) = std::io::pipe().unwrap();
        drop(reader);
        let output = Command::new(env!("CARGO_BIN_EXE_transcripts"))
            .env("STEWPIGEON_TRANSCRIPT", RIGHT)
            .args(arguments)
            .stdout(writer)
            .output()
            .unwrap();
        assert_eq!(text(&output.stderr), "");
        assert_eq!(output.status.code(), Some(141), "{arguments:?}");
    }
}

#[test]
fn usage() {
    let output = transcripts("/no/such/program", "", &[]);
    assert_eq!(output.status.code(), Some(2));
    assert!(text(&output.stderr).contains("no file /no/such/program"));
    for arguments in [&["--what"][..], &["--seed"], &["--journals", "many"]] {
        let output = transcripts(RIGHT, "", arguments);
        assert_eq!(output.status.code(), Some(2), "{arguments:?}");
    }
    let output = transcripts(RIGHT, "", &["--help"]);
    assert_eq!(output.status.code(), Some(0));
    assert!(text(&output.stdout).starts_with("Usage: transcripts"));
}
