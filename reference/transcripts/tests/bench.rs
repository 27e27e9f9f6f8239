//! The benchmark, on a small journal.

use std::process::{Command, Output, Stdio};

fn bench(program: &str, fault: &str, arguments: &[&str]) -> Command {
    let mut command = Command::new(env!("CARGO_BIN_EXE_bench-transcript"));
    command.env("STEWPIGEON_TRANSCRIPT", program);
    command.env("WRONG", fault).args(arguments);
    command
}

fn small(program: &str, fault: &str) -> Output {
    let arguments = ["--packets", "5000", "--rounds", "3"];
    bench(program, fault, &arguments).output().unwrap()
}

const RIGHT: &str = env!("CARGO_BIN_EXE_independent-transcript");
const WRONG: &str = env!("CARGO_BIN_EXE_wrong-transcript");

#[test]
fn same_and_different() {
    let output = small(RIGHT, "");
    let said = String::from_utf8(output.stdout).unwrap();
    assert_eq!(output.status.code(), Some(0), "{said}");
    assert!(said.contains("both print the same"), "{said}");
    assert!(said.contains("KiB of memory at most"), "{said}");
    let output = small(WRONG, "mark");
    let said = String::from_utf8(output.stderr).unwrap();
    assert_eq!(output.status.code(), Some(1), "{said}");
    assert!(said.contains("do not print the same"), "{said}");
}

#[test]
fn closed_output_and_usage() {
    let (reader, writer) = std::io::pipe().unwrap();
    drop(reader);
    let arguments = ["--packets", "100", "--rounds", "1"];
    let ended = bench(RIGHT, "", &arguments)
        .stdout(writer)
        .stderr(Stdio::piped())
        .output()
        .unwrap();
    assert_eq!(String::from_utf8(ended.stderr).unwrap(), "");
    assert_eq!(ended.status.code(), Some(141));
    for arguments in [&["--what"][..], &["--rounds", "0"], &["--packets"]] {
        let status = bench(RIGHT, "", arguments).output().unwrap().status;
        assert_eq!(status.code(), Some(2), "{arguments:?}");
    }
}
