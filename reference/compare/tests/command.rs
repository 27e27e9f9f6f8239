use std::process::{Command, Output};

fn compare(arguments: &[&str]) -> Command {
    let mut command = Command::new(env!("CARGO_BIN_EXE_compare"));
    command.args(arguments);
    command
}

/// Its output where nobody reads it.
fn unread(arguments: &[&str]) -> Output {
    let (reader, writer) = std::io::pipe().unwrap();
    drop(reader);
    compare(arguments).stdout(writer).output().unwrap()
}

#[test]
fn closed_output() {
    for arguments in [&[][..], &["--help"]] {
        let output = unread(arguments);
        assert_eq!(String::from_utf8(output.stderr).unwrap(), "");
        assert_eq!(output.status.code(), Some(141), "{arguments:?}");
    }
}

#[test]
fn what_is_missing() {
    let output = compare(&["--packets", "1", "--calls", "0"])
        .output()
        .unwrap();
    let said = String::from_utf8(output.stdout).unwrap();
    assert_eq!(output.status.code(), Some(1), "{said}");
    assert!(said.contains("\nMISSING: "), "{said}");
}

#[test]
fn usage() {
    let output = compare(&["--help"]).output().unwrap();
    assert_eq!(output.status.code(), Some(0));
    assert!(output.stdout.starts_with(b"Usage: compare"));
    for arguments in [&["--what"][..], &["--seed"], &["--calls", "many"]] {
        let status = compare(arguments).output().unwrap().status;
        assert_eq!(status.code(), Some(2), "{arguments:?}");
    }
}
