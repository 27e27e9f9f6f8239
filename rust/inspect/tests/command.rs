use std::io::Write;
use std::process::{Command, Output, Stdio};

use stewpigeon::Packet;

fn inspect(arguments: &[&str], input: &str) -> Output {
    let mut child = Command::new(env!("CARGO_BIN_EXE_stewpigeon-inspect"))
        .args(arguments)
        .stdin(Stdio::piped())
        .stdout(Stdio::piped())
        .stderr(Stdio::piped())
        .spawn()
        .unwrap();
    // A wrong argument ends the program before it reads.
    let _ = child.stdin.take().unwrap().write_all(input.as_bytes());
    child.wait_with_output().unwrap()
}

fn text(bytes: &[u8]) -> &str {
    std::str::from_utf8(bytes).unwrap()
}

#[test]
fn packets_and_refusals() {
    let above = "e204b000".repeat(Packet::LEVEL + 1);
    let input = format!(
        "# comment\n\n\
         80e40005000003e811223344e204b001624108\n\
         80 62\n\
         80e4fffd0b7be89c5b8e4731e20000006248656c6c6f\n\
         80e4fffd0b7be89c5b8e4731{above}6248656c6c6f\n"
    );
    let output = inspect(&[], &input);
    assert_eq!(output.status.code(), Some(0));
    let expected = "\
line 3: marker 1 sequence 5 timestamp 1000 source 11223344
    older block, sequence 4 timestamp offset 300: \"A\"
    primary: \"\\u{8}\"
line 4: refused 10: packet under 12 bytes
line 5: refused 22: older blocks' time offsets do not fall to 1 or more
line 6: refused 18: an older block too many
";
    assert_eq!(text(&output.stdout), expected);
}

#[test]
fn bad_hex_and_bad_usage() {
    let cases: [(&[&str], &str, &str); 7] = [
        (&[], "80\n8x\n", "line 2: 'x' at column 2"),
        (&[], "806\n", "line 1: 3 hex digits"),
        (&["--t140", "95"], "", "from 96 to 127"),
        (&["--red"], "", "--red wants a payload type"),
        (&["--red", "98"], "", "two different payload types"),
        (&["--what"], "", "unknown option --what"),
        (&["no such file"], "", "cannot open no such file"),
    ];
    for (arguments, input, wrong) in cases {
        let output = inspect(arguments, input);
        assert_eq!(output.status.code(), Some(2), "{arguments:?}");
        assert!(text(&output.stderr).contains(wrong), "{arguments:?}");
    }
}

#[test]
fn closed_output() {
    for arguments in [
        &["../../reference/captures/ms2_red_typed1.hex"][..],
        &["--help"],
    ] {
        let (reader, writer) = std::io::pipe().unwrap();
        drop(reader);
        let output = Command::new(env!("CARGO_BIN_EXE_stewpigeon-inspect"))
            .args(arguments)
            .stdout(writer)
            .output()
            .unwrap();
        assert_eq!(text(&output.stderr), "");
        assert_eq!(output.status.code(), Some(0), "{arguments:?}");
    }
}

#[test]
fn help() {
    let output = inspect(&["--help"], "");
    assert_eq!(output.status.code(), Some(0));
    assert!(text(&output.stdout).starts_with("Usage: stewpigeon-inspect"));
}
