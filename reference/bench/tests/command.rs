use std::process::Command;

use independent::left_out;
use stewpigeon::{Packet, Sender};

fn bench(arguments: &[&str]) -> Command {
    let mut command = Command::new(env!("CARGO_BIN_EXE_bench"));
    command.args(arguments);
    command
}

#[test]
fn usage() {
    let above = (Sender::LEVEL + 1).to_string();
    for arguments in [
        &["quiet"][..],
        &["quiet", &above, "1"],
        &["quiet", "-1", "1"],
        &["quiet", "1", "once"],
        &["loud", "1", "1"],
        &["text"],
        &["text", "ascii"],
        &["text", "ascii", "once"],
        &["text", "loud", "1"],
        &["text", "mixed", "1"],
        &["read", "ascii", "1"],
        &["read", "ascii-40", "-1"],
        &["read", "ascii-40", "1", "1"],
        &["step", "mixed", "1"],
        &["step", "line", "once"],
        &["holding", "line"],
        &["holding", "mixed", "1"],
        &["holding", "line", "once"],
    ] {
        let output = bench(arguments).output().unwrap();
        assert_eq!(output.status.code(), Some(2), "{arguments:?}");
        assert_eq!(output.stdout, b"", "{arguments:?}");
        assert!(
            output.stderr.starts_with(b"usage: bench\n"),
            "{arguments:?}"
        );
    }
}

#[test]
fn calls_of_one_kind() {
    for level in [0, 1, Sender::LEVEL] {
        let level = level.to_string();
        let output = bench(&["quiet", &level, "1"]).output().unwrap();
        assert_eq!(output.status.code(), Some(0));
        assert_eq!(output.stdout, b"200\n");
    }
}

/// The count that is printed for a kind, by two turns.
fn count(calls: &str, kind: &str) -> String {
    let output = bench(&[calls, kind, "2"]).output().unwrap();
    assert_eq!(output.status.code(), Some(0), "{calls} {kind}");
    String::from_utf8(output.stdout).unwrap()
}

#[test]
fn texts_of_one_kind() {
    for kind in [
        "ascii",
        "one-in-64",
        "one-in-10",
        "one-in-2",
        "none",
        "two-byte",
        "four-byte",
        "alternating",
    ] {
        assert_eq!(count("text", kind), "100000\n", "{kind}");
    }
    for mix in ["ascii", "one-in-10"] {
        for (letters, all) in [(1, 200_000), (6, 199_998), (40, 200_000), (160, 200_000)] {
            let kind = format!("{mix}-{letters}");
            assert_eq!(count("text", &kind), format!("{all}\n"), "{kind}");
        }
    }
    assert_eq!(count("text", "bad-end"), "198585\n");
}

/// Packets with so many older blocks, of which there are so many; no such kind
/// where they are not read.
fn packets(calls: &str, kind: &str, older: usize, packets: usize) {
    if !left_out(&format!("{calls} {kind}"), older) {
        assert_eq!(count(calls, kind), format!("{packets}\n"), "{calls} {kind}");
        return;
    }
    let output = bench(&[calls, kind, "2"]).output().unwrap();
    assert_eq!(output.status.code(), Some(2), "{calls} {kind}");
}

#[test]
fn packets_of_one_kind() {
    packets("read", "mixed", 4, 20_000);
    for calls in ["read", "step", "holding"] {
        packets(calls, "line", 2, 20_000);
    }
    for mix in ["ascii", "one-in-10", "two-byte"] {
        for (letters, count) in [(1, 8000), (6, 8000), (40, 1666), (160, 416)] {
            packets("read", &format!("{mix}-{letters}"), 2, count);
        }
    }
    for (kind, older, count) in [
        ("five-ascii", 4, 266),
        ("five-euro", 4, 444),
        ("five-two-byte", 4, 533),
        ("bad-end", 0, 137),
    ] {
        packets("read", kind, older, count);
    }
    let blocks = Packet::LEVEL + 1;
    for (kind, letters) in [("most-ascii", 150), ("most-two-byte", 75)] {
        let count = 200_000 / (blocks * letters);
        packets("read", kind, Packet::LEVEL, count);
    }
}

#[test]
fn closed_output() {
    for arguments in [&[][..], &["reading"], &["holding"], &["texts"]] {
        let (reader, writer) = std::io::pipe().unwrap();
        drop(reader);
        let output = bench(arguments).stdout(writer).output().unwrap();
        assert_eq!(output.stderr, b"", "{arguments:?}");
        assert_eq!(output.status.code(), Some(141), "{arguments:?}");
    }
}
