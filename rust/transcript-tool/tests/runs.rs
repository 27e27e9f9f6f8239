//! The stored runs of the proved program: the same is printed, and the status
//! tells what the last line does.

use std::env;
use std::fs::{self, File};
use std::io::{self, Write};
use std::path::{Path, PathBuf};
use std::process::Command;

use independent::{journals, LEVEL};

#[test]
fn stored_runs() {
    let root = Path::new(env!("CARGO_MANIFEST_DIR")).join("../..");
    let proved = root.join("target/bin/transcript");
    let program = env::var_os("STEWPIGEON_TRANSCRIPT").map_or(proved, PathBuf::from);
    let runs = root.join("reference/transcripts/runs");
    let mut ended = [0; 2];
    for journals::Case { name, level, .. } in journals::all() {
        if level > LEVEL {
            // Said also where the test passes.
            writeln!(io::stderr(), "{name}: left out, it needs level {level}").unwrap();
            continue;
        }
        let journal = runs.join(name).with_extension("journal");
        let expected = fs::read(journal.with_extension("expected")).unwrap();
        let status = usize::from(expected.ends_with(b"\njournal broken\n"));
        let output = Command::new(env!("CARGO_BIN_EXE_stewpigeon-transcript"))
            .env("STEWPIGEON_TRANSCRIPT", &program)
            .stdin(File::open(&journal).unwrap())
            .output()
            .unwrap();
        assert!(output.stdout == expected, "{name}");
        assert_eq!(output.stderr, b"", "{name}");
        assert_eq!(output.status.code(), Some(status as i32), "{name}");
        ended[status] += 1;
    }
    assert!(ended.iter().all(|&count| count > 10), "{ended:?}");
}
