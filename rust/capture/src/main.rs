//! Turns a capture into a journal.
#![forbid(unsafe_code)]

use std::env;
use std::io::{self, Write};
use std::process::exit;

use capture::options::{parse, Asked, Options, USAGE};
use capture::sdp::with_sdp;
use capture::{convert, output};

/// Says something on standard error.
fn say(what: &str) {
    for line in what.lines() {
        let _ = writeln!(io::stderr(), "capture-to-journal: {line}");
    }
}

/// The options with what the SDP says, if one is named.
fn with_named_sdp(options: Options) -> Result<Options, String> {
    let Some(path) = &options.sdp else {
        return Ok(options);
    };
    let sdp = output::read_text(path)?;
    let told = |wrong| format!("{}: {wrong}", path.display());
    let (options, notes) = with_sdp(&options, &sdp).map_err(told)?;
    for note in &notes {
        say(note);
    }
    Ok(options)
}

fn run(options: Options) -> Result<(), String> {
    let options = with_named_sdp(options)?;
    let capture = output::open(options.capture.as_deref())?;
    let name = match &options.capture {
        Some(path) => path.display().to_string(),
        None => "standard input".into(),
    };
    let converted = convert(capture, &options).map_err(|wrong| format!("{name}: {wrong}"))?;
    match &options.output {
        Some(path) => output::write_file(&converted.journal, path, options.capture.as_deref())?,
        None => output::write_out(&converted.journal)?,
    }
    for note in &converted.notes {
        say(note);
    }
    Ok(())
}

fn main() {
    match parse(env::args_os().skip(1)) {
        Err(wrong) => {
            say(&wrong);
            exit(2);
        }
        Ok(Asked::Help) => {
            if let Err(error) = writeln!(io::stdout(), "{USAGE}") {
                say(&format!("standard output: {error}"));
                exit(1);
            }
        }
        Ok(Asked::Journal(options)) => {
            if let Err(wrong) = run(options) {
                say(&wrong);
                exit(1);
            }
        }
    }
}
