//! The arguments.

use std::ffi::OsString;
use std::path::{Path, PathBuf};

pub const USAGE: &str = "\
Usage: stewpigeon-transcript [--no-keepalives] [JOURNAL]

Prints the transcript of a recorder's journal, which is read from standard
input where none is named, or -. The text comes as soon as its packet has, also
where the journal is a pipe that stays open. Behind the text stand a newline and
one last line:

    packets N late N lost N refused N    the journal is whole
    journal broken                       it is not; the text is that so far

Each U+FFFD (EF BF BD, shown as \u{fffd}) in the text is a mark: one block of text
that was lost, and that no later packet repeated, is missing there. Counted are:
  packets   packets that gave their text
  late      packets that came again, late or far out of order, and added nothing
  lost      the marks
  refused   packets that were none of this line, or faulty

  --no-keepalives  leave U+FEFF out of what is printed, which some senders send
                   while nobody types; the counts stay as they are
  --help           print this text

The exit status is 0 where the journal is whole; 1 where it is broken; 2 where
the arguments are wrong or the journal cannot be read; 3 where the transcript
could not be written to its end.

The text is made by the proved program, transcript, which is looked for beside
this one; STEWPIGEON_TRANSCRIPT names another.";

/// What is asked for.
#[derive(Debug, Default, PartialEq, Eq)]
pub struct Options {
    pub keepalives_left_out: bool,
    pub journal: Option<PathBuf>,
}

#[derive(Debug, PartialEq, Eq)]
pub enum Asked {
    Help,
    Transcript(Options),
}

/// Reads the arguments.
pub fn parse(arguments: impl Iterator<Item = OsString>) -> Result<Asked, String> {
    let mut options = Options::default();
    let mut only_names = false;
    for argument in arguments {
        let name = argument.to_string_lossy();
        match name.as_ref() {
            "--" if !only_names => only_names = true,
            "--no-keepalives" if !only_names => options.keepalives_left_out = true,
            "--help" | "-h" if !only_names => return Ok(Asked::Help),
            option if option.starts_with('-') && option != "-" && !only_names => {
                return Err(format!("unknown option {option}; --help lists them"));
            }
            _ if options.journal.is_some() => {
                return Err(format!("a second journal, {name}; give one at a time"));
            }
            _ => options.journal = Some(argument.into()),
        }
    }
    // As for many commands, - is standard input.
    options.journal = options.journal.filter(|path| path != Path::new("-"));
    Ok(Asked::Transcript(options))
}
