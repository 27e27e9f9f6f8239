//! Opens the capture and writes the journal, whole or not at all.

use std::fs::{self, File, OpenOptions, Permissions};
use std::io::{self, BufRead, BufReader, IsTerminal, Read, Write};
use std::os::fd::AsFd;
use std::os::unix::fs::{FileTypeExt, OpenOptionsExt};
use std::path::{Path, PathBuf};
use std::process;

fn told(path: &Path) -> impl Fn(io::Error) -> String + '_ {
    move |error| format!("{}: {error}", path.display())
}

/// The capture, to be read as it comes.
pub fn open(capture: Option<&Path>) -> Result<Box<dyn BufRead>, String> {
    match capture {
        Some(path) => {
            let file = File::open(path).map_err(told(path))?;
            Ok(Box::new(BufReader::with_capacity(1 << 16, file)))
        }
        None if io::stdin().is_terminal() => {
            Err("name a capture, or give one on standard input; --help tells more".into())
        }
        None => Ok(Box::new(io::stdin().lock())),
    }
}

/// A text, which is short.
pub fn read_text(path: &Path) -> Result<String, String> {
    let file = File::open(path).map_err(told(path))?;
    let mut text = vec![];
    let read = file.take(1 << 20).read_to_end(&mut text);
    read.map_err(told(path))?;
    Ok(String::from_utf8_lossy(&text).into_owned())
}

/// Standard output, unless nobody would get what is written there.
fn out() -> Result<File, String> {
    let out = io::stdout();
    if out.is_terminal() {
        return Err("a journal is not for a terminal; give -o JOURNAL or redirect it".into());
    }
    let told = |error: io::Error| format!("standard output: {error}");
    let mut file = File::from(out.as_fd().try_clone_to_owned().map_err(told)?);
    // What was closed was opened again, before this program's first line, as
    // /dev/null for reading and writing; a shell opens it for writing alone.
    let is_device = file.metadata().map_err(told)?.file_type().is_char_device();
    match is_device && matches!(file.read(&mut [0]), Ok(0)) {
        true => Err("standard output is closed; give -o JOURNAL or redirect it".into()),
        false => Ok(file),
    }
}

/// Writes the journal to standard output.
pub fn write_out(journal: &[u8]) -> Result<(), String> {
    let written = out()?.write_all(journal);
    written.map_err(|error| format!("standard output: {error}"))
}

/// Writes the journal to a file beside the one named, and then puts it in
/// its place, with the mode of what was there.
pub fn write_file(journal: &[u8], path: &Path, capture: Option<&Path>) -> Result<(), String> {
    let target = target(path, capture)?;
    let mut name = target.file_name().unwrap_or_default().to_os_string();
    name.push(format!(".{}.part", process::id()));
    let part = target.with_file_name(name);
    let mode = fs::metadata(&target).ok().map(|old| old.permissions());
    let written = write_new(&part, journal, mode).and_then(|()| fs::rename(&part, &target));
    written.map_err(|error| {
        let _ = fs::remove_file(&part);
        told(path)(error)
    })
}

fn write_new(path: &Path, bytes: &[u8], mode: Option<Permissions>) -> io::Result<()> {
    let mut options = OpenOptions::new();
    options.write(true).create_new(true);
    if mode.is_some() {
        options.mode(0o600);
    }
    let mut file = options.open(path)?;
    file.write_all(bytes)?;
    if let Some(mode) = mode {
        file.set_permissions(mode)?;
    }
    file.sync_all()
}

/// The file itself, where the name is a link; never the capture, and nothing
/// that is no file.
fn target(path: &Path, capture: Option<&Path>) -> Result<PathBuf, String> {
    let Ok(target) = path.canonicalize() else {
        return Ok(path.into());
    };
    if !target.is_file() {
        let path = path.display();
        return Err(format!(
            "{path}: no file; leave -o out to write to standard output"
        ));
    }
    let capture = capture.and_then(|capture| capture.canonicalize().ok());
    match capture == Some(target.clone()) {
        true => Err(format!(
            "{}: this is the capture; name another file",
            path.display()
        )),
        false => Ok(target),
    }
}
