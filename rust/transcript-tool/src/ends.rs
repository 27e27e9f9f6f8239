//! Where a journal comes from and where its transcript goes.

use std::fs::{self, File};
use std::io::{self, ErrorKind, IsTerminal, Read, Write};
use std::os::fd::AsFd;
use std::os::unix::fs::FileTypeExt;
use std::path::Path;
use std::process::{ChildStdin, Stdio};
use std::thread;
use std::time::Duration;

/// How long to wait where an end is not ready.
const PAUSE: Duration = Duration::from_millis(1);

const NON_BLOCKING: u32 = 0o4000;

/// A journal for the program to read.
pub enum Journal {
    Itself(File),
    /// One that answers with an error where no byte has come yet.
    NonBlocking(File),
}

impl Journal {
    pub fn open(path: Option<&Path>) -> Result<Journal, String> {
        let Some(path) = path else {
            return standard_input();
        };
        let told = |error: io::Error| format!("{}: {error}", path.display());
        let file = File::open(path).map_err(told)?;
        match file.metadata().map_err(told)?.is_dir() {
            true => Err(format!("{}: a folder, no journal", path.display())),
            false => Ok(Journal::Itself(file)),
        }
    }

    pub fn stdio(&self) -> io::Result<Stdio> {
        match self {
            Journal::Itself(file) => file.try_clone().map(Stdio::from),
            Journal::NonBlocking(_) => Ok(Stdio::piped()),
        }
    }

    /// Hands the bytes on where the program cannot read them itself.
    pub fn feed(self, program: Option<ChildStdin>) {
        if let (Journal::NonBlocking(file), Some(program)) = (self, program) {
            thread::spawn(move || pump(file, program));
        }
    }
}

fn standard_input() -> Result<Journal, String> {
    let input = io::stdin();
    if input.is_terminal() {
        return Err("name a journal, or give one on standard input; --help tells more".into());
    }
    let told = |error: io::Error| format!("standard input: {error}");
    let mut file = File::from(input.as_fd().try_clone_to_owned().map_err(told)?);
    let kind = file.metadata().map_err(told)?.file_type();
    if kind.is_dir() {
        return Err("standard input: a folder, no journal".into());
    }
    if kind.is_char_device() && file.write(&[]).is_ok() {
        return Err("standard input is closed; name a journal".into());
    }
    match !kind.is_file() && is_non_blocking() {
        true => Ok(Journal::NonBlocking(file)),
        false => Ok(Journal::Itself(file)),
    }
}

/// Whether standard input is, as far as the system tells.
fn is_non_blocking() -> bool {
    let told = fs::read_to_string("/proc/self/fdinfo/0").unwrap_or_default();
    let flags = told.lines().find_map(|line| line.strip_prefix("flags:"));
    let flags = flags.and_then(|flags| u32::from_str_radix(flags.trim(), 8).ok());
    flags.is_some_and(|flags| flags & NON_BLOCKING != 0)
}

fn pump(mut from: File, mut to: ChildStdin) {
    let mut space = vec![0; 1 << 16];
    loop {
        match from.read(&mut space) {
            Ok(0) => return,
            Ok(count) => {
                if to.write_all(&space[..count]).is_err() {
                    return;
                }
            }
            Err(error) if error.kind() == ErrorKind::Interrupted => {}
            Err(error) if error.kind() == ErrorKind::WouldBlock => thread::sleep(PAUSE),
            Err(_) => return,
        }
    }
}

/// Standard output, unless nobody would get what is written there.
pub fn output() -> io::Result<File> {
    let out = io::stdout();
    let mut file = File::from(out.as_fd().try_clone_to_owned()?);
    // What was closed was opened again, before this program's first line, as
    // /dev/null for reading and writing; a shell opens it for one of them.
    let is_device = file.metadata()?.file_type().is_char_device() && !out.is_terminal();
    match is_device && matches!(file.read(&mut [0]), Ok(0)) {
        true => Err(io::Error::other("it is closed")),
        false => Ok(file),
    }
}

/// Writes all of the bytes, also to an end that is not always ready.
pub fn write_all(to: &mut File, mut bytes: &[u8]) -> io::Result<()> {
    while !bytes.is_empty() {
        match to.write(bytes) {
            Ok(0) => return Err(ErrorKind::WriteZero.into()),
            Ok(count) => bytes = &bytes[count..],
            Err(error) if error.kind() == ErrorKind::Interrupted => {}
            Err(error) if error.kind() == ErrorKind::WouldBlock => thread::sleep(PAUSE),
            Err(error) => return Err(error),
        }
    }
    Ok(())
}
