//! The program under test, as a process.

use std::env;
use std::ffi::OsString;
use std::io::{self, ErrorKind, Read, Write};
use std::mem::take;
use std::path::{Path, PathBuf};
use std::process::{Child, ChildStdin, Command, ExitStatus, Stdio};
use std::sync::mpsc::{channel, Receiver, RecvTimeoutError};
use std::thread;
use std::time::{Duration, Instant};

/// Names another program than the proved one.
pub const PATH_VARIABLE: &str = "STEWPIGEON_TRANSCRIPT";

/// How long a run may take once its journal is there.
pub const PATIENCE: Duration = Duration::from_secs(5);

#[derive(Clone, Debug)]
pub struct Program {
    path: PathBuf,
    arguments: Vec<OsString>,
}

/// What a process has done when it has ended.
#[derive(Debug)]
pub struct Ended {
    pub printed: Vec<u8>,
    /// What it said on standard error.
    pub said: String,
    pub status: ExitStatus,
}

impl Program {
    pub fn new(path: impl Into<PathBuf>, arguments: &[&str]) -> Program {
        Program {
            path: path.into(),
            arguments: arguments.iter().map(OsString::from).collect(),
        }
    }

    /// The program that the environment names, or the proved one.
    pub fn find() -> Result<Program, String> {
        if let Some(path) = env::var_os(PATH_VARIABLE) {
            let path = PathBuf::from(path);
            return match path.is_file() {
                true => Ok(Program::new(path, &[])),
                false => Err(format!("{PATH_VARIABLE}: no file {}", path.display())),
            };
        }
        let root = Path::new(env!("CARGO_MANIFEST_DIR")).join("../..");
        let path = root.join("target/bin/transcript");
        match path.canonicalize() {
            Ok(path) => Ok(Program::new(path, &[])),
            Err(_) => Err(format!(
                "no program {}; run `tools/build program` in the repository's root first, \
                 or name another program by {PATH_VARIABLE}",
                path.display()
            )),
        }
    }

    pub fn path(&self) -> &Path {
        &self.path
    }

    pub fn command(&self) -> Command {
        let mut command = Command::new(&self.path);
        command.args(&self.arguments);
        command
    }

    /// Starts the program with a pipe for its input.
    pub fn start(&self) -> Result<Running, String> {
        self.start_on(Stdio::piped(), Stdio::piped())
    }

    pub fn start_on(&self, input: Stdio, output: Stdio) -> Result<Running, String> {
        let mut command = self.command();
        command.stdin(input).stdout(output).stderr(Stdio::piped());
        let mut child = command
            .spawn()
            .map_err(|error| format!("cannot start {}: {error}", self.path.display()))?;
        let output = child.stdout.take().map(forward);
        Ok(Running {
            input: child.stdin.take(),
            output,
            printed: vec![],
            child,
        })
    }
}

/// Reads all of a pipe in a thread of its own.
fn forward(mut pipe: impl Read + Send + 'static) -> Receiver<Vec<u8>> {
    let (sender, receiver) = channel();
    thread::spawn(move || {
        let mut space = vec![0; 1 << 16];
        loop {
            match pipe.read(&mut space) {
                Err(error) if error.kind() == ErrorKind::Interrupted => {}
                Ok(0) | Err(_) => return,
                Ok(length) => {
                    if sender.send(space[..length].to_vec()).is_err() {
                        return;
                    }
                }
            }
        }
    });
    receiver
}

/// A process that has not been seen to end.
pub struct Running {
    child: Child,
    input: Option<ChildStdin>,
    output: Option<Receiver<Vec<u8>>>,
    /// What it has printed so far.
    pub printed: Vec<u8>,
}

impl Running {
    /// Writes to its input. That it no longer reads is no failure here.
    pub fn feed(&mut self, bytes: &[u8]) -> Result<(), String> {
        let Some(input) = &mut self.input else {
            return Ok(());
        };
        match input.write_all(bytes).and_then(|()| input.flush()) {
            Err(error) if error.kind() != ErrorKind::BrokenPipe => {
                Err(format!("cannot write to the program: {error}"))
            }
            _ => Ok(()),
        }
    }

    pub fn close_input(&mut self) {
        self.input = None;
    }

    /// Waits until it has printed so many bytes; false if it does not.
    pub fn has_printed(&mut self, length: usize, patience: Duration) -> bool {
        let end = Instant::now() + patience;
        while self.printed.len() < length {
            let left = end.saturating_duration_since(Instant::now());
            match self.output.as_ref().map(|output| output.recv_timeout(left)) {
                Some(Ok(more)) => self.printed.extend(more),
                _ => return false,
            }
        }
        true
    }

    /// The process's number.
    pub fn id(&self) -> u32 {
        self.child.id()
    }

    /// Waits for its end. One that does not end by itself is a failure; its
    /// input stays as it is, open or closed.
    pub fn ended(mut self) -> Result<Ended, String> {
        let end = Instant::now() + PATIENCE;
        self.all_printed(end)?;
        let status = self.status(end)?;
        let mut said = vec![];
        if let Some(mut errors) = self.child.stderr.take() {
            errors.read_to_end(&mut said).map_err(unreadable)?;
        }
        Ok(Ended {
            printed: take(&mut self.printed),
            said: String::from_utf8_lossy(&said).into_owned(),
            status,
        })
    }

    fn all_printed(&mut self, end: Instant) -> Result<(), String> {
        while let Some(output) = &self.output {
            let left = end.saturating_duration_since(Instant::now());
            match output.recv_timeout(left) {
                Ok(more) => self.printed.extend(more),
                Err(RecvTimeoutError::Disconnected) => return Ok(()),
                Err(RecvTimeoutError::Timeout) => return Err(still_running()),
            }
        }
        Ok(())
    }

    fn status(&mut self, end: Instant) -> Result<ExitStatus, String> {
        loop {
            match self.child.try_wait().map_err(unreadable)? {
                Some(status) => return Ok(status),
                None if Instant::now() > end => return Err(still_running()),
                None => thread::sleep(Duration::from_micros(20)),
            }
        }
    }
}

/// None is left running.
impl Drop for Running {
    fn drop(&mut self) {
        let _ = self.child.kill();
        let _ = self.child.wait();
    }
}

fn unreadable(error: io::Error) -> String {
    format!("cannot read from the program: {error}")
}

fn still_running() -> String {
    format!("still running after {} s", PATIENCE.as_secs())
}
