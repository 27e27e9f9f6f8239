//! The transcript of a journal as it comes, in a fixed amount of memory.
//! What is read is written before more is waited for.

use std::io::{self, Read, Write};

use crate::journal::{END, LIMIT, LONGEST, OPEN, PACKET, PIECE, PIECE_BODY, TIME, TIME_BODY};
use crate::receiver::{Receiver, MARK};
use crate::transcript::{Counts, BROKEN};

const SPACE: usize = 1 << 16;

/// Prints the transcript of a journal. Stops reading at the end record or
/// where the journal is broken.
pub fn run(input: impl Read, output: impl Write) -> io::Result<()> {
    run_within(LIMIT, input, output)
}

/// Prints the transcript with another limit than 2^40.
pub fn run_within(limit: u64, input: impl Read, output: impl Write) -> io::Result<()> {
    let mut stream = Stream {
        input: input.take(limit),
        unread: vec![0; SPACE].into(),
        start: 0,
        end: 0,
        output,
        unwritten: Vec::with_capacity(SPACE),
    };
    match records(&mut stream) {
        Ok(counts) => stream.write(counts.to_string().as_bytes())?,
        Err(Stop::Broken) => stream.write(BROKEN.as_bytes())?,
        Err(Stop::Failed(error)) => return Err(error),
    }
    stream.flush()
}

/// Why the records were not read to their end.
enum Stop {
    Broken,
    Failed(io::Error),
}

impl From<io::Error> for Stop {
    fn from(error: io::Error) -> Self {
        Stop::Failed(error)
    }
}

fn records(stream: &mut Stream<impl Read, impl Write>) -> Result<Counts, Stop> {
    let mut receiver = None;
    let mut counts = Counts::default();
    let mut packet = [0; LONGEST];
    loop {
        let [kind] = *stream.take()?;
        match (kind, &mut receiver) {
            (PACKET, Some(receiver)) => {
                let length = gather(stream, &mut packet)?;
                step(stream, receiver, &mut counts, &packet[..length])?;
            }
            (TIME, _) => {
                stream.take::<TIME_BODY>()?;
            }
            (OPEN, None) => {
                let [t140, red] = *stream.take()?;
                receiver = Some(Receiver::open(t140, red).map_err(|_| Stop::Broken)?);
            }
            (END, Some(_)) => return Ok(counts),
            _ => return Err(Stop::Broken),
        }
    }
}

/// Reads a packet's length and pieces; gives the length.
fn gather(
    stream: &mut Stream<impl Read, impl Write>,
    packet: &mut [u8; LONGEST],
) -> Result<usize, Stop> {
    let length = usize::from(u16::from_be_bytes(*stream.take()?));
    if length > LONGEST {
        return Err(Stop::Broken);
    }
    let pieces = length.div_ceil(PIECE_BODY);
    let (pieces, _) = packet[..pieces * PIECE_BODY].as_chunks_mut::<PIECE_BODY>();
    for piece in pieces {
        let [kind] = *stream.take()?;
        if kind != PIECE {
            return Err(Stop::Broken);
        }
        *piece = *stream.take()?;
    }
    let filled = length.next_multiple_of(PIECE_BODY);
    match packet[length..filled].iter().all(|&byte| byte == 0) {
        true => Ok(length),
        false => Err(Stop::Broken),
    }
}

fn step(
    stream: &mut Stream<impl Read, impl Write>,
    receiver: &mut Receiver,
    counts: &mut Counts,
    packet: &[u8],
) -> io::Result<()> {
    let answer = receiver.step(packet);
    counts.add(&answer);
    if let Some(added) = answer.added() {
        for _ in 0..added.loss {
            stream.write(&MARK)?;
        }
        stream.write(added.text())?;
    }
    Ok(())
}

/// The journal's bytes and the printed ones, each with room for many.
struct Stream<R, W> {
    input: io::Take<R>,
    /// What was read but not yet taken lies from `start` to `end`.
    unread: Box<[u8]>,
    start: usize,
    end: usize,
    output: W,
    unwritten: Vec<u8>,
}

impl<R: Read, W: Write> Stream<R, W> {
    /// Takes the next bytes; fewer are a broken journal.
    #[inline]
    fn take<const N: usize>(&mut self) -> Result<&[u8; N], Stop> {
        if self.end - self.start < N {
            self.fill(N)?;
        }
        let taken = self.unread[self.start..self.end].first_chunk();
        self.start += N;
        taken.ok_or(Stop::Broken)
    }

    /// Reads until `count` bytes are there.
    #[cold]
    fn fill(&mut self, count: usize) -> Result<(), Stop> {
        self.unread.copy_within(self.start..self.end, 0);
        self.end -= self.start;
        self.start = 0;
        while self.end < count {
            self.flush()?;
            match self.input.read(&mut self.unread[self.end..]) {
                Ok(0) => return Err(Stop::Broken),
                Ok(read) => self.end += read,
                Err(error) if error.kind() == io::ErrorKind::Interrupted => {}
                Err(error) => return Err(error.into()),
            }
        }
        Ok(())
    }

    #[inline]
    fn write(&mut self, bytes: &[u8]) -> io::Result<()> {
        if self.unwritten.len() + bytes.len() > SPACE {
            self.flush()?;
        }
        self.unwritten.extend_from_slice(bytes);
        Ok(())
    }

    fn flush(&mut self) -> io::Result<()> {
        self.output.write_all(&self.unwritten)?;
        self.unwritten.clear();
        self.output.flush()
    }
}
