//! Turns a capture into a journal: a file of pcap or pcapng, or packets as
//! hex lines.
#![forbid(unsafe_code)]

use std::io::{BufRead, Read};

pub mod choose;
pub mod hex;
pub mod input;
pub mod journal;
pub mod link;
pub mod notes;
pub mod options;
pub mod output;
pub mod pcap;
pub mod pcapng;
pub mod sdp;
pub mod udp;

use choose::Chooser;
use input::Input;
use options::Options;

/// A packet as it was captured, from the link layer on.
#[derive(Clone, Copy, Debug, PartialEq, Eq)]
pub struct Frame<'a> {
    /// The byte of the capture at which its record starts.
    pub place: u64,
    /// In nanoseconds; none where the capture has no time for it.
    pub time: Option<i128>,
    pub link: u16,
    /// The first of them, more than any IP packet takes.
    pub bytes: &'a [u8],
}

/// A journal, and what its maker should know.
#[derive(Debug)]
pub struct Converted {
    pub journal: Vec<u8>,
    pub notes: Vec<String>,
}

/// The kinds of input, told by the first bytes.
#[derive(Clone, Copy, Debug, PartialEq, Eq)]
enum Kind {
    Pcap,
    Pcapng,
    Hex,
}

fn kind(head: &[u8]) -> Result<Kind, String> {
    if pcap::starts(head) {
        return Ok(Kind::Pcap);
    }
    if pcapng::starts(head) {
        return Ok(Kind::Pcapng);
    }
    if hex::starts(head) {
        return Ok(Kind::Hex);
    }
    let compressed: [&[u8]; 4] = [b"\x1f\x8b", b"\x28\xb5\x2f\xfd", b"\xfd7zXZ", b"BZh"];
    Err(match head {
        [] => "the input is empty; give a capture".into(),
        _ if compressed.iter().any(|magic| head.starts_with(magic)) => {
            "the input is compressed; uncompress it first".into()
        }
        _ => format!(
            "byte 0: {:02x?} starts no pcap, pcapng or hex lines; \
             `tcpdump -w` and Wireshark write captures of the first two kinds",
            &head[..head.len().min(4)]
        ),
    })
}

/// Makes the journal of the packets that the options choose, which is all
/// that is held of the capture.
pub fn convert(mut capture: impl BufRead, options: &Options) -> Result<Converted, String> {
    let head = input::head(&mut capture)?;
    let kind = kind(&head)?;
    let mut input = Input::new(head.chain(capture));
    let mut chooser = Chooser::new(options);
    match kind {
        Kind::Pcap => pcap::frames(&mut input, |frame| chooser.frame(frame))?,
        Kind::Pcapng => pcapng::frames(&mut input, |frame| chooser.frame(frame))?,
        Kind::Hex if !options.ports.is_empty() => {
            return Err("hex lines have no ports; leave --port out".into());
        }
        Kind::Hex => hex::lines(&mut input, |line| chooser.line(line))?,
    }
    chooser.converted()
}
