//! The arguments.

use std::ffi::{OsStr, OsString};
use std::path::{Path, PathBuf};

pub const USAGE: &str = "\
Usage: capture-to-journal [--sdp FILE] [--t140 N] [--red N] [--port N]..
                          [--ssrc N] [-o JOURNAL] [CAPTURE]

Turns a capture of a text call (RFC 4103) into a journal, from which the
program `transcript` prints the text:

    capture-to-journal --t140 98 --red 100 --port 5004 call.pcap > call.journal
    transcript < call.journal

CAPTURE is read from standard input where none is named, or -. It is told by its
first bytes:
  pcap, pcapng   Ethernet with or without VLAN, Linux cooked, loopback or raw
                 IP; UDP in IPv4 or IPv6
  hex lines      one packet to a line, that is one UDP payload; blanks are
                 allowed, # starts a comment; a line ends with LF, CR or CR LF

  --sdp FILE  take the payload types and the port from the call's SDP: the port
              of its line m=text, and what a=rtpmap calls t140/1000 and
              red/1000. Options that are given stand, and what the SDP says
              otherwise is told
  --t140 N    payload type of T140, 96 to 127 (default 98)
  --red N     payload type of RED, 96 to 127, another than T140's (default 100)
  --port N    take what goes to or from this UDP port, whatever it is; more
              than one may be given. Without it, all UDP packets are taken
              that look like RTP of one of the two payload types. Hex lines
              have no ports and are all taken
  --ssrc N    take only RTP of this source, as 0x5b8e4731 or as a decimal
              number; of use where both sides of a call were captured
  -o JOURNAL  write the journal to this file, which is not touched before the
              journal is whole and keeps its mode; otherwise it goes to
              standard output
  --help      print this text

Each packet is preceded by a time record: the milliseconds since the capture's
first packet, as a 64-bit number. Packets without a time in the capture have
none. Skipped and counted on standard error are packets longer than the 1488
bytes that a journal can hold, packets of which the capture has only a part,
fragments, which are not put together, and frames of more than 4 VLAN tags. A
capture may have any length; its journal, up to 1 GiB, is held until it is
whole.

The exit status is 0 where a journal was written; 1 where the capture is
damaged, holds no packet to take, the SDP does not say what is needed, or a
file cannot be read or written; 2 where the arguments are wrong. Unless it is 0,
no journal is written.";

/// The payload types where none are given.
pub const T140: u8 = 98;
pub const RED: u8 = 100;

/// What is asked for.
#[derive(Clone, Debug, Default, PartialEq, Eq)]
pub struct Options {
    pub t140: Option<u8>,
    pub red: Option<u8>,
    pub ports: Vec<u16>,
    pub ssrc: Option<u32>,
    pub sdp: Option<PathBuf>,
    /// The port that the SDP says; hex lines have none.
    pub sdp_port: Option<u16>,
    pub output: Option<PathBuf>,
    pub capture: Option<PathBuf>,
}

/// The arguments' meaning.
#[derive(Clone, Debug, PartialEq, Eq)]
pub enum Asked {
    Help,
    Journal(Options),
}

impl Options {
    pub fn t140(&self) -> u8 {
        self.t140.unwrap_or(T140)
    }

    pub fn red(&self) -> u8 {
        self.red.unwrap_or(RED)
    }

    /// Whether the payload type is one of the two.
    pub fn is_text(&self, payload_type: u8) -> bool {
        payload_type == self.t140() || payload_type == self.red()
    }

    /// Whether one of these ports is asked for; none where no port is.
    pub fn takes(&self, ports: [u16; 2]) -> Option<bool> {
        let mut asked = self.ports.iter().chain(&self.sdp_port).peekable();
        asked.peek()?;
        Some(asked.any(|port| ports.contains(port)))
    }

    /// A journal needs two payload types.
    pub fn checked(self) -> Result<Options, String> {
        match self.t140() == self.red() {
            true => Err(format!(
                "T140 and RED both have payload type {}; give two different ones by --t140 and --red",
                self.red()
            )),
            false => Ok(self),
        }
    }
}

/// Reads the arguments.
pub fn parse(mut arguments: impl Iterator<Item = OsString>) -> Result<Asked, String> {
    let mut options = Options::default();
    while let Some(argument) = arguments.next() {
        let name = argument.to_string_lossy();
        let mut value = |what: &str| {
            let value = arguments.next();
            value.ok_or_else(|| format!("{name} wants {what} after it"))
        };
        match name.as_ref() {
            "--t140" => options.t140 = Some(payload_type(&name, &value("a payload type")?)?),
            "--red" => options.red = Some(payload_type(&name, &value("a payload type")?)?),
            "--port" => options.ports.push(port(&value("a port")?)?),
            "--ssrc" => options.ssrc = Some(ssrc(&value("a source")?)?),
            "--sdp" => {
                let path = value("a file")?;
                if options.sdp.replace(path.into()).is_some() {
                    return Err("--sdp stands twice; give one".into());
                }
            }
            "-o" | "--output" => {
                let path = value("a file")?;
                if options.output.replace(path.into()).is_some() {
                    return Err("-o stands twice; give one journal".into());
                }
            }
            "--help" | "-h" => return Ok(Asked::Help),
            option if option.starts_with('-') && option != "-" => {
                return Err(format!("unknown option {option}; --help lists them"));
            }
            _ if options.capture.is_some() => {
                return Err(format!("a second capture, {name}; give one at a time"));
            }
            _ => options.capture = Some(argument.into()),
        }
    }
    // As for many commands, - is standard input.
    options.capture = options.capture.filter(|path| path != Path::new("-"));
    match options.sdp {
        Some(_) => Ok(Asked::Journal(options)),
        None => options.checked().map(Asked::Journal),
    }
}

fn payload_type(name: &str, value: &OsStr) -> Result<u8, String> {
    let value = value.to_string_lossy();
    match value.parse() {
        Ok(number @ 96..=127) => Ok(number),
        _ => Err(format!(
            "{name} {value}: give a whole number from 96 to 127"
        )),
    }
}

fn port(value: &OsStr) -> Result<u16, String> {
    let value = value.to_string_lossy();
    match value.parse() {
        Ok(number) if number > 0 => Ok(number),
        _ => Err(format!(
            "--port {value}: give a whole number from 1 to 65535"
        )),
    }
}

fn ssrc(value: &OsStr) -> Result<u32, String> {
    let value = value.to_string_lossy();
    let number = match value.strip_prefix("0x") {
        Some(digits) => u32::from_str_radix(digits, 16),
        None => value.parse(),
    };
    number.map_err(|_| format!("--ssrc {value}: give a 32-bit number, hex ones after 0x"))
}
