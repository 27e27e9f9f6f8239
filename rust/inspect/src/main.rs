//! Prints what the proved reader finds in packets given as hex lines.
#![forbid(unsafe_code)]

use std::env;
use std::fs::File;
use std::io::{self, BufRead, BufReader, Write};
use std::process::exit;

use stewpigeon::{read, Packet};

const USAGE: &str = "\
Usage: stewpigeon-inspect [--t140 N] [--red N] [FILE]

Reads RTP text packets (RFC 4103), one to a line in hex, from FILE or from
standard input, and prints what each one holds or why it is refused. Blank
lines and lines that start with # are skipped; blanks between bytes are
allowed.

  --t140 N   payload type of T140, 96 to 127 (default 98)
  --red N    payload type of RED, 96 to 127, another than T140's (default 100)
  --help     print this text

The exit status is 0, also where packets are refused, and 2 where the
arguments or the hex are wrong or FILE cannot be read.";

struct Options {
    t140: u8,
    red: u8,
    file: Option<String>,
}

fn options() -> Result<Options, String> {
    let mut options = Options {
        t140: 98,
        red: 100,
        file: None,
    };
    let mut arguments = env::args().skip(1);
    while let Some(argument) = arguments.next() {
        match argument.as_str() {
            "--t140" => options.t140 = payload_type("--t140", arguments.next())?,
            "--red" => options.red = payload_type("--red", arguments.next())?,
            "--help" | "-h" => {
                let _ = writeln!(io::stdout(), "{USAGE}");
                exit(0);
            }
            option if option.starts_with("--") => {
                return Err(format!("unknown option {option}; --help lists them"));
            }
            _ if options.file.is_some() => {
                return Err(format!("a second file, {argument}; give one at a time"));
            }
            _ => options.file = Some(argument),
        }
    }
    if options.t140 == options.red {
        return Err(format!(
            "--t140 and --red are both {}; give two different payload types",
            options.red
        ));
    }
    Ok(options)
}

fn payload_type(name: &str, value: Option<String>) -> Result<u8, String> {
    let value = value.ok_or_else(|| format!("{name} wants a payload type after it"))?;
    match value.parse() {
        Ok(number @ 96..=127) => Ok(number),
        _ => Err(format!(
            "{name} {value}: give a whole number from 96 to 127"
        )),
    }
}

/// The bytes of a hex line.
fn bytes(line: &str) -> Result<Vec<u8>, String> {
    let mut digits = vec![];
    for (place, letter) in line.chars().enumerate() {
        match letter.to_digit(16) {
            Some(digit) => digits.push(digit as u8),
            None if letter.is_ascii_whitespace() => {}
            None => {
                return Err(format!(
                    "{letter:?} at column {} is no hex digit",
                    place + 1
                ));
            }
        }
    }
    if digits.len() % 2 != 0 {
        return Err(format!(
            "{} hex digits; a packet takes two for each byte",
            digits.len()
        ));
    }
    Ok(digits
        .chunks_exact(2)
        .map(|pair| pair[0] << 4 | pair[1])
        .collect())
}

/// Text in quotes, with what would not show as itself escaped.
fn quoted(text: &[u8]) -> String {
    format!("{:?}", String::from_utf8_lossy(text))
}

fn describe(out: &mut dyn Write, packet: &Packet<'_>) -> io::Result<()> {
    writeln!(
        out,
        "marker {} sequence {} timestamp {} source {:08x}",
        u8::from(packet.marker),
        packet.sequence,
        packet.timestamp,
        packet.source
    )?;
    for (place, older) in packet.older().iter().enumerate() {
        let back = (packet.older().len() - place) as u16;
        writeln!(
            out,
            "    older block, sequence {} timestamp offset {}: {}",
            packet.sequence.wrapping_sub(back),
            older.offset,
            quoted(older.text)
        )?;
    }
    writeln!(out, "    primary: {}", quoted(packet.primary))
}

fn inspect(options: &Options, input: impl BufRead, out: &mut dyn Write) -> Result<(), String> {
    let output = |error: io::Error| match error.kind() {
        // Whoever reads the output has seen enough.
        io::ErrorKind::BrokenPipe => exit(0),
        _ => format!("cannot write: {error}"),
    };
    for (place, line) in input.lines().enumerate() {
        let number = place + 1;
        let line = line.map_err(|error| format!("line {number}: cannot read: {error}"))?;
        let line = line.trim_end();
        if line.trim_start().is_empty() || line.starts_with('#') {
            continue;
        }
        let packet = bytes(line).map_err(|wrong| format!("line {number}: {wrong}"))?;
        write!(out, "line {number}: ").map_err(output)?;
        match read(None, options.t140, options.red, &packet) {
            Ok(packet) => describe(out, &packet),
            Err(refusal) => writeln!(out, "refused {}: {}", refusal.number(), refusal.meaning()),
        }
        .map_err(output)?;
    }
    out.flush().map_err(output)
}

fn run() -> Result<(), String> {
    let options = options()?;
    let mut out = io::BufWriter::new(io::stdout().lock());
    match &options.file {
        None => inspect(&options, io::stdin().lock(), &mut out),
        Some(name) => {
            let file = File::open(name).map_err(|error| format!("cannot open {name}: {error}"))?;
            inspect(&options, BufReader::new(file), &mut out)
        }
    }
}

fn main() {
    if let Err(wrong) = run() {
        eprintln!("stewpigeon-inspect: {wrong}");
        exit(2);
    }
}
