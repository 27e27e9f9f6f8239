//! What a program owes to those who wait for it: text at once, an end by
//! itself, and a word when it cannot write.

use std::fs::OpenOptions;
use std::io;
use std::process::Stdio;
use std::time::Duration;

use independent::journals::{red, t140, WHOLE};
use independent::receiver::MARK;
use independent::recorder::Recorder;

use crate::check::{save, shown, Difference};
use crate::program::{Program, Running, PATIENCE};

/// Text must not wait for more input, nor come before its packet is whole.
pub fn text_at_once(program: &Program) -> Result<(), Difference> {
    let more = |packet: &[u8]| Recorder::default().packet(packet).bytes;
    let opened = Recorder::open(98, 100).packet(&t140(1, "A")).bytes;
    let marks = [&MARK.repeat(2)[..], b"yz"].concat();
    let steps: [(Vec<u8>, &[u8]); 7] = [
        (opened, b"A"),
        (more(&t140(2, "bcd")), b"bcd"),
        (Recorder::default().time(7).bytes, b""),
        (more(&[]), b""),
        (more(&red(6, &["y"], "z")), &marks),
        (more(&t140(7, &"e".repeat(1460))), &[b'e'; 1460]),
        (vec![0], b"\npackets 4 late 0 lost 2 refused 1\n"),
    ];
    let mut running = program.start()?;
    let mut journal = vec![];
    let mut printed = vec![];
    for (bytes, text) in &steps {
        let (last, before) = bytes.split_last().expect("no step is empty");
        journal.extend(bytes);
        running.feed(before)?;
        quiet(&mut running, &printed).map_err(|wrong| differs(wrong, &journal))?;
        running.feed(&[*last])?;
        printed.extend(*text);
        arrives(&mut running, &printed).map_err(|wrong| differs(wrong, &journal))?;
    }
    let ended = running.ended().map_err(|wrong| differs(wrong, &journal))?;
    match ended.printed == printed {
        true => Ok(()),
        false => Err(differs(both(&printed, &ended.printed), &journal)),
    }
}

fn arrives(running: &mut Running, printed: &[u8]) -> Result<(), String> {
    running.has_printed(printed.len(), PATIENCE);
    match running.printed == printed {
        true => Ok(()),
        false => Err(both(printed, &running.printed)),
    }
}

/// Nothing more comes for a moment.
fn quiet(running: &mut Running, printed: &[u8]) -> Result<(), String> {
    match running.has_printed(printed.len() + 1, Duration::from_millis(20)) {
        false => Ok(()),
        true => Err(both(printed, &running.printed)),
    }
}

fn both(expected: &[u8], printed: &[u8]) -> String {
    format!(
        "text at once, expected: {}\nprinted: {}",
        shown(expected),
        shown(printed)
    )
}

fn differs(what: String, journal: &[u8]) -> Difference {
    Difference {
        what,
        saved: save(journal),
    }
}

/// The journals of the failed writes: a short one, one whose text and marks
/// are long, and a broken one.
fn unwritable() -> [Vec<u8>; 3] {
    let packet = t140(1, &"long ".repeat(290));
    let mut long = Recorder::open(98, 100).packet(&packet);
    for sequence in (3_000..33_000).step_by(2_999) {
        long = long.packet(&t140(sequence, "and lost"));
    }
    [WHOLE.to_vec(), long.end(), vec![5]]
}

/// On a full device the program ends and says why.
pub fn full_device(program: &Program) -> Result<(), Difference> {
    for journal in unwritable() {
        let full = OpenOptions::new().write(true).open("/dev/full");
        let full = full.map_err(|error| format!("cannot open /dev/full: {error}"))?;
        let mut running = program.start_on(Stdio::piped(), full.into())?;
        running.feed(&journal)?;
        // The input stays open.
        let ended = running.ended().map_err(|wrong| differs(wrong, &journal))?;
        if ended.said.trim().is_empty() {
            let wrong = "nothing on standard error when the output's device is full";
            return Err(differs(wrong.into(), &journal));
        }
    }
    Ok(())
}

/// Where nobody reads its output any more, the program ends: with a word on
/// standard error or by the signal that such a write brings.
pub fn closed_pipe(program: &Program) -> Result<(), Difference> {
    for journal in unwritable() {
        let (reader, writer) =
            io::pipe().map_err(|error| format!("cannot make a pipe: {error}"))?;
        drop(reader);
        let mut running = program.start_on(Stdio::piped(), writer.into())?;
        running.feed(&journal)?;
        let ended = running.ended().map_err(|wrong| differs(wrong, &journal))?;
        if ended.said.trim().is_empty() && ended.status.code().is_some() {
            let wrong = "no word and no signal when the output is closed";
            return Err(differs(wrong.into(), &journal));
        }
    }
    Ok(())
}
