//! Payload types and port of a call's text, as its SDP says them (RFC 4103,
//! section 10).

use crate::options::{Options, RED, T140};

/// A text line of an SDP with what its attributes say.
#[derive(Debug, Default, PartialEq, Eq)]
struct Line {
    port: u16,
    protocol: String,
    /// The payload types of the line, as they stand.
    types: Vec<String>,
    /// Those of T140 and of RED, with a clock of 1000.
    t140: Vec<u8>,
    red: Vec<u8>,
    /// What the levels of a RED payload type are.
    levels: Vec<(u8, String)>,
}

/// The options with what the SDP says, and what is to be said of it. Options
/// that were given stand.
pub fn with_sdp(options: &Options, sdp: &str) -> Result<(Options, Vec<String>), String> {
    let line = choose(lines(sdp)?, &options.ports)?;
    let mut notes = vec![];
    let mut merged = options.clone();
    let mut settle = |name: &str, given: Option<u8>, said: &[u8]| match (given, said) {
        (Some(given), [_, ..]) if !said.contains(&given) => {
            let said = list(said);
            notes.push(format!("{name} {given} stands, but the SDP says {said}"));
            Ok(Some(given))
        }
        (Some(given), _) => Ok(Some(given)),
        (None, []) => Ok(None),
        (None, [said]) => Ok(Some(*said)),
        (None, _) => Err(format!(
            "several payload types for one kind of packet, {}; choose one by {name}",
            list(said)
        )),
    };
    let t140 = settle("--t140", options.t140, &line.t140)?;
    let red = settle("--red", options.red, &line.red)?;
    let t140 = t140.ok_or("no t140/1000 in the text line; give its payload type by --t140")?;
    if red.is_none() {
        // A journal names two payload types in any case.
        let other = if t140 == RED { T140 } else { RED };
        merged.red = Some(other);
        notes.push(format!(
            "the SDP has no red: the text is sent without repeats; \
             the journal names {other}, which nobody sends"
        ));
    }
    merged.t140 = Some(t140);
    merged.red = red.or(merged.red);
    for (kind, levels) in &line.levels {
        let others = levels.split('/').any(|level| level != t140.to_string());
        if Some(*kind) == red && others {
            notes.push(format!(
                "the levels of red, a=fmtp:{kind} {levels}, are not all of T140's payload type {t140}"
            ));
        }
    }
    if line.protocol.contains("SAVP") {
        let protocol = &line.protocol;
        notes.push(format!(
            "the text line is {protocol}: its packets are encrypted, decrypt the capture first"
        ));
    }
    match options.ports.as_slice() {
        [] => merged.sdp_port = Some(line.port),
        ports if ports.contains(&line.port) => {}
        ports => notes.push(format!(
            "--port {} stands, but the SDP says {}",
            list(ports),
            line.port
        )),
    }
    Ok((merged.checked()?, notes))
}

/// The text line of an SDP; of several, the one that a given port names.
fn choose(mut lines: Vec<Line>, ports: &[u16]) -> Result<Line, String> {
    let count = lines.len();
    let listed = list(&lines.iter().map(|line| line.port).collect::<Vec<_>>());
    if count > 1 {
        lines.retain(|line| ports.contains(&line.port));
    }
    match (lines.pop(), lines.is_empty()) {
        (Some(line), true) => Ok(line),
        _ if count == 0 => {
            Err("no text line (m=text) with a port; is this the SDP of the call?".into())
        }
        _ => Err(format!(
            "{count} text lines, of ports {listed}; choose one by --port"
        )),
    }
}

/// The text lines of an SDP, but for those that are refused, with port 0.
fn lines(sdp: &str) -> Result<Vec<Line>, String> {
    let mut lines = vec![];
    let mut in_text = false;
    for said in sdp.split(['\r', '\n']) {
        if let Some(media) = said.strip_prefix("m=") {
            let text = media.split_whitespace().collect::<Vec<_>>();
            in_text = text.first().is_some_and(|kind| *kind == "text");
            if in_text {
                lines.push(text_line(said, &text)?);
            }
        } else if let (true, Some(line), Some(attribute)) =
            (in_text, lines.last_mut(), said.strip_prefix("a="))
        {
            add(line, said, attribute)?;
        }
    }
    lines.retain(|line| line.port != 0);
    Ok(lines)
}

/// `text PORT PROTOCOL TYPES..`
fn text_line(said: &str, words: &[&str]) -> Result<Line, String> {
    let wrong = || format!("{said:?} is no text line; it has a port, a protocol and payload types");
    let [_, port, protocol, types @ ..] = words else {
        return Err(wrong());
    };
    Ok(Line {
        port: port.parse().map_err(|_| wrong())?,
        protocol: (*protocol).into(),
        types: types.iter().map(|kind| (*kind).into()).collect(),
        ..Line::default()
    })
}

/// Takes `rtpmap:N NAME/CLOCK` and `fmtp:N LEVELS` of the line's payload types.
fn add(line: &mut Line, said: &str, attribute: &str) -> Result<(), String> {
    let Some((name, value)) = attribute.split_once(':') else {
        return Ok(());
    };
    let Some((kind, value)) = value.split_once(' ') else {
        return Ok(());
    };
    if !line.types.iter().any(|listed| listed == kind) {
        return Ok(());
    }
    let value = value.trim().to_ascii_lowercase();
    let number = || match kind.parse() {
        Ok(number @ 96..=127) => Ok(number),
        _ => Err(format!("{said:?}: a payload type is from 96 to 127")),
    };
    match (name, value.as_str()) {
        ("rtpmap", "t140/1000") => line.t140.push(number()?),
        ("rtpmap", "red/1000") => line.red.push(number()?),
        ("fmtp", levels) => {
            if let Ok(number) = number() {
                line.levels.push((number, levels.into()));
            }
        }
        _ => {}
    }
    Ok(())
}

fn list<T: ToString>(items: &[T]) -> String {
    let items: Vec<_> = items.iter().map(T::to_string).collect();
    items.join(", ")
}
