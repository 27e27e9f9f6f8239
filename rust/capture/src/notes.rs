//! What is said of the packets of a capture.

use std::collections::BTreeMap;

use crate::journal::LONGEST;
use crate::link::TAGS;
use crate::options::Options;

/// The most places or numbers that one note lists.
const LISTED: usize = 10;

/// What is to be said of packets: how many, and where the first of them are.
#[derive(Default)]
pub struct Places {
    count: usize,
    first: Vec<String>,
}

impl Places {
    pub fn add(&mut self, place: impl FnOnce() -> String) {
        self.count += 1;
        if self.first.len() < LISTED {
            self.first.push(place());
        }
    }
}

/// What was met.
#[derive(Default)]
pub struct Counts {
    /// All packets so far, taken or not.
    pub frames: usize,
    pub taken: usize,
    /// How many of those taken have a payload type, and how many of the
    /// text's a source.
    pub types: BTreeMap<u8, usize>,
    pub sources: BTreeMap<u32, usize>,
    /// Packets that are too long for a journal.
    pub long: Places,
    /// Packets whose time no journal can tell.
    pub beyond: usize,
    pub cut: usize,
    pub fragments: usize,
    pub malformed: usize,
    pub tags: usize,
    /// Frames of link types that are not read here.
    pub links: BTreeMap<u16, usize>,
    pub udp: usize,
    /// The destination ports and payload types of all that may be RTP.
    pub seen: BTreeMap<(u16, u8), usize>,
}

impl Counts {
    /// What the journal's maker should know; an error where there is none.
    pub fn notes(&self, options: &Options) -> Result<Vec<String>, String> {
        let mut notes = self.skipped();
        if self.taken == 0 {
            notes.insert(0, self.nothing());
            return Err(notes.join("\n"));
        }
        notes.extend(self.types_note(options));
        notes.extend(self.sources_note());
        Ok(notes)
    }

    /// What to say where no packet is taken.
    fn nothing(&self) -> String {
        let (udp, seen) = (self.udp, &self.seen);
        if seen.is_empty() {
            return format!("no packet to take; of {udp} UDP packets none may be RTP");
        }
        let seen = seen
            .iter()
            .map(|((port, kind), count)| format!("payload type {kind} to port {port} ({count})"));
        format!(
            "no packet to take; among {udp} UDP packets these may be RTP: {}; \
             choose by --port, --t140 and --red, or --sdp",
            list(seen)
        )
    }

    fn skipped(&self) -> Vec<String> {
        let mut notes = vec![];
        if self.long.count > 0 {
            notes.push(format!(
                "skipped {}, longer than the {LONGEST} bytes that a journal can hold: {}",
                self.long.count,
                some(&self.long.first, self.long.count)
            ));
        }
        for (count, what) in [
            (
                self.cut,
                "of which the capture has only a part; capture with `-s 0`",
            ),
            (
                self.fragments,
                "that are fragments of UDP packets; they are not put together",
            ),
            (
                self.malformed,
                "whose IP or UDP header is cut short or damaged",
            ),
        ] {
            if count > 0 {
                notes.push(format!("skipped {count} {what}"));
            }
        }
        if self.tags > 0 {
            notes.push(format!(
                "skipped {} of more than {TAGS} VLAN tags",
                self.tags
            ));
        }
        for (link, count) in &self.links {
            notes.push(format!(
                "skipped {count} of link type {link}, which is not read here"
            ));
        }
        if self.beyond > 0 {
            notes.push(format!(
                "{} later than 2^64 ms after the first packet, the most that a journal can tell; \
                 their time records say {}",
                self.beyond,
                u64::MAX
            ));
        }
        notes
    }

    /// Payload types that are all refused are worth a word.
    fn types_note(&self, options: &Options) -> Option<String> {
        if self.types.keys().any(|&kind| options.is_text(kind)) {
            return None;
        }
        let types = self
            .types
            .iter()
            .map(|(kind, count)| format!("{kind} ({count})"));
        Some(format!(
            "no packet taken has payload type {} or {}; payload types in them: {}",
            options.t140(),
            options.red(),
            list(types)
        ))
    }

    /// A transcript is of one source.
    fn sources_note(&self) -> Option<String> {
        let count = self.sources.len();
        let listed = self
            .sources
            .iter()
            .map(|(source, count)| format!("0x{source:08x} ({count})"));
        (count > 1).then(|| {
            format!(
                "packets of {count} sources: {}; a transcript takes the first that it accepts \
                 and refuses the others, choose one by --ssrc",
                list(listed)
            )
        })
    }
}

/// A list, cut where it gets long.
fn list(items: impl ExactSizeIterator<Item = String>) -> String {
    let count = items.len();
    some(&items.take(LISTED).collect::<Vec<_>>(), count)
}

/// The first of a list that has so many.
fn some(first: &[String], count: usize) -> String {
    match count.checked_sub(LISTED) {
        _ if count == 0 => "none".into(),
        None | Some(0) => first.join(", "),
        Some(more) => format!("{} and {more} more", first.join(", ")),
    }
}
