//! Which packets go into the journal.

use crate::hex::Line;
use crate::journal::{Journal, LONGEST};
use crate::link::{carried, known, Carried};
use crate::notes::Counts;
use crate::options::Options;
use crate::udp::{held, Held, Udp};
use crate::{Converted, Frame};

/// The longest journal; it is held in memory until it is whole.
const MOST: usize = 1 << 30;

/// Whether these are the first bytes of RTP; its payload type.
fn payload_type(payload: &[u8]) -> Option<u8> {
    let header = payload.first_chunk::<12>()?;
    (header[0] >> 6 == 2).then_some(header[1] & 0x7f)
}

/// The source number of RTP.
fn source(payload: &[u8]) -> Option<u32> {
    payload_type(payload)?;
    let source = payload[8..].first_chunk()?;
    Some(u32::from_be_bytes(*source))
}

/// Whether the payload is of the source asked for, if one is.
fn of_source(options: &Options, payload: &[u8]) -> bool {
    options
        .ssrc
        .is_none_or(|wanted| source(payload) == Some(wanted))
}

/// Makes a journal of the packets that the options choose, as they come.
pub struct Chooser<'a> {
    options: &'a Options,
    journal: Journal,
    /// The time of the first packet that has one.
    start: Option<i128>,
    counts: Counts,
}

impl<'a> Chooser<'a> {
    pub fn new(options: &'a Options) -> Self {
        Chooser {
            options,
            journal: Journal::open(options.t140(), options.red()),
            start: None,
            counts: Counts::default(),
        }
    }

    pub fn line(&mut self, line: &Line) -> Result<(), String> {
        if of_source(self.options, &line.packet) {
            let place = || format!("line {}", line.number);
            self.take(place, None, &line.packet, line.length)?;
        }
        Ok(())
    }

    pub fn frame(&mut self, frame: &Frame) -> Result<(), String> {
        self.counts.frames += 1;
        self.start = self.start.or(frame.time);
        if known(frame.link).is_err() {
            *self.counts.links.entry(frame.link).or_default() += 1;
            return Ok(());
        }
        let packet = match carried(frame.link, frame.bytes) {
            Carried::Ip(packet) => packet,
            Carried::Tags => {
                self.counts.tags += 1;
                return Ok(());
            }
            Carried::Other => return Ok(()),
        };
        match held(packet) {
            Held::Other => {}
            Held::Fragment => self.counts.fragments += 1,
            Held::Malformed => self.counts.malformed += 1,
            Held::Udp(udp) => {
                self.counts.udp += 1;
                if let Some(payload_type) = payload_type(udp.payload) {
                    let seen = (udp.destination, payload_type);
                    *self.counts.seen.entry(seen).or_default() += 1;
                }
                match self.wanted(&udp) {
                    false => {}
                    true if !udp.whole => self.counts.cut += 1,
                    true => {
                        let number = self.counts.frames;
                        let place = || format!("packet {number} at byte {}", frame.place);
                        self.take(place, frame.time, udp.payload, udp.payload.len())?;
                    }
                }
            }
        }
        Ok(())
    }

    /// With ports, all that goes to or from one of them; without, all that
    /// may be RTP of one of the two payload types.
    fn wanted(&self, udp: &Udp) -> bool {
        let by_type = || payload_type(udp.payload).is_some_and(|kind| self.options.is_text(kind));
        let chosen = self.options.takes([udp.source, udp.destination]);
        chosen.unwrap_or_else(by_type) && of_source(self.options, udp.payload)
    }

    /// Takes a packet of this length, with the time at which it came.
    fn take(
        &mut self,
        place: impl FnOnce() -> String,
        time: Option<i128>,
        payload: &[u8],
        length: usize,
    ) -> Result<(), String> {
        if length > LONGEST {
            self.counts
                .long
                .add(|| format!("{} ({length} bytes)", place()));
            return Ok(());
        }
        self.counts.taken += 1;
        if let Some(kind) = payload_type(payload) {
            *self.counts.types.entry(kind).or_default() += 1;
            if let Some(source) = source(payload).filter(|_| self.options.is_text(kind)) {
                *self.counts.sources.entry(source).or_default() += 1;
            }
        }
        if let Some((time, start)) = time.zip(self.start) {
            let milliseconds = self.milliseconds(time - start);
            self.journal.time(milliseconds);
        }
        self.journal.packet(payload);
        match self.journal.length() > MOST {
            true => Err(format!(
                "its journal is longer than {MOST} bytes; take fewer packets, by --port or --ssrc"
            )),
            false => Ok(()),
        }
    }

    /// A clock that was set back counts as no time gone; what is more than a
    /// journal can tell as the most that it can.
    fn milliseconds(&mut self, nanoseconds: i128) -> u64 {
        u64::try_from(nanoseconds.max(0) / 1_000_000).unwrap_or_else(|_| {
            self.counts.beyond += 1;
            u64::MAX
        })
    }

    pub fn converted(self) -> Result<Converted, String> {
        let notes = self.counts.notes(self.options)?;
        let journal = self.journal.end();
        Ok(Converted { journal, notes })
    }
}
