//! Which levels and lengths of packets were met.

use super::super::each::Each;
use super::super::tally::Tally;
use independent::sender::{Settings, LONGEST_PACKET};
use independent::{read, LEVEL};

/// An opening with these settings was answered so.
pub fn opening(settings: &Settings, number: u8, tally: &mut Tally) {
    let Settings {
        level, buffering, ..
    } = *settings;
    if number == 0 {
        tally.each(Each::Opened, level);
    }
    tally.meet("openings one level above the highest, refused 1", {
        number == 1 && level == LEVEL + 1
    });
    tally.meet("openings above the highest level with time 0, refused 1", {
        number == 1 && level > LEVEL && buffering == 0
    });
}

/// A sender of these settings has sent this packet.
pub fn packet(settings: &Settings, packet: &[u8], tally: &mut Tally) {
    tally.each(Each::Sent, settings.level);
    let read = read(Some(settings.source), settings.t140, settings.red, packet);
    if read.is_ok_and(|read| read.older().len() == settings.level) {
        tally.each(Each::SentFull, settings.level);
    }
    tally.meet("packets sent of the greatest length", {
        packet.len() == LONGEST_PACKET
    });
}

/// So much space was refused where a packet of this length was due.
pub fn short(space: usize, due: Option<usize>, tally: &mut Tally) {
    tally.meet("packets of the greatest length, refused 8 by one byte", {
        due == Some(LONGEST_PACKET) && space + 1 == LONGEST_PACKET
    });
}
