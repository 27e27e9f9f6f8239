//! How much space is lent for a packet.

use crate::random::Random;

#[derive(Clone, Copy, Debug)]
pub enum Space {
    Exact,
    OneShort,
    FarTooShort,
    Longer,
}

impl Space {
    pub fn any(random: &mut Random) -> Space {
        match random.below(8) {
            0 => Space::OneShort,
            1 => Space::FarTooShort,
            2..5 => Space::Exact,
            _ => Space::Longer,
        }
    }

    /// Space that holds the packet.
    pub fn enough(random: &mut Random) -> Space {
        random.pick(&[Space::Exact, Space::Longer])
    }

    /// How much is lent for a packet of this length.
    pub fn length(self, random: &mut Random, packet: usize) -> usize {
        match self {
            Space::Exact => packet,
            Space::OneShort => packet.saturating_sub(1),
            Space::FarTooShort => random.below(packet.max(1)),
            Space::Longer => packet + random.within(1, 40),
        }
    }

    pub fn name(self) -> &'static str {
        match self {
            Space::Exact => "packets due with space exactly right",
            Space::OneShort => "packets due with space one byte short",
            Space::FarTooShort => "packets due with space far too short",
            Space::Longer => "packets due with longer space",
        }
    }
}
