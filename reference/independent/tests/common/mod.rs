//! What tests of the sender share.

use independent::sender::{Clocked, Sender, LONGEST_PACKET};

/// The packet sent at this clock; no packet if quiet.
pub fn sent(sender: &mut Sender, clock: u64) -> Option<Vec<u8>> {
    let mut space = vec![0; LONGEST_PACKET];
    match sender.clock(clock, &mut space) {
        Clocked::Refused(number) => panic!("refused {number}"),
        Clocked::Quiet => None,
        Clocked::Sent(length) => {
            space.truncate(length);
            Some(space)
        }
    }
}
