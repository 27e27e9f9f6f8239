//! Single packets.

use crate::contest::{add, contest, passes, timed};
use crate::inputs::Inputs;
use compare::say;
use stewpigeon::lent;

pub fn proved(packets: &Inputs) -> u64 {
    let mut sum = 0;
    let mut answer = lent::Packet::ZERO;
    for packet in packets.iter() {
        let number = lent::read_into(0, 0, 98, 100, packet, &mut answer);
        let mut figure = u64::from(number);
        if number == 0 {
            figure += u64::from(answer.marker) + 2 * u64::from(answer.sequence);
            figure += 3 * u64::from(answer.timestamp) + 5 * u64::from(answer.source);
            figure += 7 * answer.primary as u64 + 9 * answer.end as u64;
            for older in &answer.older[..answer.count] {
                figure += u64::from(older.offset);
                figure += 2 * older.at as u64 + 3 * older.len as u64;
            }
        }
        sum = add(sum, figure);
    }
    sum
}

#[inline(never)]
fn independent_read(packet: &[u8]) -> Result<independent::Packet<'_>, u8> {
    independent::read(None, 98, 100, packet)
}

pub fn independent(packets: &Inputs) -> u64 {
    let mut sum = 0;
    for packet in packets.iter() {
        let mut figure = 0;
        match &independent_read(packet) {
            Err(refusal) => figure += u64::from(*refusal),
            Ok(read) => {
                figure += u64::from(read.marker) + 2 * u64::from(read.sequence);
                figure += 3 * u64::from(read.timestamp) + 5 * u64::from(read.source);
                figure += 7 * u64::from(read.start) + 9 * u64::from(read.end);
                for older in read.older() {
                    figure += u64::from(older.offset);
                    figure += 2 * u64::from(older.start) + 3 * u64::from(older.length);
                }
            }
        }
        sum = add(sum, figure);
    }
    sum
}

pub fn packets(packets: &Inputs) {
    let accepted = packets
        .iter()
        .filter(|packet| independent_read(packet).is_ok());
    say!(
        "READING: {} packets, {:.1} bytes on average, {} accepted: 60% RED with 2 older\n\
         blocks of 0 to 6 letters, 20% T140 of 0 to 12, 10% longer, 10% damaged\n",
        packets.count(),
        packets.average(),
        accepted.count()
    );
    contest(
        packets.count(),
        "packet",
        ("stewpigeon_read, proved", &|| timed(proved, packets)),
        ("independent Rust", &|| timed(independent, packets)),
    );
}

/// Reads packets so many times over by both programs, for whoever counts
/// instructions. Answers how many packets a turn has.
pub fn repeated(packets: &Inputs, times: usize) -> usize {
    let [ours, theirs] = [proved, independent].map(|read| passes(times, read, packets).sum);
    assert_eq!(ours, theirs, "the answers differ");
    packets.count()
}
