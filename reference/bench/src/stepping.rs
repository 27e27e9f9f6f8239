//! A receiver over one line of packets.

use crate::contest::{add, contest, passes, timed};
use crate::inputs::Inputs;
use compare::calls::answers;
use compare::say;
use independent::receiver::{Answer, Receiver};
use stewpigeon::lent;

pub fn figure(step: &lent::Step) -> u64 {
    let distance = step.distance as u64;
    let blocks = 7 * step.older + 11 * step.given + 13 * step.from + 17 * step.to;
    let course = 1000 * u64::from(step.course);
    course + 3 * u64::from(step.loss) + 5u64.wrapping_mul(distance) + blocks as u64
}

fn proved(packets: &Inputs) -> u64 {
    let mut receiver = lent::Receiver::ZERO;
    assert_eq!(lent::receiver_open(&mut receiver, 98, 100), 0);
    let mut step = lent::Step::ZERO;
    let mut sum = 0;
    for packet in packets.iter() {
        let figure = match lent::receiver_step(&mut receiver, packet, &mut step) {
            0 => figure(&step),
            number => u64::from(number),
        };
        sum = add(sum, figure);
    }
    sum
}

#[inline(never)]
fn independent_step<'a>(receiver: &mut Receiver, packet: &'a [u8]) -> Answer<'a> {
    receiver.step(packet)
}

fn independent(packets: &Inputs) -> u64 {
    let mut receiver = Receiver::open(98, 100).expect("good payload types");
    let mut sum = 0;
    for packet in packets.iter() {
        let figure = match answers::step(&independent_step(&mut receiver, packet)) {
            Ok(step) => figure(&step),
            Err(number) => u64::from(number),
        };
        sum = add(sum, figure);
    }
    sum
}

/// How many packets are forward, late and refused. The line does not jump.
fn counts(packets: &Inputs) -> [usize; 3] {
    let mut receiver = Receiver::open(98, 100).expect("good payload types");
    let mut counts = [0; 3];
    for packet in packets.iter() {
        let place = match receiver.step(packet) {
            Answer::Forward(_) => 0,
            Answer::Late { .. } => 1,
            Answer::Refused(_) => 2,
            Answer::Jump { .. } | Answer::Break(_) => panic!("a jump in the line"),
        };
        counts[place] += 1;
    }
    counts
}

pub fn steps(packets: &Inputs) {
    let [forward, late, refused] = counts(packets);
    say!(
        "RECEIVING: read and step over {} packets of one line, {:.1} bytes on average:\n\
         60% RED with 2 older blocks of 0 to 6 letters, 20% T140 of 0 to 12, 10% behind\n\
         losses or late, 10% damaged; {forward} forward, {late} late, {refused} refused\n",
        packets.count(),
        packets.average(),
    );
    contest(
        packets.count(),
        "packet",
        ("stewpigeon_receiver_step, proved", &|| {
            timed(proved, packets)
        }),
        ("independent Rust", &|| timed(independent, packets)),
    );
}

/// Gives the packets so many times over to receivers of both programs, for
/// whoever counts instructions. Answers how many packets a turn has.
pub fn repeated(packets: &Inputs, times: usize) -> usize {
    let [ours, theirs] = [proved, independent].map(|steps| passes(times, steps, packets).sum);
    assert_eq!(ours, theirs, "the answers differ");
    packets.count()
}
