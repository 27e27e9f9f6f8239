//! A receiver that holds over one line of packets, with waits after each.

use crate::contest::{add, contest, passes, timed};
use crate::packets::Arrivals;
use crate::stepping::figure;
use compare::calls::answers::holding_step;
use compare::say;
use independent::holding::{HoldingReceiver, Step};
use stewpigeon::lent::{self, HoldingStep};

/// What is made of an answer.
struct Seen {
    figure: u64,
    of: u8,
    keep: u8,
}

impl Seen {
    #[inline]
    fn refused(number: u8) -> Seen {
        Seen {
            figure: number.into(),
            of: HoldingStep::NEITHER,
            keep: HoldingStep::NEITHER,
        }
    }

    /// Reads each byte as it was written, by itself: two of them read as one
    /// would have to wait for the library's writes.
    #[inline]
    fn accepted(step: &HoldingStep) -> Seen {
        let again = step.again != 0;
        Seen {
            figure: figure(&step.step)
                + 100_000 * u64::from(step.of)
                + 1_000_000 * u64::from(step.keep)
                + 10_000_000 * u64::from(again),
            of: step.of,
            keep: step.keep,
        }
    }
}

/// The calls of a receiver.
trait Calls {
    fn step(&mut self, clock: u64, held: &[u8], packet: &[u8]) -> Seen;
    fn wait(&mut self, clock: u64, held: &[u8]) -> Seen;
}

/// Gives each packet to a receiver, and waits until nothing is given.
#[inline]
fn receive(receiver: &mut impl Calls, arrivals: &Arrivals) -> u64 {
    let mut held: &[u8] = &[];
    let mut sum = 0;
    for (clock, packet) in arrivals.iter() {
        let seen = receiver.step(clock, held, packet);
        sum = add(sum, seen.figure);
        if seen.keep == HoldingStep::NEW {
            held = packet;
        }
        loop {
            let seen = receiver.wait(clock, held);
            sum = add(sum, seen.figure);
            if seen.of == HoldingStep::NEITHER {
                break;
            }
        }
    }
    sum
}

/// The library's record, and the step that is lent.
struct Proved {
    receiver: lent::HoldingReceiver,
    step: HoldingStep,
}

impl Proved {
    #[inline]
    fn seen(&self, number: u8) -> Seen {
        match number {
            0 => Seen::accepted(&self.step),
            number => Seen::refused(number),
        }
    }
}

impl Calls for Proved {
    #[inline]
    fn step(&mut self, clock: u64, held: &[u8], packet: &[u8]) -> Seen {
        let Proved { receiver, step } = self;
        let number = lent::holding_receiver_step(receiver, clock, held, packet, step);
        self.seen(number)
    }

    #[inline]
    fn wait(&mut self, clock: u64, held: &[u8]) -> Seen {
        let Proved { receiver, step } = self;
        let number = lent::holding_receiver_wait(receiver, clock, held, step);
        self.seen(number)
    }
}

fn proved(arrivals: &Arrivals) -> u64 {
    let mut proved = Proved {
        receiver: lent::HoldingReceiver::ZERO,
        step: HoldingStep::ZERO,
    };
    let number = lent::holding_receiver_open(&mut proved.receiver, 98, 100);
    assert_eq!(number, 0);
    receive(&mut proved, arrivals)
}

#[inline(never)]
fn independent_step<'a>(
    receiver: &mut HoldingReceiver,
    clock: u64,
    held: &'a [u8],
    packet: &'a [u8],
) -> Result<Step<'a>, u8> {
    receiver.step(clock, held, packet)
}

#[inline(never)]
fn independent_wait<'a>(
    receiver: &mut HoldingReceiver,
    clock: u64,
    held: &'a [u8],
) -> Result<Step<'a>, u8> {
    receiver.wait(clock, held)
}

#[inline]
fn seen(answer: &Result<Step, u8>) -> Seen {
    holding_step(answer, |step| Seen::accepted(&step)).unwrap_or_else(Seen::refused)
}

impl Calls for HoldingReceiver {
    #[inline]
    fn step(&mut self, clock: u64, held: &[u8], packet: &[u8]) -> Seen {
        seen(&independent_step(self, clock, held, packet))
    }

    #[inline]
    fn wait(&mut self, clock: u64, held: &[u8]) -> Seen {
        seen(&independent_wait(self, clock, held))
    }
}

fn open() -> HoldingReceiver {
    HoldingReceiver::open(98, 100).expect("good payload types")
}

fn independent(arrivals: &Arrivals) -> u64 {
    receive(&mut open(), arrivals)
}

/// A receiver, and how many packets were given at once, held, late and refused,
/// and how many waits there were and gave one. The line does not jump.
struct Counted {
    receiver: HoldingReceiver,
    packets: [usize; 4],
    waits: [usize; 2],
}

impl Calls for Counted {
    fn step(&mut self, clock: u64, held: &[u8], packet: &[u8]) -> Seen {
        let answer = self.receiver.step(clock, held, packet);
        let place = match holding_step(&answer, |step| (step.of, step.keep, step.step.course)) {
            Ok((HoldingStep::NEW, ..)) => 0,
            Ok((_, HoldingStep::NEW, _)) => 1,
            Ok((.., lent::Step::LATE)) => 2,
            Ok(_) => panic!("a jump in the line"),
            Err(_) => 3,
        };
        self.packets[place] += 1;
        seen(&answer)
    }

    fn wait(&mut self, clock: u64, held: &[u8]) -> Seen {
        let seen = seen(&self.receiver.wait(clock, held));
        self.waits[0] += 1;
        self.waits[1] += usize::from(seen.of == HoldingStep::HELD);
        seen
    }
}

pub fn steps(arrivals: &Arrivals) {
    let mut counted = Counted {
        receiver: open(),
        packets: [0; 4],
        waits: [0; 2],
    };
    receive(&mut counted, arrivals);
    let [given, held, late, refused] = counted.packets;
    let [waits, closed] = counted.waits;
    say!(
        "HOLDING: step and waits over {} packets of one line, {:.1} bytes on average, every\n\
         300 ms: 60% RED with 2 older blocks of 0 to 6 letters, 35% T140 of 0 to 12, 5%\n\
         damaged; 3% lost before, 10% delayed by 100 to 1,500 ms; {given} given at once,\n\
         {held} held, {late} late, {refused} refused; {waits} waits, {closed} of which give one\n",
        arrivals.packets.count(),
        arrivals.packets.average(),
    );
    contest(
        arrivals.packets.count(),
        "packet and its waits",
        ("stewpigeon_holding_receiver_*, proved", &|| {
            timed(proved, arrivals)
        }),
        ("independent Rust", &|| timed(independent, arrivals)),
    );
}

/// Gives the packets so many times over to receivers of both programs, for
/// whoever counts instructions. Answers how many packets a turn has.
pub fn repeated(arrivals: &Arrivals, times: usize) -> usize {
    let [ours, theirs] = [proved, independent].map(|steps| passes(times, steps, arrivals).sum);
    assert_eq!(ours, theirs, "the answers differ");
    arrivals.packets.count()
}
