//! Kinds of packets with 60 to 200 bytes of ASCII, in which other letters
//! interrupt the runs of it.

use std::ops::Range;

use crate::check::Case;
use crate::letters::{ascii, lay, Letter, BYTES, CUT, WHOLE};
use crate::plan::{Plan, RED, T140};
use crate::random::Random;
use independent::{offsets, LEVEL};
use stewpigeon::lent;

/// A good packet of ASCII, over which letters are laid.
struct Base {
    packet: Vec<u8>,
    answer: lent::Packet,
    /// The places that its blocks take.
    blocks: Vec<Range<usize>>,
}

impl Base {
    /// A RED packet of so many older blocks, or a T140 one if they are none,
    /// and of so many bytes of text.
    fn new(random: &mut Random, count: usize, length: usize) -> Base {
        let mut plan = Plan::new(random, if count == 0 { T140 } else { RED });
        plan.dress(random);
        let mut ends: Vec<usize> = (0..count).map(|_| border(random, length)).collect();
        ends.sort_unstable();
        let mut start = 0;
        for (age, end) in offsets::falling(random, count).into_iter().zip(&ends) {
            plan.older.push((age, ascii(random, end - start)));
            start = *end;
        }
        plan.primary = ascii(random, length - start);

        let mut start = plan.blocks();
        let ends = ends.iter().chain([&length]).map(|end| plan.blocks() + end);
        let block = |end| std::mem::replace(&mut start, end)..end;
        Base {
            packet: plan.bytes(),
            answer: plan.answer(),
            blocks: ends.map(block).collect(),
        }
    }

    /// One of every length, and all numbers of older blocks about two bounds.
    fn all(random: &mut Random) -> Vec<Base> {
        let mut all = vec![];
        for length in 60..=200 {
            let counts = match length {
                63..=65 | 127..=129 => 0..=LEVEL,
                _ => {
                    let count = random.within(0, LEVEL);
                    count..=count
                }
            };
            all.extend(counts.map(|count| Base::new(random, count, length)));
        }
        all
    }

    /// The packet with a part laid over its text that is refused.
    fn bad(&self, random: &mut Random, place: usize, part: &[u8]) -> Case {
        let mut packet = self.packet.clone();
        lay(&mut packet, place, part);
        Case::refused(random, packet, 21)
    }

    /// The packet with a letter laid over its text, good inside a block only;
    /// none where it would pass the end.
    fn whole(&self, random: &mut Random, place: usize, letter: Letter) -> Option<Case> {
        let end = place + letter.bytes.len();
        if place < self.blocks[0].start || end > self.answer.end {
            return None;
        }
        let mut case = self.bad(random, place, letter.bytes);
        let holds = |block: &Range<usize>| block.start <= place && end <= block.end;
        if self.blocks.iter().any(holds) {
            case.known = Some(Ok(self.answer));
        }
        Some(case)
    }
}

/// Anywhere in a text, every other time about a multiple of 16.
fn border(random: &mut Random, length: usize) -> usize {
    match random.once_in(2) {
        true => random.within(0, length),
        false => {
            let above = 16 * random.within(0, length / 16) + random.below(3);
            above.saturating_sub(1).min(length)
        }
    }
}

/// What a packet and a place in one of its blocks lead to, for every
/// place of all packets.
fn at_each_place(
    random: &mut Random,
    case: impl Fn(&mut Random, &Base, &Range<usize>, usize) -> Option<Case>,
) -> Vec<Case> {
    let mut cases = vec![];
    for base in Base::all(random) {
        for block in &base.blocks {
            for place in block.clone() {
                cases.extend(case(random, &base, block, place));
            }
        }
    }
    cases
}

/// A byte that no letter begins with.
pub fn bad_bytes(random: &mut Random) -> Vec<Case> {
    at_each_place(random, |random, base, _, place| {
        let byte = random.pick(&BYTES).bytes;
        Some(base.bad(random, place, byte))
    })
}

/// A letter that is cut by ASCII or by its block's end.
pub fn cut_letters(random: &mut Random) -> Vec<Case> {
    at_each_place(random, |random, base, block, place| {
        let cut = random.pick(&CUT).bytes;
        let fits = cut.len().min(block.end - place);
        Some(base.bad(random, place, &cut[..fits]))
    })
}

/// A letter whose bytes are parted by ASCII, where the block has room.
pub fn parted_letters(random: &mut Random) -> Vec<Case> {
    at_each_place(random, |random, base, block, place| {
        let letter = random.pick(&WHOLE).bytes;
        let (head, tail) = letter.split_at(random.within(1, letter.len() - 1));
        let room = (block.end - place).saturating_sub(letter.len());
        let any = random.within(0, room);
        let run = random.pick(&[16, 32, 64, any, any, any]).min(room);
        if run == 0 {
            return None;
        }
        let mut case = base.bad(random, place, head);
        lay(&mut case.packet, place + head.len() + run, tail);
        Some(case)
    })
}

/// A whole letter, be it inside a block or not.
pub fn whole_letters(random: &mut Random) -> Vec<Case> {
    at_each_place(random, |random, base, _, place| {
        let letter = random.pick(&WHOLE);
        base.whole(random, place, letter)
    })
}

/// Each letter wherever it touches the end of a block or lies across it.
pub fn letters_at_ends(random: &mut Random) -> Vec<Case> {
    let mut cases = vec![];
    for base in Base::all(random) {
        for block in &base.blocks {
            for letter in WHOLE {
                for place in block.end - letter.bytes.len()..=block.end {
                    cases.extend(base.whole(random, place, letter));
                }
            }
        }
    }
    cases
}
