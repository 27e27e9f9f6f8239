//! What is printed for a journal, as a whole and as it comes.

use std::cell::RefCell;
use std::collections::VecDeque;
use std::io::{self, Read, Write};

use independent::journal::{read, Break, Finish, LIMIT};
use independent::journals::{all, cases, t140, WHOLE};
use independent::left_out;
use independent::random::Random;
use independent::recorder::Recorder;
use independent::transcript::{run, run_within, transcript, transcript_within};

/// Gives a journal in pieces, and may not be read once it has given enough.
struct Pieces<'a> {
    rest: &'a [u8],
    /// How many more bytes show how the journal finishes; none if only its
    /// early end does.
    enough: Option<usize>,
    random: Random,
    longest: usize,
}

impl Read for Pieces<'_> {
    fn read(&mut self, space: &mut [u8]) -> io::Result<usize> {
        assert_ne!(self.enough, Some(0), "read past the end or the break");
        if self.random.once_in(10) {
            return Err(io::ErrorKind::Interrupted.into());
        }
        let longest = self.longest.min(space.len());
        let piece = self.random.within(1, longest).min(self.rest.len());
        let (given, rest) = self.rest.split_at(piece);
        space[..piece].copy_from_slice(given);
        self.rest = rest;
        self.enough = self.enough.map(|enough| enough.saturating_sub(piece));
        Ok(piece)
    }
}

fn streamed(journal: &[u8]) -> Vec<u8> {
    let mut printed = vec![];
    run(journal, &mut printed).unwrap();
    printed
}

#[test]
fn whole_case() {
    let printed = transcript(&WHOLE);
    assert_eq!(printed, b"A\npackets 1 late 0 lost 0 refused 0\n");
    assert_eq!(streamed(&WHOLE), printed);
}

#[test]
fn all_cases() {
    let cases = all();
    let mut names: Vec<_> = cases.iter().map(|case| case.name).collect();
    names.sort_unstable();
    names.dedup();
    assert_eq!(names.len(), cases.len(), "a name stands twice");
    for case in &cases {
        // Something else is printed where a higher level is needed.
        let due = !left_out(case.name, case.level);
        let printed = transcript(&case.journal);
        assert_eq!(printed == case.printed, due, "{}", case.name);
        assert!(streamed(&case.journal) == printed, "{}", case.name);
    }
    for why in Break::ALL {
        let broken = |journal| read(journal).finish == Finish::Broken(why);
        assert!(cases.iter().any(|case| broken(&case.journal)), "{why:?}");
    }
}

#[test]
fn in_pieces() {
    for case in cases() {
        for (seed, longest) in [(1, 1), (2, 3), (3, 20), (4, 2000)] {
            let read = read(&case.journal);
            let early = read.finish == Finish::Broken(Break::Early);
            let pieces = Pieces {
                rest: &case.journal,
                enough: (!early).then_some(read.used),
                random: Random::new(seed),
                longest,
            };
            let mut printed = vec![];
            run(pieces, &mut printed).unwrap();
            assert!(printed == case.printed, "{} by {longest}", case.name);
        }
    }
}

/// Random bytes, most of them small, so that they often are kinds.
#[test]
fn whole_and_streamed_agree() {
    let mut random = Random::new(41);
    for round in 0..20_000 {
        let mut journal = match round % 2 {
            0 => Recorder::open(98, 100).bytes,
            _ => vec![],
        };
        for _ in 0..random.below(60) {
            let byte = random.byte();
            journal.push(random.pick(&[0, 1, 2, 3, 4, 4, 98, 100, byte]));
        }
        let printed = transcript(&journal);
        assert_eq!(streamed(&journal), printed, "{journal:02x?}");
        let limit = random.below(journal.len() + 2) as u64;
        let within = transcript_within(limit, &journal);
        let mut streamed = vec![];
        run_within(limit, &journal[..], &mut streamed).unwrap();
        assert_eq!(streamed, within, "{limit} of {journal:02x?}");
    }
}

#[test]
fn limit() {
    assert_eq!(LIMIT, 1_099_511_627_776);
    let journal = Recorder::open(98, 100).packet(&t140(1, "A")).end();
    let length = journal.len() as u64;
    let whole = transcript(&journal);
    assert_eq!(transcript_within(length, &journal), whole);
    let broken = b"A\njournal broken\n";
    assert_eq!(transcript_within(length - 1, &journal), broken);
    assert_eq!(transcript_within(length - 2, &journal), &broken[1..]);
    // Nothing is read past the limit, though there is no end of input.
    let mut printed = vec![];
    run_within(length - 1, Endless(journal), &mut printed).unwrap();
    assert_eq!(printed, broken);
}

/// A journal and then times without end.
struct Endless(Vec<u8>);

impl Read for Endless {
    fn read(&mut self, space: &mut [u8]) -> io::Result<usize> {
        let given = self.0.len().min(space.len());
        space[..given].copy_from_slice(&self.0[..given]);
        self.0.drain(..given);
        space[given..].fill(4);
        Ok(space.len())
    }
}

/// Looks at what is printed whenever more is asked for.
struct Steps<'a> {
    steps: VecDeque<(Vec<u8>, &'a str)>,
    printed: &'a RefCell<Vec<u8>>,
}

impl Read for Steps<'_> {
    fn read(&mut self, space: &mut [u8]) -> io::Result<usize> {
        let (bytes, printed) = self.steps.pop_front().expect("no more is needed");
        assert_eq!(*self.printed.borrow(), printed.as_bytes());
        space[..bytes.len()].copy_from_slice(&bytes);
        Ok(bytes.len())
    }
}

struct Shared<'a>(&'a RefCell<Vec<u8>>);

impl Write for Shared<'_> {
    fn write(&mut self, bytes: &[u8]) -> io::Result<usize> {
        self.0.borrow_mut().write(bytes)
    }

    fn flush(&mut self) -> io::Result<()> {
        Ok(())
    }
}

#[test]
fn text_is_not_held_back() {
    let printed = RefCell::default();
    let opened = Recorder::open(98, 100).packet(&t140(1, "A")).bytes;
    let more = Recorder::default().packet(&t140(2, "B")).bytes;
    let steps = [
        (opened, ""),
        (more, "A"),
        (vec![2], "AB"),
        (vec![0], "AB"),
        (vec![0, 0], "AB"),
    ];
    let input = Steps {
        steps: steps.into(),
        printed: &printed,
    };
    run(input, Shared(&printed)).unwrap();
    assert!(printed.borrow().starts_with(b"AB\npackets 2 "));
}

#[test]
fn failures_are_told() {
    struct Failing;
    impl Read for Failing {
        fn read(&mut self, _: &mut [u8]) -> io::Result<usize> {
            Err(io::ErrorKind::PermissionDenied.into())
        }
    }
    let error = run(Failing, vec![]).unwrap_err();
    assert_eq!(error.kind(), io::ErrorKind::PermissionDenied);
    let mut short = [0; 5];
    let error = run(&WHOLE[..], &mut short[..]).unwrap_err();
    assert_eq!(error.kind(), io::ErrorKind::WriteZero);
}
