//! What was called and answered.

use std::borrow::Cow;
use std::collections::{BTreeMap, BTreeSet};
use std::fmt::{self, Display, Formatter};
use std::ops::RangeInclusive;

use super::each::{Each, Met};
use crate::say;
use independent::{refusal, LEVEL};

#[derive(Clone, Copy, Debug, PartialEq, Eq, PartialOrd, Ord)]
pub enum Call {
    ReceiverOpen,
    Step,
    WriteMarks,
    SenderOpen,
    Offer,
    Clock,
    HoldingOpen,
    HoldingStep,
    HoldingWait,
}

/// A refusal's number, or what was answered instead.
#[derive(Clone, Copy, Debug, PartialEq, Eq, PartialOrd, Ord)]
pub enum Answer {
    Done(&'static str),
    Refused(u8),
}

use Answer::{Done, Refused};

impl Call {
    pub const ALL: [Call; 9] = [
        Call::ReceiverOpen,
        Call::Step,
        Call::WriteMarks,
        Call::SenderOpen,
        Call::Offer,
        Call::Clock,
        Call::HoldingOpen,
        Call::HoldingStep,
        Call::HoldingWait,
    ];

    fn name(self) -> &'static str {
        match self {
            Call::ReceiverOpen => "receiver open",
            Call::Step => "receiver step",
            Call::WriteMarks => "write marks",
            Call::SenderOpen => "sender open",
            Call::Offer => "sender offer",
            Call::Clock => "sender clock",
            Call::HoldingOpen => "holding open",
            Call::HoldingStep => "holding step",
            Call::HoldingWait => "holding wait",
        }
    }

    /// Every answer of this call.
    fn answers(self) -> Vec<Answer> {
        let (done, refused): (&[_], &[_]) = match self {
            Call::ReceiverOpen | Call::HoldingOpen => (&["opened"], &[3]),
            Call::Step => (&["forward", "late", "jump", "break"], &refusal::ALL),
            Call::WriteMarks => (&["none", "some"], &[]),
            Call::SenderOpen => (&["opened"], &[1, 2, 3, 9]),
            Call::Offer => (&["taken"], &[1, 2, 3, 4, 5, 6, 7, 9]),
            Call::Clock => (&["sent", "quiet"], &[1, 2, 3, 5, 8, 9]),
            Call::HoldingStep => (&HOLDING_STEPS, &HOLDING_REFUSALS),
            Call::HoldingWait => (&HOLDING_WAITS, &[3, 5, 27]),
        };
        let done = done.iter().map(|name| Done(name));
        done.chain(refused.iter().map(|number| Refused(*number)))
            .collect()
    }
}

/// What an accepted step of a receiver that holds answers: whose text is given
/// and what is kept.
const HOLDING_STEPS: [&str; 10] = [
    "new",
    "new-before-held",
    "held-keep-new",
    "held-again",
    "keep-new",
    "late",
    "late-keep-held",
    "jump",
    "jump-keep-held",
    "break",
];

/// The same of a call without a packet.
const HOLDING_WAITS: [&str; 3] = ["nothing", "keep-held", "held"];

/// Every refusal of such a step.
const HOLDING_REFUSALS: [u8; 16] = [3, 5, 27, 10, 11, 12, 13, 14, 15, 16, 17, 18, 19, 20, 21, 22];

impl Call {
    /// The flags in the record of a call, each of whose values must be met in
    /// every outcome that it can have.
    fn flags(self) -> &'static [&'static str] {
        match self {
            Call::Step => &["has_source", "has_kept"],
            Call::Offer | Call::Clock => &["sent"],
            Call::HoldingStep | Call::HoldingWait => &["has_source", "has_kept", "has_held"],
            Call::ReceiverOpen | Call::WriteMarks | Call::SenderOpen | Call::HoldingOpen => &[],
        }
    }

    fn outcomes(self) -> BTreeSet<&'static str> {
        self.answers().into_iter().map(Answer::outcome).collect()
    }
}

/// The values of a flag that an outcome can have: the first accepted packet is
/// given, there is no break without a number kept, and whether a packet is
/// held can mostly be told from what is kept.
fn possible(flag: &str, outcome: &str) -> RangeInclusive<u8> {
    let set = match (flag, outcome) {
        (_, "refused") => return 0..=255,
        ("has_source", "held-keep-new" | "held-again" | "keep-new" | "break") => true,
        ("has_source", "late" | "late-keep-held" | "jump" | "jump-keep-held") => true,
        ("has_kept", "break" | "held-again") => true,
        ("has_held", "new" | "keep-new" | "late" | "jump" | "break" | "nothing") => false,
        ("has_held", _) => true,
        _ => return 0..=255,
    };
    if set {
        1..=255
    } else {
        0..=0
    }
}

impl Answer {
    /// An opening was answered with this number.
    pub fn opened(number: u8) -> Answer {
        match number {
            0 => Done("opened"),
            number => Refused(number),
        }
    }

    fn outcome(self) -> &'static str {
        match self {
            Done(name) => name,
            Refused(_) => "refused",
        }
    }
}

impl Display for Answer {
    fn fmt(&self, f: &mut Formatter<'_>) -> fmt::Result {
        match self {
            Done(name) => write!(f, "{name}"),
            Refused(number) => write!(f, "{number}"),
        }
    }
}

/// How often each answer was given to each call, how often something that
/// must be met was, with which numbers, and which values of flags were.
#[derive(Default)]
pub struct Tally {
    answers: BTreeMap<(Call, Answer), usize>,
    met: BTreeMap<Cow<'static, str>, usize>,
    each: Met,
    /// By call, flag and outcome.
    flags: BTreeMap<(Call, &'static str, &'static str), BTreeSet<u8>>,
    /// What needs a higher level.
    left_out: Vec<&'static str>,
}

impl Tally {
    pub fn add(&mut self, call: Call, answer: Answer) {
        *self.answers.entry((call, answer)).or_default() += 1;
    }

    /// One more of what must be met, where `times` is not 0.
    pub fn meet(&mut self, what: impl Into<Cow<'static, str>>, times: impl Into<usize>) {
        *self.met.entry(what.into()).or_default() += times.into();
    }

    /// One more of what must be met with each number, with this one.
    pub fn each(&mut self, what: Each, number: usize) {
        self.each.add(what, number);
    }

    /// Whether a case is left out because it needs a higher level.
    pub fn leaves_out(&mut self, case: &'static str, level: usize) -> bool {
        let low = LEVEL < level;
        if low {
            self.left_out.push(case);
        }
        low
    }

    /// A call on a record with this value in this flag was answered so.
    pub fn flag(&mut self, call: Call, flag: &'static str, answer: Answer, value: u8) {
        let place = (call, flag, answer.outcome());
        self.flags.entry(place).or_default().insert(value);
    }

    /// How many calls of a kind there were.
    pub fn calls(&self, call: Call) -> usize {
        let of_call = self.answers.iter().filter(|((of, _), _)| *of == call);
        of_call.map(|(_, count)| count).sum()
    }

    pub fn print(&self) {
        say!("\n    calls  kind: answers (numbers are refusals)");
        for call in Call::ALL {
            let of_call = self.answers.iter().filter(|((of, _), _)| *of == call);
            let answers: Vec<String> = of_call
                .map(|((_, answer), count)| format!("{answer}:{count}"))
                .collect();
            let total = self.calls(call);
            say!("{total:>9}  {}: {}", call.name(), answers.join(" "));
        }
        for case in &self.left_out {
            say!(" left out  {case}");
        }
        self.each.print();
        say!("\n    times  met in these calls");
        for (what, count) in &self.met {
            say!("{count:>9}  {what}");
        }
        for ((call, flag, outcome), values) in &self.flags {
            let values = values.len();
            say!(
                "{values:>9}  values of {flag} in any state: {}, {outcome}",
                call.name()
            );
        }
    }

    /// The values of flags that were never met.
    fn missing_flags(&self) -> Vec<String> {
        let mut missing = vec![];
        for call in Call::ALL {
            for flag in call.flags() {
                for outcome in call.outcomes() {
                    let met = self.flags.get(&(call, flag, outcome));
                    let never = |value: &u8| !met.is_some_and(|met| met.contains(value));
                    let never: Vec<u8> = possible(flag, outcome).filter(never).collect();
                    if !never.is_empty() {
                        let call = call.name();
                        missing.push(format!("{call}, {outcome}: {flag} was never {never:?}"));
                    }
                }
            }
        }
        missing
    }

    /// What a comparison must have met and this one did not.
    pub fn missing(&self) -> Vec<String> {
        let mut missing = vec![];
        for call in Call::ALL {
            for answer in call.answers() {
                if !self.answers.contains_key(&(call, answer)) {
                    missing.push(format!("{} was never answered {answer}", call.name()));
                }
            }
        }
        let never = self.met.iter().filter(|(_, count)| **count == 0);
        missing.extend(never.map(|(what, _)| format!("never met: {what}")));
        missing.extend(self.each.missing());
        missing.extend(self.missing_flags());
        missing
    }
}
