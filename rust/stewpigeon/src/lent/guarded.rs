//! Records among other bytes, all of which can be seen.

use std::marker::PhantomData;
use std::mem::{align_of, size_of};
use std::ptr::addr_of_mut;
use std::slice;

use crate::library::{
    Block, HoldingReceiver, HoldingStep, Log, Pace, Packet, Progress, Receiver, Sender, Settings,
    Step, TextAnswer, Texts,
};

mod sealed {
    /// What is made of numbers alone, so that any bytes are one.
    pub trait Numbers: Copy {
        /// Writes the numbers, and leaves the bytes between them.
        ///
        /// # Safety
        ///
        /// It can be written to the place.
        unsafe fn put(self, place: *mut Self);
    }

    pub trait Place<T> {
        /// Where the record lies, for reading.
        fn place(&self) -> *const T;

        /// Where it lies, for writing.
        fn place_mut(&mut self) -> *mut T;
    }
}

use sealed::{Numbers, Place};

/// A record of the library's, or a sender's texts or log.
pub trait Record: Numbers {}

/// What is lent as a record: the record itself, or one that is [`Guarded`].
pub trait Lend<T>: Place<T> {}

macro_rules! numbers {
    ($($number:ty),+) => {
        $(impl Numbers for $number {
            unsafe fn put(self, place: *mut Self) {
                place.write(self);
            }
        })+
    };
}

numbers!(u8, u16, u32, u64, usize, i16);

impl<T: Numbers, const N: usize> Numbers for [T; N] {
    unsafe fn put(self, place: *mut Self) {
        for (k, item) in self.into_iter().enumerate() {
            item.put(place.cast::<T>().add(k));
        }
    }
}

/// Every field is named, or this does not compile.
macro_rules! fields {
    ($record:ident: $($field:ident),+) => {
        impl Numbers for $record {
            unsafe fn put(self, place: *mut Self) {
                let $record { $($field),+ } = self;
                $($field.put(addr_of_mut!((*place).$field));)+
            }
        }
    };
}

fields!(Receiver: t140, red, has_source, has_kept, source, expected, kept);
fields!(Step: course, loss, distance, older, given, from, to);
fields!(HoldingReceiver: receiver, has_held, held, arrival, clock);
fields!(HoldingStep: of, keep, again, step);
fields!(Block: offset, at, len);
fields!(Packet: marker, sequence, timestamp, source, count, older, primary, end);
fields!(TextAnswer: is_text, characters, place);
fields!(Settings: level, buffering, rate, t140, red, sequence, timestamp, source);
fields!(Pace: next, used);
fields!(Progress: sent, last, last_text, next);
fields!(Sender: settings, clock, room, len, characters, since, lens, ats, count, pace, progress);

macro_rules! records {
    ($($record:ty),+) => {
        $(
            impl Record for $record {}

            impl Lend<$record> for $record {}

            impl Place<$record> for $record {
                #[inline]
                fn place(&self) -> *const $record {
                    self
                }

                #[inline]
                fn place_mut(&mut self) -> *mut $record {
                    self
                }
            }
        )+
    };
}

records!(Receiver, Step, HoldingReceiver, HoldingStep);
records!(Packet, TextAnswer, Sender, Texts, Log);

/// The words before a record, and those behind it.
const AROUND: usize = 4;

/// A record with 32 bytes before and behind it. Every byte can be seen, those
/// between its fields too.
///
/// ```
/// use stewpigeon::lent::{receiver_step, Guarded, Receiver, Step};
///
/// let mut receiver = Receiver::ZERO;
/// let mut step = Guarded::<Step>::filled(|| 0xa5a5_a5a5_a5a5_a5a5);
/// let before = step.clone();
/// assert_eq!(receiver_step(&mut receiver, &[], &mut step), 3);
/// assert_eq!(step.bytes(), before.bytes());
/// ```
#[derive(Clone)]
pub struct Guarded<T> {
    words: Box<[u64]>,
    record: PhantomData<T>,
}

impl<T: Record> Guarded<T> {
    const WORDS: usize = size_of::<T>().div_ceil(size_of::<u64>());

    /// Everything is filled, and so the record has any values.
    pub fn filled(mut word: impl FnMut() -> u64) -> Self {
        let words = (0..AROUND + Self::WORDS + AROUND).map(|_| word());
        Self::of(words.collect())
    }

    /// These values, and all else is filled: what lies around them, and with
    /// one word what lies between the fields.
    pub fn new(value: T, mut word: impl FnMut() -> u64) -> Self {
        let mut words = vec![word(); AROUND + Self::WORDS + AROUND];
        let (before, rest) = words.split_at_mut(AROUND);
        let behind = &mut rest[Self::WORDS..];
        before.iter_mut().chain(behind).for_each(|at| *at = word());
        let mut guarded = Self::of(words.into());
        guarded.set(value);
        guarded
    }

    fn of(words: Box<[u64]>) -> Self {
        const { assert!(align_of::<T>() <= align_of::<u64>()) };
        Guarded {
            words,
            record: PhantomData,
        }
    }

    /// Gives the fields other values.
    pub fn set(&mut self, value: T) {
        // SAFETY: the record's place lies within the words.
        unsafe { value.put(self.place_mut()) }
    }

    pub fn value(&self) -> T {
        *self.record()
    }

    /// The record where it lies.
    pub fn record(&self) -> &T {
        // SAFETY: the record's place lies within the words, and any bytes are
        // a record.
        unsafe { &*self.place() }
    }

    pub fn record_mut(&mut self) -> &mut T {
        // SAFETY: as above.
        unsafe { &mut *self.place_mut() }
    }

    /// All bytes: those of the record, those between its fields, and those
    /// around it.
    pub fn bytes(&self) -> &[u8] {
        let length = size_of::<u64>() * self.words.len();
        // SAFETY: these are the words' own bytes.
        unsafe { slice::from_raw_parts(self.words.as_ptr().cast(), length) }
    }

    /// The bytes before the record, and those behind it.
    pub fn around(&self) -> [&[u8]; 2] {
        let start = size_of::<u64>() * AROUND;
        let (before, rest) = self.bytes().split_at(start);
        [before, &rest[size_of::<T>()..]]
    }
}

impl<T: Record> Lend<T> for Guarded<T> {}

impl<T: Record> Place<T> for Guarded<T> {
    fn place(&self) -> *const T {
        self.words.as_ptr().wrapping_add(AROUND).cast()
    }

    fn place_mut(&mut self) -> *mut T {
        self.words.as_mut_ptr().wrapping_add(AROUND).cast()
    }
}
