//! Journals that are broken, in every way.

use super::{broken, open, t140, Case};
use crate::journal::{OPEN, PIECE, TIME};
use crate::recorder::Recorder;

pub fn cases() -> Vec<Case> {
    [starts(), kinds(), pieces(), contents(), early()]
        .into_iter()
        .flatten()
        .collect()
}

fn empty() -> Recorder {
    Recorder::default()
}

/// A journal whose text so far is A.
fn with_a() -> Recorder {
    open().packet(&t140(1, "A"))
}

/// The same, and a packet of two pieces has begun.
fn begun() -> Recorder {
    with_a().length(20)
}

/// The packet's first piece is there too.
fn half() -> Recorder {
    begun().piece(&[b'b'; 16])
}

fn starts() -> Vec<Case> {
    let types = |t140, red| Recorder::open(t140, red).packet(&super::t140(1, "A")).end();
    vec![
        broken("empty", vec![], ""),
        broken("end-without-open", empty().end(), ""),
        broken("time-end-without-open", empty().time(1).end(), ""),
        broken(
            "packet-before-open",
            empty().packet(&t140(1, "A")).end(),
            "",
        ),
        broken("length-0-before-open", empty().packet(&[]).end(), ""),
        broken("piece-before-open", empty().piece(&[0; 16]).end(), ""),
        broken("types-95-100", types(95, 100), ""),
        broken("types-98-95", types(98, 95), ""),
        broken("types-128-100", types(128, 100), ""),
        broken("types-98-128", types(98, 128), ""),
        broken("types-98-98", types(98, 98), ""),
        broken("types-0-0", types(0, 0), ""),
        broken("types-226-100", types(226, 100), ""),
    ]
}

fn kinds() -> Vec<Case> {
    let kind = |kind| with_a().record(kind, &[]).end();
    let second = with_a().and_open(98, 100).packet(&t140(2, "B"));
    vec![
        broken(
            "kind-5-first",
            empty().record(5, &[]).and_open(98, 100).end(),
            "",
        ),
        broken("kind-5", kind(5), "A"),
        broken("kind-128", kind(128), "A"),
        broken("kind-255", kind(255), "A"),
        broken("open-twice", open().and_open(98, 100).end(), ""),
        broken("open-twice-after-packet", second.end(), "A"),
        broken(
            "open-twice-other-types",
            with_a().and_open(99, 101).end(),
            "A",
        ),
        broken(
            "open-twice-after-time",
            with_a().time(1).and_open(98, 100).end(),
            "A",
        ),
        broken("piece-without-packet", open().piece(b"x").end(), ""),
        broken("piece-too-many", with_a().piece(&[]).end(), "A"),
        broken(
            "piece-after-length-0",
            with_a().packet(&[]).piece(&[]).end(),
            "A",
        ),
        broken(
            "piece-after-full-piece",
            with_a().packet(&[0; 16]).piece(&[]).end(),
            "A",
        ),
    ]
}

fn pieces() -> Vec<Case> {
    let rest = |recorder: Recorder| recorder.piece(b"bbbb").end();
    vec![
        broken(
            "time-before-pieces",
            rest(begun().time(1).piece(&[b'b'; 16])),
            "A",
        ),
        broken("time-between-pieces", rest(half().time(1)), "A"),
        broken("end-before-pieces", begun().end(), "A"),
        broken("end-between-pieces", half().end(), "A"),
        broken("open-between-pieces", rest(half().and_open(98, 100)), "A"),
        broken(
            "packet-before-pieces",
            begun().packet(&t140(2, "B")).end(),
            "A",
        ),
        broken(
            "packet-between-pieces",
            half().packet(&t140(2, "B")).end(),
            "A",
        ),
        broken("kind-5-between-pieces", rest(half().record(5, &[])), "A"),
    ]
}

fn contents() -> Vec<Case> {
    let long = |length| {
        let pieces = (0..usize::from(length).div_ceil(16))
            .fold(with_a().length(length), |r, _| r.piece(&[b'b'; 16]));
        pieces.end()
    };
    let filled = |length, piece: &[u8]| with_a().length(length).piece(piece).end();
    let good = t140(2, "B");
    let first = [&good[..], &[1, 0, 0]].concat();
    let last = [&good[..], &[0, 0, 1]].concat();
    let second = half().piece(&[b'b', b'b', b'b', b'b', 0, 0, 0x80]).end();
    vec![
        broken("length-1489", long(1489), "A"),
        broken("length-1536", long(1536), "A"),
        broken("length-65535", with_a().length(65_535).end(), "A"),
        broken("filling-first-byte", filled(13, &first), "A"),
        broken("filling-last-byte", filled(13, &last), "A"),
        broken("filling-second-piece", second, "A"),
        broken("filling-of-refused", filled(1, &[0x80, 0x62]), "A"),
        broken("filling-15-zeros-wanted", filled(1, &[0xff; 16]), "A"),
    ]
}

fn early() -> Vec<Case> {
    let kind = |recorder: Recorder, kind, body: usize| recorder.record(kind, &vec![0; body]).bytes;
    vec![
        broken("early-after-times", empty().time(1).bytes, ""),
        broken("early-in-first-time", kind(empty(), TIME, 3), ""),
        broken("early-in-open-0", kind(empty(), OPEN, 0), ""),
        broken("early-in-open-1", empty().record(OPEN, &[98]).bytes, ""),
        broken("early-after-open", open().bytes, ""),
        broken("early-after-packet", with_a().bytes, "A"),
        broken("early-in-packet-0", with_a().record(2, &[]).bytes, "A"),
        broken("early-in-packet-1", with_a().record(2, &[0]).bytes, "A"),
        broken("early-before-pieces", begun().bytes, "A"),
        broken("early-between-pieces", half().bytes, "A"),
        broken("early-in-piece-0", kind(half(), PIECE, 0), "A"),
        broken("early-in-piece-4", half().record(PIECE, b"bbbb").bytes, "A"),
        broken("early-in-piece-15", kind(half(), PIECE, 15), "A"),
        broken("early-in-time-0", kind(with_a(), TIME, 0), "A"),
        broken("early-in-time-7", kind(with_a(), TIME, 7), "A"),
        broken("early-after-time", with_a().time(1).bytes, "A"),
    ]
}
