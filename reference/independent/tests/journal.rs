//! The journal's records, and how a journal finishes.

use independent::journal::{read, read_within, Break, Finish};
use independent::journals::{cases, t140, WHOLE};
use independent::recorder::Recorder;

fn broken(journal: &[u8]) -> (Break, usize) {
    let read = read(journal);
    match read.finish {
        Finish::Broken(why) => (why, read.used),
        Finish::End => panic!("{journal:02x?} is not broken"),
    }
}

fn open() -> Recorder {
    Recorder::open(98, 100)
}

#[test]
fn whole_case() {
    let read = read(&WHOLE);
    assert_eq!(read.opening, Some((98, 100)));
    let packet = [
        0x80, 0x64, 0, 5, 0, 0, 3, 0xe8, 0x11, 0x22, 0x33, 0x44, 0xe2, 4, 0xb0, 1, 0x62, 0x41,
    ];
    assert_eq!(read.packets, [packet]);
    assert_eq!((read.finish, read.used), (Finish::End, WHOLE.len()));
}

#[test]
fn why_and_where_broken() {
    let packet = open().length(20);
    assert_eq!(broken(&[]), (Break::Early, 0));
    assert_eq!(broken(&[0, 0]), (Break::Kind, 1));
    assert_eq!(broken(&[1, 98]), (Break::Early, 2));
    assert_eq!(broken(&[1, 98, 98, 0]), (Break::Types, 3));
    assert_eq!(broken(&[2, 0, 0]), (Break::Kind, 1));
    assert_eq!(broken(&open().and_open(98, 100).end()), (Break::Kind, 4));
    assert_eq!(broken(&open().length(1489).end()), (Break::Length, 6));
    assert_eq!(broken(&packet.clone().end()), (Break::Kind, 7));
    assert_eq!(broken(&packet.clone().time(0).end()), (Break::Kind, 7));
    let filled = packet.piece(&[1; 16]).piece(&[1; 5]).end();
    assert_eq!(broken(&filled), (Break::Filling, 6 + 17 + 17));
    assert_eq!(broken(&[1, 98, 100, 77]), (Break::Kind, 4));
}

/// Every kind byte in every place.
#[test]
fn kinds_in_their_places() {
    let packet = t140(1, "A");
    let places = [
        (Recorder::default(), [1, 4].as_slice()),
        (Recorder::default().time(9), &[1, 4]),
        (open(), &[0, 2, 4]),
        (open().time(9), &[0, 2, 4]),
        (open().packet(&packet), &[0, 2, 4]),
        (open().packet(&[]), &[0, 2, 4]),
        (open().length(17), &[3]),
        (open().length(17).piece(&packet), &[3]),
    ];
    for (before, allowed) in places {
        for kind in 0..=255 {
            let journal = before.clone().record(kind, &[98, 100]).bytes;
            let read = read(&journal);
            let refused =
                read.finish == Finish::Broken(Break::Kind) && read.used == before.bytes.len() + 1;
            assert_eq!(refused, !allowed.contains(&kind), "{journal:02x?}");
        }
    }
}

#[test]
fn every_length() {
    for length in 0..=1488 {
        let packet = vec![7; length];
        let read = read(&open().packet(&packet).end());
        assert_eq!((read.finish, read.packets), (Finish::End, vec![packet]));
    }
    for length in 1489..=u16::MAX {
        let journal = open().length(length).piece(&[7; 16]).bytes;
        assert_eq!(broken(&journal), (Break::Length, 6));
    }
}

/// Each byte of the filling counts, and no byte of the packet does.
#[test]
fn every_byte_of_a_piece() {
    for length in 1..=16 {
        for place in 0..16 {
            let mut piece = [0; 16];
            piece[place] = 1;
            let read = read(&open().length(length).piece(&piece).end());
            let expected = match place < usize::from(length) {
                true => Finish::End,
                false => Finish::Broken(Break::Filling),
            };
            assert_eq!(read.finish, expected, "length {length}, byte {place}");
        }
    }
}

/// All of a journal's bytes are needed, and none after them is looked at.
#[test]
fn early_ends() {
    for case in cases() {
        let whole = read(&case.journal);
        let Finish::End = whole.finish else { continue };
        for length in 0..whole.used.min(3000) {
            assert_eq!(broken(&case.journal[..length]), (Break::Early, length));
        }
        let mut longer = case.journal[..whole.used].to_vec();
        longer.extend([5; 40]);
        assert_eq!(read(&longer), whole, "{}", case.name);
    }
}

/// The end record must be among the first bytes that the limit allows, and
/// a packet's last piece too.
#[test]
fn limit() {
    let journal = open().packet(&t140(1, "A")).packet(&t140(2, "B")).end();
    let whole = read(&journal);
    let length = journal.len() as u64;
    for limit in [length, length + 1, u64::MAX] {
        assert_eq!(read_within(limit, &journal), whole);
    }
    for (limit, packets) in [(length - 1, 2), (length - 2, 1), (length - 21, 1)] {
        let read = read_within(limit, &journal);
        assert_eq!(read.finish, Finish::Broken(Break::Early));
        assert_eq!(read.packets.len(), packets);
        assert_eq!(read.used as u64, limit);
    }
    assert_eq!(read_within(22, &journal).packets.len(), 0);
    assert_eq!(read_within(23, &journal).packets.len(), 1);
}
