use independent::receiver::{Answer, Receiver};
use independent::{left_out, paper, read, refusal};

#[test]
fn every_case_of_the_paper() {
    for case in paper::cases() {
        let read = read(case.expected, case.t140, case.red, &case.packet);
        let holds = read.map(|packet| packet.contents());
        assert_eq!(holds, case.result, "{}", case.name);
    }
}

/// At this level something else comes of those that need a higher one.
#[test]
fn cases_left_out() {
    for case in paper::left_out() {
        assert!(left_out(case.name, case.level));
        let read = read(case.expected, case.t140, case.red, &case.packet);
        assert_eq!(read.err(), Some(refusal::OLDER_TOO_MANY), "{}", case.name);
        assert_ne!(case.result, Err(refusal::OLDER_TOO_MANY), "{}", case.name);
    }
}

#[test]
fn every_refusal_has_a_case() {
    for number in refusal::ALL {
        assert!(
            paper::cases().iter().any(|case| case.result == Err(number)),
            "{number}"
        );
    }
}

#[test]
fn blocks_are_parts_of_the_packet() {
    let cases = paper::cases();
    let case = cases.iter().find(|case| case.name == "T3").unwrap();
    let packet = read(None, 98, 100, &case.packet).unwrap();
    let older: Vec<_> = packet.older().collect();
    assert_eq!((older.len(), packet.block(&older[0])), (1, &b"A"[..]));
    assert_eq!(packet.primary(), b"");
}

/// Every case of the paper, on a fresh receiver or, where it expects a
/// source, on one that has heard it.
#[test]
fn every_case_on_a_receiver() {
    for case in paper::cases() {
        let mut receiver = match Receiver::open(case.t140, case.red) {
            Ok(receiver) => receiver,
            Err(number) => {
                assert_eq!(case.result, Err(number), "{}", case.name);
                continue;
            }
        };
        if let Some(source) = case.expected {
            let mut first = vec![0x80, 0x62, 0, 0, 0, 0, 0, 0];
            first.extend(source.to_be_bytes());
            receiver.step(&first);
        }
        let before = receiver;
        match (receiver.step(&case.packet), case.result) {
            (Answer::Refused(number), expected) => {
                assert_eq!(Err(number), expected, "{}", case.name);
                assert_eq!(receiver, before, "{}", case.name);
            }
            (Answer::Forward(answer), expected) => {
                let sequence = expected.expect(case.name).sequence;
                let distance = before.expected().map_or(0, |next| sequence - next);
                assert_eq!(answer.distance, i32::from(distance), "{}", case.name);
                assert_eq!(receiver.expected(), Some(sequence + 1), "{}", case.name);
            }
            (answer, _) => panic!("{}: {answer:?}", case.name),
        }
    }
}
