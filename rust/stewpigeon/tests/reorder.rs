//! A whole line over a way that changes the order of packets and loses some:
//! the caller owns the held packet, and drives the receiver.

use stewpigeon::{
    HoldingReceiver, HoldingStep, LossMark, Receiver, Refusal, Sender, Settings, Step, Which,
};

const SETTINGS: Settings = Settings {
    level: 1,
    buffering: Settings::BUFFERING,
    rate: Settings::RATE,
    t140: 98,
    red: 100,
    sequence: 65_534,
    timestamp: 1000,
    source: 7,
};

/// Sends each word by a packet of its own, 300 ms after the one before it.
fn sent(sequence: u16, words: &[&str]) -> Vec<Vec<u8>> {
    let mut sender = Sender::open(Settings {
        sequence,
        ..SETTINGS
    })
    .unwrap();
    let mut space = [0; Sender::LONGEST_PACKET];
    let mut packets = vec![];
    for (k, word) in words.iter().enumerate() {
        let clock = SETTINGS.buffering * k as u64;
        sender.offer(clock, word.as_bytes()).unwrap();
        let packet = sender.clock(clock, &mut space).unwrap();
        packets.push(packet.expect("a packet is due").to_vec());
    }
    packets
}

/// A recorder's side of a line.
struct Recorder {
    receiver: HoldingReceiver,
    /// The bytes of the packet held.
    held: Vec<u8>,
    record: Vec<u8>,
}

impl Recorder {
    fn open() -> Recorder {
        Recorder {
            receiver: HoldingReceiver::open(SETTINGS.t140, SETTINGS.red).unwrap(),
            held: vec![],
            record: vec![],
        }
    }

    fn take(&mut self, clock: u64, packet: &[u8]) -> Result<(), Refusal> {
        let mut again = true;
        while again {
            let step = self.receiver.step(clock, &self.held, packet)?;
            write(&mut self.record, step);
            again = step.again();
            if step.keep() == Which::New {
                self.held = packet.to_vec();
            }
        }
        self.wait(clock)
    }

    fn wait(&mut self, clock: u64) -> Result<(), Refusal> {
        while write(&mut self.record, self.receiver.wait(clock, &self.held)?) {}
        Ok(())
    }
}

/// Writes what is given, if anything is.
fn write(record: &mut Vec<u8>, step: HoldingStep) -> bool {
    let (loss, text) = match step {
        HoldingStep::Forward { loss, text, .. } => (loss, text),
        HoldingStep::Break { text, .. } => (0, text),
        HoldingStep::Waits { .. } | HoldingStep::Late { .. } | HoldingStep::Jump { .. } => {
            return false;
        }
    };
    record.extend(LossMark::BYTES.repeat(loss.into()));
    record.extend(text);
    true
}

/// What a receiver records that does not hold.
fn plain(packets: &[&[u8]]) -> Vec<u8> {
    let mut receiver = Receiver::open(SETTINGS.t140, SETTINGS.red).unwrap();
    let mut record = vec![];
    for packet in packets {
        let (loss, text) = match receiver.step(packet).unwrap() {
            Step::Forward { loss, text, .. } => (loss, text),
            Step::Break { text, .. } => (0, text),
            Step::Late { .. } | Step::Jump { .. } => continue,
        };
        record.extend(LossMark::BYTES.repeat(loss.into()));
        record.extend(text);
    }
    record
}

#[test]
fn packets_out_of_order() {
    let packets = sent(65_534, &["buy ", "400 ", "May ", "wheat ", "at ", "612"]);
    let order = [
        (10, 0),
        (910, 3),
        (920, 1),
        (930, 2),
        (1_510, 5),
        (1_520, 4),
    ];
    let mut recorder = Recorder::open();
    for (clock, k) in order {
        recorder.take(clock, &packets[k]).unwrap();
    }
    assert_eq!(recorder.record, b"buy 400 May wheat at 612");
    assert_eq!(recorder.receiver.held(), None);
    let arrived = order.map(|(_, k)| &packets[k][..]);
    assert_eq!(plain(&arrived), "buy \u{fffd}May wheat at 612".as_bytes());
}

/// The time of a held packet passes whatever else arrives.
#[test]
fn packets_that_never_come() {
    let packets = sent(65_534, &["buy ", "400 ", "May ", "wheat "]);
    let mut recorder = Recorder::open();
    recorder.take(10, &packets[0]).unwrap();
    recorder.take(900, &packets[3]).unwrap();
    assert_eq!(recorder.receiver.arrival(), Some(900));
    assert_eq!(recorder.take(1_000, &[]), Err(Refusal::Short));
    recorder.take(1_000, &packets[0]).unwrap();
    recorder.wait(1_899).unwrap();
    assert_eq!(recorder.record, b"buy ");
    recorder.wait(1_900).unwrap();
    assert_eq!(recorder.record, "buy \u{fffd}May wheat ".as_bytes());
}

#[test]
fn a_sender_begins_anew() {
    let packets = sent(65_534, &["buy ", "400 ", "May ", "wheat "]);
    let anew = sent(20_000, &["sell ", "corn"]);
    let mut recorder = Recorder::open();
    recorder.take(10, &packets[0]).unwrap();
    recorder.take(900, &packets[3]).unwrap();
    recorder.take(1_000, &anew[0]).unwrap();
    assert_eq!(recorder.record, b"buy ");
    recorder.take(1_300, &anew[1]).unwrap();
    let record = "buy \u{fffd}May wheat sell corn";
    assert_eq!(recorder.record, record.as_bytes());
    assert_eq!(recorder.receiver.held(), None);
}
