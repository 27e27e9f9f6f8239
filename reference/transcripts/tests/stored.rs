//! The stored runs are the cases they were made from.

use independent::transcript::transcript;
use independent::LEVEL;
use transcripts::stored::{directory, load, made, sample, samples, Run};

fn same(stored: &[Run], mut made: Vec<Run>) {
    made.sort_by(|one, other| one.name.cmp(&other.name));
    assert_eq!(stored.len(), made.len());
    for (stored, made) in stored.iter().zip(&made) {
        assert_eq!(stored.name, made.name);
        assert!(stored.journal == made.journal, "{}", made.name);
        assert!(stored.printed == made.printed, "{}", made.name);
        assert_eq!(stored.level, made.level, "{}", made.name);
        let printed = transcript(&made.journal) == made.printed;
        assert_eq!(printed, made.level <= LEVEL, "{}", made.name);
    }
}

#[test]
fn stored_runs() {
    same(&load(&directory()).unwrap(), made());
    same(&load(&samples()).unwrap(), vec![sample()]);
}
