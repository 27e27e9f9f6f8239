//! What is printed for stored captures of RED packets.

use independent::LEVEL;

/// Each of the packets has two older blocks: at level 1 all are refused.
pub fn red(text: &str, counts: &str, packets: usize) -> String {
    match LEVEL {
        1 => format!("\npackets 0 late 0 lost 0 refused {packets}\n"),
        _ => format!("{text}\n{counts}\n"),
    }
}

pub fn lossy() -> String {
    let text = "Hello, worldé€😀x\u{fffd}\u{fffd}\n";
    red(text, "packets 8 late 0 lost 2 refused 1", 9)
}
