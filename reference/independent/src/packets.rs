//! Packets for tests, of source 11223344 hex, RED 100 over T140 98.

/// Texts for so many older blocks, as many as some level allows.
pub fn older(count: usize) -> &'static [&'static [u8]] {
    const ALL: [&[u8]; 7] = [b"1", b"", "€".as_bytes(), b"4", b"five", b"6", b"7"];
    &ALL[..count]
}

/// A RED packet; its offsets count down to 1.
pub fn red(sequence: u16, older: &[&[u8]], primary: &[u8]) -> Vec<u8> {
    let mut packet = vec![0x80, 0x64];
    packet.extend(sequence.to_be_bytes());
    packet.extend([0, 0, 0, 0, 0x11, 0x22, 0x33, 0x44]);
    for (block, back) in older.iter().zip((1..=older.len() as u8).rev()) {
        packet.extend([0xe2, 0, 4 * back, block.len() as u8]);
    }
    packet.push(0x62);
    packet.extend(older.concat());
    packet.extend(primary);
    packet
}
