//! SplitMix64: small, and the same everywhere for one seed.

pub struct Random(u64);

impl Random {
    pub fn new(seed: u64) -> Self {
        Random(seed)
    }

    pub fn number(&mut self) -> u64 {
        self.0 = self.0.wrapping_add(0x9e37_79b9_7f4a_7c15);
        let mut z = self.0;
        z = (z ^ (z >> 30)).wrapping_mul(0xbf58_476d_1ce4_e5b9);
        z = (z ^ (z >> 27)).wrapping_mul(0x94d0_49bb_1331_11eb);
        z ^ (z >> 31)
    }

    /// A number below `bound`, which is not 0.
    pub fn below(&mut self, bound: usize) -> usize {
        (self.number() % bound as u64) as usize
    }

    /// A number from `low` to `high`, both included.
    pub fn within(&mut self, low: usize, high: usize) -> usize {
        low + self.below(high - low + 1)
    }

    /// True once in `times`.
    pub fn once_in(&mut self, times: usize) -> bool {
        self.below(times) == 0
    }

    pub fn byte(&mut self) -> u8 {
        self.number() as u8
    }

    pub fn bytes(&mut self, length: usize) -> Vec<u8> {
        (0..length).map(|_| self.byte()).collect()
    }

    /// Other bytes than `bytes` gives, and faster.
    pub fn fill(&mut self, bytes: &mut [u8]) {
        for chunk in bytes.chunks_mut(8) {
            let number = self.number().to_le_bytes();
            chunk.copy_from_slice(&number[..chunk.len()]);
        }
    }

    pub fn pick<T: Copy>(&mut self, items: &[T]) -> T {
        items[self.below(items.len())]
    }

    /// Well-formed text of exactly `length` bytes, in letters of all sizes.
    pub fn text(&mut self, length: usize) -> Vec<u8> {
        let mut text = Vec::with_capacity(length);
        let plain = self.once_in(2);
        while text.len() < length {
            let letter = if plain { self.ascii() } else { self.letter() };
            if text.len() + letter.len_utf8() <= length {
                text.extend(letter.encode_utf8(&mut [0; 4]).as_bytes());
            }
        }
        text
    }

    fn ascii(&mut self) -> char {
        char::from(self.within(0x20, 0x7e) as u8)
    }

    /// A letter, each size and each bound of the UTF-8 table being likely.
    pub fn letter(&mut self) -> char {
        const BOUNDS: [u32; 18] = [
            0x0, 0x7f, 0x80, 0x7ff, 0x800, 0xfff, 0x1000, 0xcfff, 0xd000, 0xd7ff, 0xe000, 0xfeff,
            0xfffd, 0xffff, 0x10000, 0x3ffff, 0x100000, 0x10ffff,
        ];
        let code = match self.below(6) {
            0 => self.pick(&BOUNDS),
            1 => self.within(0x80, 0x7ff) as u32,
            2 => self.within(0x800, 0xffff) as u32,
            3 => self.within(0x10000, 0x10ffff) as u32,
            _ => self.below(0x80) as u32,
        };
        char::from_u32(code).unwrap_or('\u{fffd}')
    }
}
