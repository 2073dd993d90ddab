//! Seeded numbers and streams. The same seed gives the same stream on every machine.
#![allow(dead_code)]

/// Xorshift, 64 bits.
pub struct Seeded(u64);

impl Seeded {
    /// Any seed will do: it is spread over all bits first, and 0 is kept away from the state.
    pub fn new(seed: u64) -> Self {
        let spread = (seed ^ 0x9E37_79B9_7F4A_7C15).wrapping_mul(0xBF58_476D_1CE4_E5B9);
        Seeded((spread ^ (spread >> 31)) | 1)
    }

    fn next(&mut self) -> u64 {
        self.0 ^= self.0 << 13;
        self.0 ^= self.0 >> 7;
        self.0 ^= self.0 << 17;
        self.0.wrapping_mul(0x2545_F491_4F6C_DD1D) >> 16
    }

    /// A number below `end`.
    pub fn below(&mut self, end: usize) -> usize {
        (self.next() % end as u64) as usize
    }

    pub fn one_of<T: Copy>(&mut self, choices: &[T]) -> T {
        choices[self.below(choices.len())]
    }

    pub fn byte(&mut self) -> u8 {
        self.below(256) as u8
    }

    pub fn bytes(&mut self, length: usize, mut make: impl FnMut(&mut Self) -> u8) -> Vec<u8> {
        (0..length).map(|_| make(self)).collect()
    }
}

/// The bytes around which the reader and the search decide.
pub const CORNERS: [u8; 8] = [0x00, 0x01, 0x7F, 0x80, 0xFC, 0xFD, 0xFE, 0xFF];

/// A class of streams: its name, and a stream of it.
pub type Class = (&'static str, fn(&mut Seeded) -> Vec<u8>);

pub const CLASSES: [Class; 5] = [
    ("any bytes", |s| {
        let length = s.below(65);
        s.bytes(length, Seeded::byte)
    }),
    ("corner bytes", |s| {
        let length = s.below(65);
        s.bytes(length, |s| s.one_of(&CORNERS))
    }),
    ("runs of one byte", |s| {
        let mut stream = Vec::new();
        for _ in 0..s.below(6) {
            let byte = s.one_of(&CORNERS);
            let length = s.below(20);
            stream.extend(vec![byte; length]);
        }
        stream
    }),
    ("zeros, then a header", |s| {
        let mut stream = vec![0; s.below(12)];
        stream.extend(header(s));
        let rest = s.below(20);
        stream.extend(s.bytes(rest, Seeded::byte));
        stream
    }),
    ("headers among junk", |s| {
        let mut stream = Vec::new();
        for _ in 0..1 + s.below(4) {
            let junk = s.below(10);
            stream.extend(s.bytes(junk, |s| if s.below(3) == 0 { s.byte() } else { s.one_of(&CORNERS) }));
            let mut header = header(s);
            header.truncate(1 + s.below(6));
            stream.extend(header);
        }
        stream
    }),
];

/// FF FC or FF FD, two bytes of fields that are taken three times in four, and a check word.
pub fn header(s: &mut Seeded) -> Vec<u8> {
    let rates = if s.below(4) == 0 {
        s.byte()
    } else {
        (1 + s.below(14) << 4 | s.below(3) << 2 | s.below(4)) as u8
    };
    vec![0xFF, s.one_of(&[0xFC, 0xFD]), rates, s.byte(), s.byte(), s.byte()]
}

/// Every stream of `length` bytes over `alphabet`, one after the other.
pub fn every(alphabet: &[u8], length: u32, mut each: impl FnMut(Vec<u8>)) {
    for number in 0..alphabet.len().pow(length) {
        let place = |i| alphabet[number / alphabet.len().pow(i) % alphabet.len()];
        each((0..length).map(place).collect());
    }
}
