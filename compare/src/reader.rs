//! The reader's eight calls: answer, position and count against the Rust's. What a search passed over is told by `by_01`,
//! whose find and position must be the Rust's.

use crate::by_01::search_by_02;
use crate::seeded::{every, Seeded, CLASSES, CORNERS};
use crate::source::mpeg::buffer::Buffer;
use crate::tag;
use crate::tally::{hex, Tally};

const CALLS: [&str; 8] = [
    "has",
    "has_ended",
    "read",
    "align",
    "skip",
    "skip_bytes",
    "tell",
    "find_frame_sync",
];
const HAS: usize = 0;
const READ: usize = 2;
const SKIP: usize = 4;
const SKIP_BYTES: usize = 5;
const FIND_FRAME_SYNC: usize = 7;

/// 01's limits: the longest stream in bytes, the farthest position in bits.
const LONGEST: usize = 16_777_216;
const FARTHEST: usize = 134_217_736;

/// 01's number, the value, and the bit position afterwards; of a search the byte of the FF, and the bytes passed over.
type Answer = (u32, [usize; 4]);

/// A stream, on both sides.
struct Lent {
    stream: Vec<u8>,
    buffer: Buffer,
    name: String,
}

impl Lent {
    fn new(stream: Vec<u8>, name: String) -> Self {
        let buffer = Buffer::new(stream.clone());
        Lent { stream, buffer, name }
    }

    /// What the Rust gives: the value and the position afterwards. It has no numbers.
    fn source(&mut self, call: usize, at: usize, argument: usize) -> [usize; 2] {
        let buffer = &mut self.buffer;
        buffer.stand(at);
        let value = match call {
            HAS => buffer.has(argument) as usize,
            1 => buffer.has_ended() as usize,
            READ => buffer.read(argument) as usize,
            3 => {
                buffer.align();
                0
            }
            SKIP => {
                buffer.skip(argument);
                0
            }
            SKIP_BYTES => buffer.skip_bytes(argument as u8),
            6 => buffer.tell(),
            _ => buffer.find_frame_sync() as usize,
        };
        [value, buffer.at()]
    }

    /// The bit at a place, read without the Rust.
    fn bit(&self, place: usize) -> usize {
        (self.stream[place / 8] >> (7 - place % 8) & 1) as usize
    }

    /// What the Rust's `read` does where the port refuses with 11 or 12 (docs/DIFFERENCES.md, P2 and P3): with enough
    /// bits left it moves on and gives the low 32, with too few it gives 0 and stays.
    fn wide_or_short(&self, at: usize, width: usize) -> [usize; 2] {
        if (self.stream.len() * 8).saturating_sub(at) < width {
            return [0, at];
        }
        let end = at + width;
        let low = (end - width.min(32)..end).fold(0, |value, place| value * 2 + self.bit(place));
        [low, end]
    }

    /// The number by which the port refuses this call where the Rust answers, or 0, with its place in the list.
    fn listed(&mut self, call: usize, at: usize, argument: usize) -> (u32, &'static str) {
        self.buffer.stand(at);
        if LONGEST < self.stream.len() {
            (8, "listed, P1: refused with 8, longer than 16,777,216 bytes")
        } else if FARTHEST < at {
            (10, "listed, P5: refused with 10, position past 134,217,736")
        } else if call == READ && 32 < argument {
            (11, "listed, P2: read refused with 11, the Rust gives the low 32 bits")
        } else if call == READ && !self.buffer.has(argument) {
            (12, "listed, P3: read refused with 12, the Rust gives 0")
        } else {
            (0, CALLS[call])
        }
    }

    /// What the port must give: the Rust's answer, and behind it a search's two numbers. Beside it what the Rust must give.
    fn with_search(&self, call: usize, at: usize, source: [usize; 2]) -> ([usize; 4], [usize; 2]) {
        if call != FIND_FRAME_SYNC {
            return ([source[0], source[1], 0, 0], source);
        }
        let told = search_by_02(&self.stream, at);
        (told, [told[0], told[1]])
    }

    /// Compares one call, and gives the position at which both go on.
    fn compare(&mut self, tally: &mut Tally, call: usize, at: usize, argument: usize) -> usize {
        let ours = tag::reader(call as u32, &self.stream, at, argument);
        let source = self.source(call, at, argument);
        let (number, group) = self.listed(call, at, argument);
        let say = || {
            format!(
                "{} of {} at bit {at} in {}, {}",
                CALLS[call],
                argument,
                self.name,
                hex(&self.stream)
            )
        };
        if number == 0 {
            let (told, by_01) = self.with_search(call, at, source);
            tally.same(group, (ours, by_01), ((0, told), source), say);
            return source[1];
        }
        let expected: (Answer, [usize; 2]) = ((number, [0, at, 0, 0]), self.wide_or_short(at, argument));
        let by_the_rust = if call == READ { source } else { expected.1 };
        tally.same(group, (ours, by_the_rust), expected, say);
        at
    }

    /// Compares every call at one position, those with a width at each of `widths`.
    fn compare_at(&mut self, tally: &mut Tally, at: usize, widths: impl Iterator<Item = usize>) {
        for width in widths {
            for call in [HAS, READ, SKIP] {
                self.compare(tally, call, at, width);
            }
        }
        for byte in CORNERS {
            self.compare(tally, SKIP_BYTES, at, byte as usize);
        }
        for call in [1, 3, 6, FIND_FRAME_SYNC] {
            self.compare(tally, call, at, 0);
        }
    }
}

/// Every stream of up to three corner bytes, at every position up to 17 bits past the end, at every width to 40.
fn short_streams(tally: &mut Tally) {
    for length in 0..=3 {
        every(&CORNERS, length, |stream| {
            let end = stream.len() * 8;
            tally.stream("every stream of up to 3 bytes, 00 01 7F 80 FC FD FE FF");
            let mut lent = Lent::new(stream, "short streams".to_string());
            for at in 0..=end + 17 {
                lent.compare_at(tally, at, 0..=40);
            }
        });
    }
}

/// Streams of 24 bytes, long enough for a read to take 8 at once: every position, every width to 40.
fn middle_streams(tally: &mut Tally) {
    for seed in 0..60 {
        let stream = Seeded::new(seed).bytes(24, Seeded::byte);
        tally.stream("24 bytes at every position");
        let mut lent = Lent::new(stream, format!("24 bytes, seed {seed}"));
        for at in 0..=24 * 8 {
            lent.compare_at(tally, at, 0..=40);
        }
    }
}

/// Around the longest stream and the farthest position.
fn limits(tally: &mut Tally) {
    for length in [0, 1, 9, LONGEST - 1, LONGEST, LONGEST + 1] {
        let mut stream = vec![0; length];
        stream
            .iter_mut()
            .rev()
            .take(5)
            .zip([0xA0, 0xFD, 0xFF, 0x5A, 0x01])
            .for_each(|(place, byte)| *place = byte);
        tally.stream("lengths around 01's limit");
        let mut lent = Lent::new(stream, format!("limits, length {length}"));
        let end = length * 8;
        for at in [0]
            .into_iter()
            .chain(end.saturating_sub(70)..=end + 9)
            .chain(FARTHEST - 9..=FARTHEST + 9)
        {
            lent.compare_at(tally, at, [0, 1, 16, 32, 33, 64, end, end + 1, usize::MAX].into_iter());
        }
    }
}

/// Seeded calls one after the other, both sides going on from where the call left them.
fn walks(tally: &mut Tally, count: usize) {
    const STEPS: usize = 100;
    for seed in 0..count.div_ceil(STEPS) as u64 {
        let s = &mut Seeded::new(seed);
        let (class, make) = CLASSES[seed as usize % CLASSES.len()];
        tally.stream(class);
        let mut lent = Lent::new(make(s), format!("{class}, seed {seed}"));
        let end = lent.stream.len() * 8;
        let mut at = s.below(9);
        for _ in 0..STEPS {
            let call = s.below(CALLS.len());
            let argument = match s.below(8) {
                _ if call == SKIP_BYTES => s.one_of(&CORNERS) as usize,
                0 => s.below(41),
                1 => (end + s.below(3)).saturating_sub(at + s.below(3)),
                2 => s.below(33),
                _ => s.below(17),
            };
            at = lent.compare(tally, call, at, argument);
            if s.below(16) == 0 || end + 99 < at {
                at = s.below(end + 20);
            }
        }
    }
}

pub fn compare(tally: &mut Tally, count: usize) {
    println!(
        "reader: short streams at every position and every width to 40, lengths and positions around 01's limits,"
    );
    println!("and {count} seeded calls one after the other");
    short_streams(tally);
    middle_streams(tally);
    limits(tally);
    walks(tally, count);
}
