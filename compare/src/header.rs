//! One attempt at a header: number, position, format, data size and the byte of its FF against the Rust's `decode_header`. The
//! Rust gives a size or 0; which of 01's numbers a 0 stands for is told by `by_01`, whose position and size must be the
//! Rust's, and whose FF must stand where the Rust read on behind it.
//!
//! Then the same in the strict reading (02, E3), from a state made by hand, by each of the tag's calls that make an attempt:
//! number and state. A header that `by_01` refuses with 13 the Rust is made to refuse as it refuses one with 6.

use crate::by_01::{attempt, by_01, decode_call, Reading};
use crate::firmware::{count, place, Decoder, Refusal, MEMORY, OUTPUT};
use crate::saved::knowing;
use crate::seeded::{every, header, Seeded, CLASSES};
use crate::source::traced::audio::Audio;
use crate::source::{Format, NO_FORMAT};
use crate::strict::STRICT;
use crate::tag;
use crate::tally::{hex, Tally};

/// 01's farthest position, in bits.
const FARTHEST: usize = 134_217_736;

/// Both sides, and what has been compared on them.
struct Sides<'a> {
    tally: &'a mut Tally,
    source: Audio,
}

impl Sides<'_> {
    /// Compares one attempt; gives the position and the format with which both go on.
    fn attempt(&mut self, class: &str, seed: u64, stream: &[u8], at: usize, known: Format) -> (usize, Format) {
        let (number, answer) = tag::header(stream, at, as_numbers(known));
        self.source.stand(stream, at, known);
        let size = self.source.attempt();
        let (after, format) = (self.source.at(), self.source.format());
        let [samplerate, bitrate, mode, bound] = as_numbers(format);
        let expected = by_01(stream, at, known);
        let sync = self.sync(expected.number, stream, at);
        let say = || format!("{class}, seed {seed}, at bit {at}, known {known:?}, {}", hex(stream));
        self.tally.same(
            &format!("number {}", expected.number),
            (
                number,
                answer,
                [expected.at, expected.size, expected.sync],
                samplerate != 3,
            ),
            (
                expected.number,
                [after, samplerate, bitrate, mode, bound, size, sync],
                [after, size, sync],
                self.source.knows_header(),
            ),
            say,
        );
        (after, format)
    }

    /// The byte of the FF behind which the Rust read on.
    fn sync(&self, number: u32, stream: &[u8], at: usize) -> usize {
        match number {
            1 => at.div_ceil(8),
            _ => self.source.sync().unwrap_or(stream.len()),
        }
    }

    /// The Rust's attempt in the strict reading: the data size, 0 where it is refused.
    fn strict_attempt(&mut self, told: Reading, stream: &[u8], at: usize, known: Format) -> usize {
        self.source.stand(stream, at, known);
        if told.number == 13 {
            self.source.refuse_behind_mode();
            return 0;
        }
        self.source.attempt()
    }

    /// The same in the strict reading, with any of the other choices: they have no effect.
    fn strict(&mut self, class: &str, seed: u64, stream: &[u8], at: usize, known: Format) -> (usize, Format) {
        let told = attempt(stream, at, known, true);
        let size = self.strict_attempt(told, stream, at, known);
        let (after, format) = (self.source.at(), self.source.format());
        let choices = STRICT | (seed as u32 % 16) << 1;
        let before = saved(known, at, 0, 0, choices);
        let left = saved(format, after, size, told.skipped, choices);
        let number = decode_call(stream, at, known, 0, true).number;
        let mut expected = vec![("decode", number, left)];
        match known {
            NO_FORMAT => expected.push(("format", told.number, left)),
            _ => expected.push(("format known", 0, before)),
        }
        if (at, known) == (0, NO_FORMAT) {
            expected.push(("open", told.number, left));
        }
        let sync = self.sync(told.number, stream, at);
        for (call, number, state) in expected {
            let say = || format!("{class}, seed {seed}, at bit {at}, known {known:?}, {}", hex(stream));
            self.tally.same(
                &format!("strict: {call} {number}"),
                (called(call, stream, before), [told.at, told.size, told.sync]),
                ((number, state), [after, size, sync]),
                say,
            );
        }
        (after, format)
    }

    /// Attempts one after the other, as long as they move on, to at most five; in one reading, then in the other.
    fn attempts(&mut self, class: &str, seed: u64, stream: &[u8], at: usize, known: Format) {
        self.tally.stream(class);
        for reading in [Self::attempt, Self::strict] {
            let (mut at, mut known) = (at, known);
            for _ in 0..5 {
                let next = reading(self, class, seed, stream, at, known);
                if next == (at, known) {
                    break;
                }
                (at, known) = next;
            }
        }
    }
}

/// A state that knows a format, or none, as a call leaves it that passed over so many bytes.
fn saved(known: Format, at: usize, pending: usize, skipped: usize, choices: u32) -> Decoder {
    let mut d = knowing(known, at, pending);
    d.counts[count::CHOICES] = choices;
    d.places[place::SKIPPED] = skipped as u64;
    d
}

/// One of the tag's calls from a state: its number, and the state that it leaves. None of the streams here has a frame.
fn called(call: &str, stream: &[u8], before: Decoder) -> (u32, Decoder) {
    let mut d = before;
    let mut memory = [0.0; MEMORY];
    let number = |refusal: Option<Refusal>| refusal.map_or(0, |refusal| refusal.0);
    match call {
        "open" => {
            let (d, opened) = Decoder::new(stream, &mut memory, before.counts[count::CHOICES]);
            (number(opened.err()), d)
        }
        "decode" => (number(d.decode(stream, &mut memory, &mut [0.0; OUTPUT]).err()), d),
        _ => (number(d.format(stream).err()), d),
    }
}

fn as_numbers(format: Format) -> [usize; 4] {
    [format.samplerate_index, format.bitrate_index, format.mode, format.bound]
}

/// A format as a header and the frames after it leave one: the bound may have been cut to a limit.
fn some_format(s: &mut Seeded) -> Format {
    let mode = s.below(4);
    let bound = if mode == 3 { 0 } else { s.below(33) };
    Format {
        samplerate_index: s.below(3),
        bitrate_index: s.below(14),
        mode,
        bound,
    }
}

/// The format in the third and fourth byte of a header; where they give none, some other.
fn own_format(rates: u8, mode: u8, s: &mut Seeded) -> Format {
    let (bitrate, samplerate) = ((rates >> 4) as usize, (rates >> 2 & 3) as usize);
    if bitrate == 0 || bitrate == 15 || samplerate == 3 {
        return some_format(s);
    }
    let mode = (mode >> 6) as usize;
    let bound = [32, 8, 32, 0][mode];
    Format {
        samplerate_index: samplerate,
        bitrate_index: bitrate - 1,
        mode,
        bound,
    }
}

/// That format with one of its three parts changed.
fn other_format(format: Format, s: &mut Seeded) -> Format {
    match s.below(3) {
        0 => Format {
            samplerate_index: (format.samplerate_index + 1 + s.below(2)) % 3,
            ..format
        },
        1 => Format {
            bitrate_index: (format.bitrate_index + 1 + s.below(13)) % 14,
            ..format
        },
        _ if format.mode == 3 => Format {
            mode: 0,
            bound: 32,
            ..format
        },
        _ => Format {
            mode: 3,
            bound: 0,
            ..format
        },
    }
}

/// Each of the 2 × 65,536 headers: whole, with each kind of earlier format, and cut off at every byte behind zeros.
fn every_header(sides: &mut Sides) {
    for number in 0..131_072u64 {
        let s = &mut Seeded::new(number);
        let [_, second, rates, mode] = (0xFFFC_0000u32 + number as u32).to_be_bytes();
        let whole = [0xFF, second, rates, mode, s.byte(), s.byte()];
        let own = own_format(rates, mode, s);
        let other = other_format(own, s);
        sides.attempts("every header, no format known", number, &whole, 0, NO_FORMAT);
        sides.attempts("every header, its own format known", number, &whole, 0, own);
        sides.attempts("every header, another format known", number, &whole, 0, other);
        for kept in 0..6 {
            let mut cut = vec![0; 6 - kept];
            cut.extend(&whole[..kept]);
            for known in [NO_FORMAT, own, other] {
                sides.attempts("every header, cut off, behind zeros", number, &cut, 0, known);
            }
        }
        let kept = s.below(6);
        sides.attempts(
            "every header, cut off",
            number,
            &whole[..kept],
            s.below(9),
            s.one_of(&[NO_FORMAT, own, other]),
        );
    }
}

/// Every stream of 6 and 7 bytes over the few that decide: FF FD in every place.
fn short_streams(sides: &mut Sides) {
    let mut seed = 0;
    for length in 6..=7 {
        every(&[0x00, 0xA0, 0xFC, 0xFD, 0xFF], length, |stream| {
            let known = if seed % 2 == 0 {
                NO_FORMAT
            } else {
                some_format(&mut Seeded::new(seed))
            };
            sides.attempts("every stream of 6 and 7 bytes, 00 A0 FC FD FF", seed, &stream, 0, known);
            seed += 1;
        });
    }
}

/// Seeded streams of every class, from positions on a byte and off it, to past the end.
fn seeded_streams(sides: &mut Sides, count: usize) {
    for seed in 0..count as u64 {
        let s = &mut Seeded::new(seed);
        let (class, make) = CLASSES[seed as usize % CLASSES.len()];
        let mut stream = make(s);
        if s.below(4) == 0 {
            stream.extend(header(s));
        }
        let at = match s.below(4) {
            0 => 0,
            1 => s.below(9),
            2 => s.below(stream.len() * 8 + 17),
            _ => s.below(stream.len() / 2 + 1) * 8,
        };
        let known = if s.below(2) == 0 { NO_FORMAT } else { some_format(s) };
        sides.attempts(class, seed, &stream, at, known);
    }
}

/// A mode is 32 bits wide: of a larger number its low 32 bits count, on both sides.
fn wide_modes(sides: &mut Sides) {
    for seed in 0..1_000 {
        let s = &mut Seeded::new(seed);
        let stream = header(s);
        let known = own_format(stream[2], stream[3], s);
        let mode = known.mode + (1 + s.below(9) << 32);
        sides.attempts(
            "an earlier mode above 32 bits",
            seed,
            &stream,
            0,
            Format { mode, ..known },
        );
    }
}

/// 01's refusals 8 and 10, which the Rust does not have.
fn limits(sides: &mut Sides) {
    const LONGEST: usize = 16_777_216;
    for (number, length, at) in [
        (10, 9, FARTHEST + 1),
        (10, 0, FARTHEST + 8),
        (8, LONGEST + 1, 0),
        (8, LONGEST + 1, FARTHEST + 1),
    ] {
        let stream = vec![0xFF; length];
        let known = some_format(&mut Seeded::new(at as u64));
        let [samplerate, bitrate, mode, bound] = as_numbers(known);
        let expected = (number, [at, samplerate, bitrate, mode, bound, 0, at.div_ceil(8)]);
        let ours = tag::header(&stream, at, as_numbers(known));
        sides.tally.stream("past 01's limits");
        sides.tally.same(&format!("number {number}"), ours, expected, || {
            format!("length {length}, at bit {at}")
        });
    }
    let mut longest = vec![0; LONGEST];
    sides.attempts("at 01's limits", 0, &longest, 0, NO_FORMAT);
    sides.attempts("at 01's limits", 1, &[], FARTHEST, NO_FORMAT);
    longest[LONGEST - 4..].copy_from_slice(&[0xFF, 0xFD, 0xA0, 0x00]);
    sides.attempts("at 01's limits", 2, &longest, LONGEST * 8 - 48, NO_FORMAT);
}

pub fn compare(tally: &mut Tally, count: usize) {
    println!(
        "header: attempts one after the other on every header, every truncation, every short stream over 5 bytes,"
    );
    println!(
        "and {count} seeded streams, with and without an earlier format, in the tolerant reading and in the strict one"
    );
    let mut sides = Sides {
        tally,
        source: Audio::new(Vec::new()),
    };
    every_header(&mut sides);
    short_streams(&mut sides);
    seeded_streams(&mut sides, count);
    wide_modes(&mut sides);
    limits(&mut sides);
}
