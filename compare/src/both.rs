//! The port's decoder and the Rust's side by side. Each call is made on both, and everything is compared: the number,
//! the state with the bits of its time, a frame's start and the bits it used, memory and output by their bits, and
//! what is lent beyond them; of a frame also its 16-bit samples. The Rust answers a refusal with None; its number is told
//! by `by_01`, and so is what a call passed over; what 16 bits a sample has is told by `by_02`.
//!
//! The Rust has one reading, the tolerant one. In the strict reading `by_01` tells of each attempt whether it is a 13. Then the
//! Rust is made to refuse that header as it refuses one with 6, so its position is the Rust's own, and goes on from there;
//! every other call is the Rust's.

use crate::by_01::{attempt, decode_call};
use crate::by_02::steps;
use crate::firmware::{self, count, place, samples16, Decoder, Refusal, COUNTS, MEMORY, OUTPUT, PLACES};
use crate::saved::{any, fresh, written};
use crate::seeded::Seeded;
use crate::source::traced::audio::{Audio, Samples};
use crate::source::{Format, NO_FORMAT};
use crate::strict;
use crate::tally::{hex, Tally};

/// Stands in what is lent beyond what a call asks for, and in an output that no frame has reached.
pub const GUARD: f32 = 12_345.678;

/// The state as both sides have it: places, counts, the bits of the next start time.
pub type State = ([u64; PLACES], [u32; COUNTS], u64);

/// The same for 16-bit samples.
const MARK: i16 = 12_345;

pub struct Both<'a> {
    tally: &'a mut Tally,
    /// What is said of a difference: the class and the seed or file.
    name: &'a str,
    calls: usize,
    pub ours: Decoder,
    pub memory: Vec<f32>,
    pub output: Vec<f32>,
    audio: Audio,
    /// What must stand in the numbers that the Rust has not: the choices, what the last call passed over, and what is kept
    /// for later.
    rest: Decoder,
    strict: bool,
    /// The Rust's last frame.
    heard: Vec<f32>,
}

pub fn state_of(d: &Decoder) -> State {
    (d.places, d.counts, d.time[0].to_bits())
}

pub fn number_of<T>(answer: Result<T, Refusal>) -> u32 {
    answer.err().map_or(0, |refusal| refusal.0)
}

/// The Rust's state, and `rest` where it has none.
fn source_state(audio: &Audio, rest: &Decoder) -> State {
    let f = audio.format();
    let (frames, time) = audio.clock();
    let (mut places, mut counts) = (rest.places, rest.counts);
    let told = [
        audio.at(),
        f.samplerate_index,
        f.bitrate_index,
        f.bound,
        audio.pending(),
        audio.ring(),
    ];
    places[..6].copy_from_slice(&told.map(|place| place as u64));
    counts[..2].copy_from_slice(&[f.mode as u32, frames as u32]);
    (places, counts, time.to_bits())
}

/// A value's bits. Two NaNs count as the same: which bits a NaN has is no promise of a processor, or of the Rust. Only a
/// memory that no opening cleared can lead to one.
fn key(value: &f32) -> u32 {
    if value.is_nan() {
        f32::NAN.to_bits()
    } else {
        value.to_bits()
    }
}

/// The first place where what is lent differs in a bit from the parts that are expected, or behind them from the guard,
/// with the bits of both.
fn difference(lent: &[f32], expected: &[&[f32]]) -> Option<(usize, u32, u32)> {
    let mut at = 0;
    let guard = vec![GUARD; lent.len() - expected.iter().map(|part| part.len()).sum::<usize>()];
    for part in expected.iter().chain([&&guard[..]]) {
        let pairs = lent[at..].iter().zip(*part).map(|(a, b)| (key(a), key(b)));
        if pairs.clone().fold(0, |all, (a, b)| all | (a ^ b)) != 0 {
            return (at..)
                .zip(pairs)
                .find(|(_, (a, b))| a != b)
                .map(|(i, (a, b))| (i, a, b));
        }
        at += part.len();
    }
    None
}

/// The Rust on a stream whose first header was tried; one that is a 13 it was made to refuse.
fn opened_on(stream: &[u8], number: u32) -> Audio {
    if number != 13 {
        return Audio::new(stream.to_vec());
    }
    let mut audio = Audio::new(Vec::new());
    audio.stand(stream, 0, NO_FORMAT);
    audio.refuse_behind_mode();
    audio
}

impl<'a> Both<'a> {
    /// Opens both on a stream, with so many values lent beyond memory and output. The Rust knows no choices.
    pub fn open(tally: &'a mut Tally, name: &'a str, stream: &[u8], beyond: usize, choices: u32) -> Self {
        let mut memory = vec![GUARD; MEMORY + beyond];
        let strict = strict::chosen(choices);
        let told = attempt(stream, 0, NO_FORMAT, strict);
        let (ours, opened) = Decoder::new(stream, &mut memory, choices);
        let mut both = Both {
            tally,
            name,
            calls: 0,
            ours,
            memory,
            output: vec![GUARD; OUTPUT + beyond],
            audio: opened_on(stream, told.number),
            rest: written(&fresh(choices), told.skipped),
            strict,
            heard: vec![GUARD; OUTPUT],
        };
        both.answered("opening", told.number, number_of(opened), told.number, stream);
        both.values(stream);
        both
    }

    /// Takes up a state that is in range, with its memory: 2,048 values and the guard.
    pub fn resume(tally: &'a mut Tally, name: &'a str, stream: &[u8], ours: Decoder, memory: Vec<f32>) -> Self {
        let [at, samplerate_index, bitrate_index, bound, pending, ring, _, _] = ours.places.map(|place| place as usize);
        let mode = ours.counts[0] as usize;
        let mut audio = Audio::new(Vec::new());
        let format = Format {
            samplerate_index,
            bitrate_index,
            mode,
            bound,
        };
        audio.stand(stream, at, format);
        audio.resume(pending, ours.counts[1] as usize, ours.time[0]);
        audio.sound_from(ring, &memory);
        Both {
            tally,
            name,
            calls: 0,
            ours,
            output: vec![GUARD; OUTPUT + memory.len() - MEMORY],
            memory,
            audio,
            rest: ours,
            strict: strict::chosen(ours.counts[count::CHOICES]),
            heard: vec![GUARD; OUTPUT],
        }
    }

    pub fn state(&self) -> State {
        state_of(&self.ours)
    }

    fn say(name: &str, calls: usize, stream: &[u8]) -> String {
        format!("{name}, call {calls}, {}", hex(stream))
    }

    /// Compares an answer and the state after it; `number` is the one that groups it, in each reading by itself.
    fn answered<T: PartialEq + std::fmt::Debug>(&mut self, call: &str, number: u32, ours: T, told: T, stream: &[u8]) {
        self.calls += 1;
        let after = source_state(&self.audio, &self.rest);
        let (name, calls, state) = (self.name, self.calls, self.state());
        let reading = if self.strict { "strict: " } else { "" };
        self.tally.same(
            &format!("{reading}{call} {number}"),
            (ours, state),
            (told, after),
            || Self::say(name, calls, stream),
        );
    }

    /// Compares memory and output.
    fn values(&mut self, stream: &[u8]) {
        let (name, calls) = (self.name, self.calls);
        let memory = difference(&self.memory, &[self.audio.half(0), self.audio.half(1)]);
        self.tally
            .same("memory", memory, None, || Self::say(name, calls, stream));
        let output = difference(&self.output, &[&self.heard]);
        self.tally
            .same("output", output, None, || Self::say(name, calls, stream));
    }

    /// Goes on in another stream, from the same bit.
    pub fn lend(&mut self, stream: &[u8]) {
        self.audio.lend(stream);
    }

    /// At seeded moments, any bits where the last call told what it passed over: no call reads them.
    pub fn litter(&mut self, s: &mut Seeded) {
        if s.below(2) == 0 {
            self.ours.places[place::SKIPPED] = any(s);
        }
    }

    /// The question about the format, against the Rust's pair, which asks for a header and then for the rate, and against the
    /// kbps and the mode that it keeps to itself. Asked again it tells the same, leaves the same, and passes over nothing.
    pub fn format(&mut self, stream: &[u8]) {
        let (number, skipped) = match self.audio.knows_header() {
            true => (0, 0),
            false => {
                let sought = attempt(stream, self.audio.at(), NO_FORMAT, self.strict);
                (sought.number, sought.skipped)
            }
        };
        let ours = self.ours.format(stream);
        self.rest = written(&self.rest, skipped);
        let told = match self.asked(number) {
            true => Ok(firmware::Format {
                rate: self.audio.samplerate(),
                kbps: self.audio.kbps() as u32,
                mode: self.audio.format().mode as u32,
            }),
            false => Err(Refusal(number)),
        };
        self.answered("format", number, ours, told, stream);
        if told.is_ok() {
            let again = self.ours.format(stream);
            self.rest = written(&self.rest, 0);
            self.answered("format again", number, again, told, stream);
        }
    }

    /// The Rust's question for a header: whether it knows one. A 13 it is made to refuse.
    fn asked(&mut self, number: u32) -> bool {
        if number == 13 {
            self.audio.refuse_behind_mode();
            return false;
        }
        self.audio.has_header()
    }

    /// The Rust's next frame. A 13 it is made to refuse.
    fn played(&mut self, number: u32) -> Option<Samples> {
        if number == 13 {
            self.audio.refuse_behind_mode();
            return None;
        }
        self.audio.decode()
    }

    /// One decode call on both.
    pub fn decode(&mut self, stream: &[u8]) {
        let (at, known, pending) = (self.audio.at(), self.audio.format(), self.audio.pending());
        let reading = decode_call(stream, at, known, pending, self.strict);
        let answer = self.ours.decode(stream, &mut self.memory, &mut self.output);
        let ours = answer.map(|frame| (frame.start.to_bits(), frame.bits));
        self.rest = written(&self.rest, reading.skipped);
        let told = match self.played(reading.number) {
            Some(samples) => {
                self.heard = samples.interleaved;
                Ok((samples.time.to_bits(), self.audio.used().1 as u64))
            }
            None => Err(Refusal(reading.number)),
        };
        self.answered("decode", reading.number, ours, told, stream);
        self.values(stream);
        if reading.number == 0 {
            self.samples(stream);
        }
    }

    /// Compares the 16-bit samples of the last frame; a little room is lent beyond them, and one too little is refused.
    fn samples(&mut self, stream: &[u8]) {
        let (name, calls) = (self.name, self.calls);
        let mut lent = [MARK; OUTPUT + 3];
        let little = number_of(samples16(&self.output, &mut lent[..OUTPUT - 1]));
        let left = lent == [MARK; OUTPUT + 3];
        let number = number_of(samples16(&self.output, &mut lent));
        let expected = self.heard.iter().map(|&sample| steps(sample)).chain([MARK; 3]);
        let found = (0..).zip(lent.iter().zip(expected)).find(|(_, (a, b))| **a != *b);
        self.tally
            .same("samples16", (little, left, number, found), (9, true, 0, None), || {
                Self::say(name, calls, stream)
            });
    }

    /// A decode call with so much of memory and output that the port must refuse it: the Rust is not called.
    pub fn refused(&mut self, stream: &[u8], number: u32, memory: usize, output: usize) {
        let answer = self
            .ours
            .decode(stream, &mut self.memory[..memory], &mut self.output[..output]);
        let ours = answer.map(|frame| (frame.start.to_bits(), frame.bits));
        self.rest = written(&self.rest, 0);
        self.answered("listed: decode", number, ours, Err(Refusal(number)), stream);
        self.values(stream);
    }

    /// The same for the question about the format.
    pub fn format_refused(&mut self, stream: &[u8], number: u32) {
        let ours = self.ours.format(stream);
        self.rest = written(&self.rest, 0);
        self.answered("listed: format", number, ours, Err(Refusal(number)), stream);
    }
}
