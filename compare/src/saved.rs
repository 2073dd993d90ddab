//! Saved states: every field drawn within 01's ranges, the same with one field out of its range, and both with any bits
//! where nothing is read.
#![cfg_attr(any(layer = "header", layer = "cortex"), allow(dead_code))]

use crate::firmware::{count, place, Decoder, COUNTS, MEMORY, PLACES};
use crate::seeded::Seeded;
use crate::source::Format;

/// 01's farthest position, in bits.
pub const FARTHEST: usize = 134_217_736;

/// 01: frames times 1152, divided once by the rate.
fn time(frames: u32, code: u64) -> f64 {
    match code {
        3 => 0.0,
        _ => (frames as u64 * 1152) as f64 / [44_100.0, 48_000.0, 32_000.0][code as usize],
    }
}

/// A state as it was saved when there were six places and two counts, widened with zeros.
fn widened(old_places: [usize; 6], old_counts: [u32; 2], time: f64) -> Decoder {
    let (mut places, mut counts) = ([0; PLACES], [0; COUNTS]);
    places[..6].copy_from_slice(&old_places.map(|place| place as u64));
    counts[..2].copy_from_slice(&old_counts);
    Decoder {
        places,
        counts,
        time: [time],
    }
}

/// What an opening that is refused leaves: no header, nothing decoded, and of the choices the five that there are.
pub fn fresh(choices: u32) -> Decoder {
    let mut d = widened([0, 3, 0, 0, 0, 0], [0, 0], 0.0);
    d.counts[count::CHOICES] = choices % 32;
    d
}

/// Any bits of a place.
pub fn any(s: &mut Seeded) -> u64 {
    (s.below(1 << 32) << 32 | s.below(1 << 32)) as u64
}

/// Any bits in what nothing reads: the last two places, the counts behind the choices, and the choices' bits above five, which stay as they are.
pub fn littered(s: &mut Seeded, mut d: Decoder) -> Decoder {
    let mut any = || any(s);
    d.places[place::FRAME_END..].fill_with(&mut any);
    d.counts[count::CHOICES] |= (any() as u32) << 5;
    d.counts[count::CHOICES + 1..].fill_with(|| any() as u32);
    d
}

/// The same numbers as a call writes them that passed over so many bytes.
pub fn written(d: &Decoder, skipped: usize) -> Decoder {
    let mut d = *d;
    d.places[place::FRAME_END] = 0;
    d.places[place::SKIPPED] = skipped as u64;
    d.counts[count::CHOICES + 1..].fill(0);
    d
}

/// A state in range, for a stream of that many bytes: mostly one that stands in the stream, on a byte or off it.
pub fn in_range(s: &mut Seeded, length: usize) -> Decoder {
    let at = match s.below(16) {
        0 => s.below(FARTHEST + 1),
        1 => FARTHEST - s.below(20),
        2 => 8 * length + s.below(20),
        3..=7 => s.below(8 * length + 1),
        8 => 0,
        _ => s.below(length + 1) * 8,
    };
    let at = at.min(FARTHEST);
    let code = s.below(4);
    let known = code != 3;
    let mode = s.below(4);
    let frames = match s.below(4) {
        0 => at / 16,
        1 => 0,
        _ => s.below(at / 16 + 1),
    };
    let frames = if known { frames as u32 } else { 0 };
    let pending = match s.below(4) {
        0 => 90,
        1 => s.one_of(&[91, 100, 204, 1_725]),
        2 => 90 + s.below(1_636),
        _ => 0,
    };
    let bound = if mode == 3 { 0 } else { s.below(33) };
    let pending = if known { pending } else { 0 };
    let places = [at, code, s.below(14), bound, pending, 64 * s.below(16)];
    widened(places, [mode as u32, frames], time(frames, code as u64))
}

/// A state that knows a format and has decoded nothing, at a bit, with a frame of so many bytes pending, or 0.
pub fn knowing(f: Format, at: usize, pending: usize) -> Decoder {
    let places = [at, f.samplerate_index, f.bitrate_index, f.bound, pending, 0];
    widened(places, [f.mode as u32, 0], 0.0)
}

/// A memory of numbers, of zeros of both signs, of sizes far apart, or of anything that an f32 can be.
pub fn memory(s: &mut Seeded) -> Vec<f32> {
    let kind = s.below(5);
    let value = |s: &mut Seeded| {
        let number = s.below(1 << 24) as f32 - 8_388_608.0;
        match kind {
            0 => s.one_of(&[0.0, -0.0]),
            1 => number * s.one_of(&[1e-45, 1e-20, 1.0, 1e20]),
            2 => number / 16.0,
            3 => f32::from_bits(s.below(1 << 32) as u32),
            _ => number * 64.0,
        }
    };
    (0..MEMORY).map(|_| value(s)).collect()
}

type Spoil = (&'static str, fn(&mut Seeded, &mut Decoder));

/// Each part of 01's paragraph "State in range", broken alone.
pub const SPOILT: [Spoil; 15] = [
    ("position", |s, d| {
        d.places[0] = FARTHEST as u64 + 1 + s.one_of(&[0, 1, 7, 1 << 32, 1 << 60])
    }),
    ("frames", |s, d| {
        d.counts[1] = (d.places[0] / 16 + 1) as u32 + s.one_of(&[0, 1, 1 << 30]);
        d.time[0] = time(d.counts[1], d.places[1]);
    }),
    ("sample-rate code", |s, d| {
        d.places[1] = 4 + s.one_of(&[0, 1, 1 << 32, 1 << 60])
    }),
    ("bit-rate index", |s, d| d.places[2] = 14 + s.one_of(&[0, 1, 1 << 32])),
    ("mode", |s, d| d.counts[0] = 4 + s.one_of(&[0, 1, 1 << 20])),
    ("bound", |s, d| {
        (d.counts[0], d.places[3]) = (0, 33 + s.one_of(&[0, 31, 1 << 32]))
    }),
    ("bound in mono", |s, d| {
        (d.counts[0], d.places[3]) = (3, 1 + s.below(32) as u64)
    }),
    ("ring position off a slot", |s, d| d.places[5] += 1 + s.below(63) as u64),
    ("ring position past its end", |s, d| {
        d.places[5] = 1_024 + s.one_of(&[0, 64, 1 << 32])
    }),
    ("pending size below", |s, d| {
        (d.places[1], d.places[4]) = known(d, 1 + s.below(89) as u64)
    }),
    ("pending size above", |s, d| {
        (d.places[1], d.places[4]) = known(d, 1_726 + s.one_of(&[0, 1, 1 << 32]))
    }),
    ("pending without a header", |s, d| {
        no_header(d);
        d.places[4] = 90 + s.below(1_636) as u64;
    }),
    ("frames without a header", |s, d| {
        no_header(d);
        d.places[0] = d.places[0].max(32);
        d.counts[1] = 1 + s.below(2) as u32;
    }),
    ("time off by a bit", |s, d| {
        d.time[0] = f64::from_bits(d.time[0].to_bits() ^ 1 << s.below(64));
    }),
    ("time not a number", |s, d| {
        d.time[0] = s.one_of(&[f64::NAN, -f64::NAN, f64::INFINITY])
    }),
];

/// A state with a header, so that only the pending size is out of range.
fn known(d: &mut Decoder, pending: u64) -> (u64, u64) {
    let code = d.places[1] % 3;
    d.time[0] = time(d.counts[1], code);
    (code, pending)
}

fn no_header(d: &mut Decoder) {
    d.places[1] = 3;
    d.places[4] = 0;
    d.counts[1] = 0;
    d.time[0] = 0.0;
}
