//! Frames whose sound is chosen: codes of 16 bits in every subband that allows them, one scale factor for all, and a rule
//! that gives the codes.
#![cfg_attr(layer = "cortex", allow(dead_code))]

use crate::seeded::Seeded;

/// A format: its header, the ones and then zeros of its allocation fields, and how many places the ones allot 16 bits.
pub struct Shape {
    header: [u8; 4],
    allocation: (usize, usize),
    places: usize,
}

pub const SHAPES: [Shape; 3] = [
    // 32 kbps mono, at 44.1 and at 48 kHz: the first 2 of 8 subbands.
    Shape {
        header: [0xFF, 0xFD, 0x10, 0xC0],
        allocation: (8, 18),
        places: 2,
    },
    Shape {
        header: [0xFF, 0xFD, 0x14, 0xC0],
        allocation: (8, 18),
        places: 2,
    },
    // 384 kbps stereo: all 30 subbands of both channels.
    Shape {
        header: [0xFF, 0xFD, 0xE0, 0x00],
        allocation: (188, 0),
        places: 60,
    },
];

/// The code that means 0; smaller ones are above it. With scale factor 0 a code's distance from it counts twice.
const MIDDLE: u16 = 32_767;

/// Fields one after the other, most significant bit first.
#[derive(Default)]
struct Bits(Vec<bool>);

impl Bits {
    fn put(&mut self, value: usize, width: usize) {
        self.0.extend((0..width).rev().map(|bit| value >> bit & 1 == 1));
    }

    fn bytes(&self) -> Vec<u8> {
        let byte = |bits: &[bool]| (0..8).fold(0, |byte, i| byte << 1 | bits.get(i).is_some_and(|&bit| bit) as u8);
        self.0.chunks(8).map(byte).collect()
    }
}

/// A frame from its header to its last code. `code` is asked by slot, 0 to 35, and place: subband, in stereo with channel.
pub fn frame(shape: &Shape, factor: usize, mut code: impl FnMut(usize, usize) -> u16) -> Vec<u8> {
    let mut bits = Bits::default();
    let (ones, zeros) = shape.allocation;
    (0..ones).for_each(|_| bits.put(1, 1));
    bits.put(0, zeros);
    // Selector 2: one scale factor serves all three parts.
    (0..shape.places).for_each(|_| bits.put(2, 2));
    (0..shape.places).for_each(|_| bits.put(factor, 6));
    for granule in 0..12 {
        for place in 0..shape.places {
            (0..3).for_each(|k| bits.put(code(3 * granule + k, place) as usize, 16));
        }
    }
    [&shape.header[..], &bits.bytes()].concat()
}

/// The most that codes and scale factors can hold: in turn all one way, the other way, and by slot, place or chance.
pub fn fullest(shape: &Shape, s: &mut Seeded) -> Vec<u8> {
    let either = |down: bool| if down { u16::MAX } else { 0 };
    [
        frame(shape, 0, |_, _| either(false)),
        frame(shape, 0, |_, _| either(true)),
        frame(shape, 0, |slot, _| either(slot % 2 == 0)),
        frame(shape, 0, |_, place| either(place % 2 == 0)),
        frame(shape, 0, |slot, place| either((slot + place) % 2 == 0)),
        frame(shape, 0, |_, _| either(s.below(2) == 0)),
    ]
    .concat()
}

/// Frames of any codes under one of the larger scale factors.
pub fn any(s: &mut Seeded) -> Vec<u8> {
    let shape = &SHAPES[s.below(SHAPES.len())];
    let frames = 1 + s.below(3);
    let one = |s: &mut Seeded| {
        let factor = s.below(18);
        frame(shape, factor, |_, _| s.below(65_536) as u16)
    };
    (0..frames).flat_map(|_| one(s)).collect()
}

/// Which halves `halves` has: so many odd numbers on either side of zero.
const HALVES: usize = 100;

/// Exact halves of a step, ±1/2, ±3/2 .. ±199/2, one in every eighteen slots of 100 frames: the frames, and which sample of
/// the left channel is how many halves. In sample 16 of a slot no rounding takes part: the window, −52 there, is over the
/// slot before, its subbands added and negated. So a sum of −320 m gives −52 · 320 m / (−65 · 2^24), and that is m / 2 steps.
pub fn halves() -> (Vec<u8>, Vec<(usize, i32)>) {
    let odd = |i: usize| if i % 2 == 0 { i as i32 + 1 } else { -(i as i32) };
    let of_frame = |f: usize| {
        let code = move |slot: usize, place: usize| match (slot, place) {
            (0 | 18, 0) => (MIDDLE as i32 + 160 * odd(2 * f + slot / 18)) as u16,
            _ => MIDDLE,
        };
        frame(&SHAPES[0], 0, code)
    };
    let at = |i: usize| 1_152 * (i / 2) + 32 * (18 * (i % 2) + 1) + 16;
    let stream = (0..HALVES).flat_map(of_frame).collect();
    (stream, (0..2 * HALVES).map(|i| (at(i), odd(i))).collect())
}
