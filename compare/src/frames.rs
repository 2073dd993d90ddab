//! Seeded frames: a format, a payload and the bit at which it starts.
#![cfg_attr(any(layer = "decode", layer = "wav", layer = "cortex"), allow(dead_code))]

use crate::seeded::Seeded;
use crate::source::Format;

pub struct Frame {
    pub format: Format,
    pub stream: Vec<u8>,
    pub at: usize,
    pub class: &'static str,
}

/// How many formats there are: 3 sample rates, 14 bit rates, stereo, dual, mono and joint stereo at 4 extensions.
pub const FORMATS: usize = 3 * 14 * 7;

pub fn format(number: usize) -> Format {
    let (mode, bound) = [(0, 32), (1, 4), (1, 8), (1, 12), (1, 16), (2, 32), (3, 0)][number % 7];
    Format {
        samplerate_index: number / 7 % 3,
        bitrate_index: number / 21 % 14,
        mode,
        bound,
    }
}

/// Bytes with few ones, so that few subbands are allocated; any bytes; bytes with many ones.
fn payload(s: &mut Seeded, length: usize) -> (&'static str, Vec<u8>) {
    match s.below(6) {
        0 => ("few ones", s.bytes(length, |s| s.byte() & s.byte() & s.byte())),
        1 => ("fewer ones than zeros", s.bytes(length, |s| s.byte() & s.byte())),
        2 => ("many ones", s.bytes(length, |s| s.byte() | s.byte() | s.byte())),
        3 => {
            let head = s.below(24);
            let mut stream = s.bytes(head, |s| s.byte() & s.byte());
            let fill = s.one_of(&[0x00, 0xFF, 0x55, 0x84]);
            stream.resize(length, fill);
            ("seeded bytes, then one byte", stream)
        }
        _ => ("any bytes", s.bytes(length, Seeded::byte)),
    }
}

/// Frame `seed`: the formats in turn. Two in three have all bits that any frame can call for.
pub fn frame(seed: u64) -> Frame {
    const MOST: usize = 4_800;
    let s = &mut Seeded::new(seed);
    let format = format(seed as usize);
    let length = match s.below(6) {
        0 => s.below(40),
        1 => s.below(1_800),
        _ => MOST,
    };
    let (class, stream) = payload(s, length);
    let at = match s.below(3) {
        0 => s.below(70).min(8 * length),
        _ => s.below(9).min(length) * 8,
    };
    let class = if length < MOST { "cut off" } else { class };
    Frame {
        format,
        stream,
        at,
        class,
    }
}
