//! The strict reading of document 02 (E3): which bit rates a mode may have. A row for each bit rate has the modes that it allows,
//! after twolame and libmad (docs/DIFFERENCES.md, F3), and no code is shared with the port. `pairs` holds these rows to what twolame
//! encodes and libmad plays.
#![cfg_attr(not(layer = "decode"), allow(dead_code))]

/// Bit 0 of an opening's choices.
pub const STRICT: u32 = 1;

/// By the bit-rate field, 1 to 14: kbps, and the modes allowed: s stereo, j joint stereo, d two channels, m mono.
const ROWS: [(usize, &str); 14] = [
    (32, "m"),
    (48, "m"),
    (56, "m"),
    (64, "sjdm"),
    (80, "m"),
    (96, "sjdm"),
    (112, "sjdm"),
    (128, "sjdm"),
    (160, "sjdm"),
    (192, "sjdm"),
    (224, "sjd"),
    (256, "sjd"),
    (320, "sjd"),
    (384, "sjd"),
];

/// Whether the standard has a bit rate of that field, 1 to 14, in a mode.
pub fn has(field: usize, mode: usize) -> bool {
    let letter = ['s', 'j', 'd', 'm'][mode];
    ROWS[field - 1].1.contains(letter)
}

/// Whether choices ask for the strict reading.
pub fn chosen(choices: u32) -> bool {
    choices % 2 == STRICT
}
