//! Ten minutes of sound to encode: tones that wander, noise that comes and goes, the right channel other than the left.

use crate::riff;
use crate::seeded::Seeded;
use std::io::{BufWriter, Write};
use std::path::Path;

pub const RATE: u32 = 44_100;
const SECONDS: u32 = 600;

/// A channel's value at a moment: three tones under slow swells, and noise between them.
fn value(t: f64, noise: f64, right: bool) -> f64 {
    let turn = std::f64::consts::TAU;
    let base = if right { 331.0 } else { 220.0 };
    let swell = |rate: f64| (0.5 - 0.5 * (turn * rate * t).cos()).powi(2);
    let tone = |k: f64| (turn * base * k * t + 6.0 * (turn * 0.31 * k * t).sin()).sin() / k;
    0.3 * (tone(1.0) + tone(2.7) + tone(6.1)) * swell(0.7) + 0.35 * noise * swell(1.9)
}

/// Writes a wave file: 16 bits, stereo.
pub fn write(path: &Path) -> std::io::Result<()> {
    let mut out = BufWriter::new(std::fs::File::create(path)?);
    let bytes = SECONDS * RATE * 4;
    out.write_all(&riff::header(RATE, bytes))?;
    let s = &mut Seeded::new(7);
    for i in 0..SECONDS * RATE {
        for right in [false, true] {
            let noise = s.below(65_536) as f64 / 32_768.0 - 1.0;
            let sample = 32_000.0 * value(i as f64 / RATE as f64, noise, right);
            out.write_all(&(sample as i16).to_le_bytes())?;
        }
    }
    out.flush()
}
