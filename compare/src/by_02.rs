//! A writer of wave files from 02's words (E1), over what the unchanged Rust plays. It shares no code with the port.
#![cfg_attr(layer = "decode", allow(dead_code))]

use crate::by_01::decode_by_01;
use crate::riff;
use crate::source::mpeg::audio::Audio;

/// Of a longer stream nothing is written.
pub const LONGEST: usize = 65_536;

/// What the Rust plays of a stream, calls until 1 or 7: the rate of its frames, 44,100 where there are none, and their
/// samples in the Rust's order. Every other refusal is no end, and adds nothing.
fn played(stream: &[u8]) -> (u32, Vec<f32>) {
    let mut audio = Audio::new(stream.to_vec());
    let (mut rate, mut samples) = (44_100, Vec::new());
    loop {
        let told = decode_by_01(stream, audio.at(), audio.format(), audio.pending());
        let answer = audio.decode();
        assert_eq!(answer.is_some(), told.number == 0, "the Rust and 01 differ on {told:?}");
        if let Some(frame) = answer {
            rate = audio.samplerate();
            samples.extend(frame.interleaved);
        }
        if [1, 7].contains(&told.number) {
            return (rate, samples);
        }
    }
}

/// A sample in steps of 16 bits. In f64 the product is exact, and `round` takes halves away from zero.
pub fn steps(sample: f32) -> i16 {
    (sample as f64 * 32_768.0).round().clamp(-32_768.0, 32_767.0) as i16
}

/// What is played of a stream, and its file; both are empty where it is too long.
pub fn written(stream: &[u8]) -> (Vec<f32>, Vec<u8>) {
    if stream.len() > LONGEST {
        return (Vec::new(), Vec::new());
    }
    let (rate, samples) = played(stream);
    let mut file = riff::header(rate, 2 * samples.len() as u32);
    file.extend(samples.iter().flat_map(|&sample| steps(sample).to_le_bytes()));
    (samples, file)
}
