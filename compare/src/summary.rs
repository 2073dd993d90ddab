//! A stream in one line of words, over what the unchanged Rust plays. It shares no code with the port.

use crate::by_01::{by_01, decode_by_01};
use crate::by_02::LONGEST;
use crate::source::mpeg::audio::Audio;
use crate::source::NO_FORMAT;

/// What the numbers 1 to 7 mean.
const REASONS: [&str; 7] = [
    "no header can follow",
    "no sync found",
    "another version or layer",
    "a bit rate that is none",
    "a sample rate that is none",
    "another bit rate, sample rate or mode than the first",
    "the last frame is cut off",
];

fn counted(count: usize, thing: &str) -> String {
    format!("{count} {thing}{}", if count == 1 { "" } else { "s" })
}

/// The number and the byte of each line of the listing, with the bytes passed over, and the rate of the frames. An opening is
/// told where it is refused; what it passed over where it is accepted goes to the line after it.
fn calls(stream: &[u8]) -> (Vec<(usize, usize, usize)>, u32) {
    let opening = by_01(stream, 0, NO_FORMAT);
    let (mut calls, mut carried) = (Vec::new(), opening.skipped);
    if (2..=5).contains(&opening.number) {
        calls.push((opening.number as usize, opening.at / 8, carried));
        carried = 0;
    }
    let mut audio = Audio::new(stream.to_vec());
    loop {
        let told = decode_by_01(stream, audio.at(), audio.format(), audio.pending());
        audio.decode();
        calls.push((told.number as usize, audio.at() / 8, carried + told.skipped));
        carried = 0;
        if [1, 7].contains(&told.number) {
            return (calls, audio.samplerate());
        }
    }
}

/// The bytes passed over up to the first frame, or on all calls where there is none: in words, and nothing where they are none.
fn in_front(calls: &[(usize, usize, usize)]) -> String {
    let first = calls.iter().position(|call| call.0 == 0);
    let lines = first.map_or(calls.len(), |frame| frame + 1);
    match calls[..lines].iter().map(|call| call.2).sum() {
        0 => String::new(),
        bytes => format!("; {} of junk in front", counted(bytes, "byte")),
    }
}

/// What the programs lister and wav must say of a stream.
pub fn summary(stream: &[u8]) -> String {
    if stream.len() > LONGEST {
        return "too long: 65,536 bytes at most\n".to_string();
    }
    let (calls, rate) = calls(stream);
    let with = |number: usize| calls.iter().filter(move |call| call.0 == number);
    let frames = with(0).count();
    let mut line = match frames {
        0 => "0 frames: nothing was played".to_string(),
        _ => format!(
            "{}, {:.2} s",
            counted(frames, "frame"),
            frames as f64 * 1152.0 / rate as f64
        ),
    };
    line += &in_front(&calls);
    for number in 2..=6 {
        if let Some((_, byte, _)) = with(number).next() {
            let count = counted(with(number).count(), "call");
            line += &format!(
                "; {count} refused with {number} ({}) from byte {byte}",
                REASONS[number - 1]
            );
        }
    }
    let end = calls.last().unwrap().0;
    line + &format!("; ended with {end} ({})\n", REASONS[end - 1])
}
