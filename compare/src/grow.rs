//! How the port's time grows, as lines `series,x,y` for compare/plot: a frame's time by its bit rate, a frame's time by
//! the stream's length, and what a search and the calls on junk take by the stream's length.

use crate::bench::{by_port, frames_of};
use crate::clock::{median, timed};
use crate::files::files;
use crate::firmware::{Decoder, MEMORY, OUTPUT, STREAM};
use std::path::Path;

/// Microseconds a frame, the middle of so many rounds.
fn a_frame(stream: &[u8], rounds: usize) -> f64 {
    let once = |_| {
        let (time, frames) = by_port(stream);
        time / frames as f64 / 1e3
    };
    median((0..rounds).map(once).collect())
}

/// One call that searches through a whole stream of one byte, in microseconds.
fn search(length: usize) -> f64 {
    let stream = vec![0x31; length];
    let mut memory = [0.0; MEMORY];
    let once = |_| timed(|| Decoder::new(&stream, &mut memory, 0)).0 / 1e3;
    median((0..5).map(once).collect())
}

/// All calls on a stream of junk until they answer 1 or 7: their number, and the nanoseconds of one in the middle.
fn calls(length: usize) -> (usize, f64) {
    // Bytes FF: an attempt moves 16 bits, which is the least.
    let stream = vec![0xFF; length];
    let (mut memory, mut output) = ([0.0; MEMORY], [0.0; OUTPUT]);
    let (time, count) = timed(|| {
        let (mut d, _) = Decoder::new(&stream, &mut memory, 0);
        let mut count = 1;
        while !matches!(d.decode(&stream, &mut memory, &mut output), Err(refusal) if refusal.ends()) {
            count += 1;
        }
        count
    });
    (count, time / count as f64)
}

/// The streams of a folder, named MODE-KBPS: a point for each. That of 192 kbps stereo, again and again, gives the lengths.
pub fn print(folder: &Path) {
    let mut long = Vec::new();
    for (path, stream) in files(folder) {
        let name = path.file_stem().unwrap().to_string_lossy().into_owned();
        let (mode, kbps) = name.split_once('-').expect("MODE-KBPS.mp2");
        let whole = frames_of(&stream).concat();
        println!("{mode},{},{:.3}", kbps.trim_start_matches('0'), a_frame(&whole, 15));
        if name == "stereo-192" {
            long = whole.repeat(STREAM / whole.len() + 1);
        }
    }
    for length in (10..=24).map(|power| 1usize << power) {
        let rounds = (1 << 22) / length.clamp(1 << 18, 1 << 20);
        if !long.is_empty() {
            println!("length,{length},{:.3}", a_frame(&long[..length], rounds));
        }
        println!("search,{length},{:.3}", search(length));
        let (count, time) = calls(length);
        println!("calls,{length},{count}");
        println!("call,{length},{time:.1}");
    }
}
