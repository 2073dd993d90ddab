//! The Rust's answers on every stream of a folder, as the program `replay` prints the port's: for each file its name,
//! then 01's listing, each frame's line with the bits of its start time and a checksum of its samples. In the strict reading of
//! 02 (E3) the third reading tells which headers are a 13; these the Rust is made to refuse as it refuses with 6.

use crate::by_01::{attempt, by_01, decode_call, Reading};
use crate::files::files;
use crate::source::traced::audio::{Audio, Samples};
use crate::source::NO_FORMAT;
use std::io::Read;
use std::path::Path;

/// FNV-1a of 64 bits over the bit patterns, low byte first.
fn checksum(samples: &[f32]) -> u64 {
    let bytes = samples.iter().flat_map(|sample| sample.to_bits().to_le_bytes());
    bytes.fold(0xCBF2_9CE4_8422_2325, |sum, byte| {
        (sum ^ byte as u64).wrapping_mul(0x0000_0100_0000_01B3)
    })
}

/// Where a header was sought, its FF must be the one behind which the Rust read on.
fn same_sync(audio: &Audio, told: Reading) {
    let found = (told.number != 2).then_some(told.sync);
    assert!(told.number == 1 || audio.sync() == found, "the sync of {told:?}");
}

/// One decode call by the Rust, with 01's and 02's reading of it.
fn decoded(audio: &mut Audio, stream: &[u8], strict: bool) -> (Option<Samples>, Reading) {
    let pending = audio.pending();
    let told = decode_call(stream, audio.at(), audio.format(), pending, strict);
    let answer = match told.number {
        13 => {
            audio.refuse_behind_mode();
            None
        }
        _ => audio.decode(),
    };
    assert_eq!(answer.is_some(), told.number == 0, "the Rust and 01 differ on {told:?}");
    if pending == 0 {
        same_sync(audio, told);
    }
    (answer, told)
}

/// The opening by the Rust, with 01's and 02's reading of it.
fn opened(stream: &[u8], strict: bool) -> (Audio, Reading) {
    let told = attempt(stream, 0, NO_FORMAT, strict);
    let mut audio = Audio::new(stream.to_vec());
    if told.number == 13 {
        audio.stand(stream, 0, NO_FORMAT);
        audio.refuse_behind_mode();
    }
    assert_eq!((audio.at(), audio.pending()), (told.at, told.size), "the opening");
    same_sync(&audio, told);
    (audio, told)
}

/// One decode call: its line, and whether it is the last.
fn call(audio: &mut Audio, stream: &[u8], strict: bool, frames: usize, opening: usize) -> (String, bool) {
    let (answer, told) = decoded(audio, stream, strict);
    // What an accepted opening passed over is counted with its frame.
    let skipped = opening + told.skipped;
    let Some(samples) = answer else {
        assert_eq!((audio.at(), audio.pending()), (told.at, told.size), "after a refusal");
        let word = if [1, 7].contains(&told.number) {
            "end"
        } else {
            "refused"
        };
        let line = format!("{word} {} at {} skipped {skipped}", told.number, told.at / 8);
        return (line, word == "end");
    };
    let (first, bits) = audio.used();
    assert_eq!(first, told.at, "the first allocation bit");
    let (rate, kbps, mode) = (audio.samplerate(), audio.kbps(), audio.format().mode);
    let (time, sum) = (samples.time.to_bits(), checksum(&samples.interleaved));
    let frame = format!(
        "frame {frames} at {} rate {rate} kbps {kbps} mode {mode} bits {bits} skipped {skipped}",
        first / 8
    );
    (format!("{frame} time {time:016x} sum {sum:016x}"), false)
}

/// 01: "at most 65,536 bytes on standard input (more: the one line `long`)".
const LONGEST: usize = 65_536;

/// The listing of one stream: calls until 1 or 7.
fn listing(stream: &[u8], strict: bool) -> Vec<String> {
    if stream.len() > LONGEST {
        return vec!["long".to_string()];
    }
    let (mut audio, opening) = opened(stream, strict);
    let (mut lines, mut carried) = (Vec::new(), opening.skipped);
    if [2, 3, 4, 5, 13].contains(&opening.number) {
        let (number, at) = (opening.number, opening.at / 8);
        lines.push(format!("refused {number} at {at} skipped {carried}"));
        carried = 0;
    }
    let mut frames = 0;
    loop {
        let (line, last) = call(&mut audio, stream, strict, frames, carried);
        frames += line.starts_with("frame") as usize;
        carried = 0;
        lines.push(line);
        if last {
            return lines;
        }
    }
}

pub fn print(folder: &Path, strict: bool) {
    for (path, stream) in files(folder) {
        println!("{}", path.file_name().unwrap().to_string_lossy());
        listing(&stream, strict).iter().for_each(|line| println!("{line}"));
    }
}

/// What a call leaves in the tag's arrays: the state's six places, the bytes that it passed over, two counts, and the next
/// start.
fn state(audio: &Audio, skipped: usize) -> String {
    let (f, (frames, time)) = (audio.format(), audio.clock());
    let places = [
        audio.at(),
        f.samplerate_index,
        f.bitrate_index,
        f.bound,
        audio.pending(),
        audio.ring(),
        skipped,
    ];
    let places = places.map(|n| n.to_string()).join(" ");
    format!("{places} {} {frames} {:016x}", f.mode, time.to_bits())
}

/// The question about the format, by the Rust's pair: its line.
fn format_told(audio: &mut Audio, stream: &[u8]) -> String {
    let sought = !audio.knows_header();
    let told = by_01(stream, audio.at(), NO_FORMAT);
    let (number, skipped) = if sought { (told.number, told.skipped) } else { (0, 0) };
    assert_eq!(audio.has_header(), number == 0, "the Rust and 01 differ");
    if sought {
        same_sync(audio, told);
    }
    let (rate, kbps, mode) = match number {
        0 => (audio.samplerate(), audio.kbps(), audio.format().mode),
        _ => (0, 0, 0),
    };
    format!("format {number} {} {rate} {kbps} {mode}", state(audio, skipped))
}

/// What the program `across` must write of the stream on standard input.
pub fn across() {
    let mut stream = Vec::new();
    std::io::stdin().read_to_end(&mut stream).expect("a stream");
    let (mut audio, opening) = opened(&stream, false);
    println!("open {} {}", opening.number, state(&audio, opening.skipped));
    println!("{}", format_told(&mut audio, &stream));
    loop {
        let start = audio.clock().1;
        let (answer, Reading { number, skipped, .. }) = decoded(&mut audio, &stream, false);
        let Some(samples) = answer else {
            println!("decode {number} {}", state(&audio, skipped));
            if [1, 7].contains(&number) {
                return;
            }
            continue;
        };
        assert_eq!(samples.time.to_bits(), start.to_bits(), "the start");
        let told = format!(
            "{:016x} {} {:016x}",
            samples.time.to_bits(),
            audio.used().1,
            checksum(&samples.interleaved)
        );
        println!("decode 0 {} {told}", state(&audio, skipped));
    }
}
