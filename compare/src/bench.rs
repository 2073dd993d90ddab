//! Times beside the Rust's, in one run, each side in turn: `read` by itself, then whole decoders on encoded streams,
//! with other decoders where they are installed.

use crate::clock::{median, quartiles, timed};
use crate::files::files;
use crate::firmware::{Decoder, MEMORY, OUTPUT};
use crate::seeded::Seeded;
use crate::source::mpeg::audio::Audio;
use crate::source::mpeg::buffer::Buffer;
use crate::tag;
use std::path::Path;

const ROUNDS: usize = 31;
const LENGTH: usize = 65_536;
const START: usize = 3;

#[inline(never)]
fn source_run(buffer: &mut Buffer, at: usize, width: usize, times: usize) -> u64 {
    buffer.stand(at);
    let mut sum = 0;
    for _ in 0..times {
        sum += buffer.read(width) as u64;
    }
    sum
}

pub fn reader() {
    let stream = Seeded::new(0).bytes(LENGTH, Seeded::byte);
    let mut buffer = Buffer::new(stream.clone());
    let mut sums = [0.0; 2];
    println!("read, {LENGTH} bytes, median of {ROUNDS} interleaved rounds, ns a field");
    println!("width   Rust   ours  ratio");
    for width in (1..=16).chain([32]) {
        let times = (LENGTH * 8 - START) / width;
        let mut rounds = [Vec::new(), Vec::new()];
        for _ in 0..ROUNDS {
            let (source_time, source_sum) = timed(|| source_run(&mut buffer, START, width, times));
            let (our_time, our_sum) = timed(|| tag::read_run(&stream, START, width, times));
            assert_eq!(our_sum, source_sum, "the sums of width {width} differ");
            rounds[0].push(source_time / times as f64);
            rounds[1].push(our_time / times as f64);
        }
        let [source, ours] = rounds.map(median);
        sums[0] += source;
        sums[1] += ours;
        println!("{width:>5} {source:>6.2} {ours:>6.2} {:>6.2}", ours / source);
    }
    println!("  sum {:>6.2} {:>6.2} {:>6.2}", sums[0], sums[1], sums[1] / sums[0]);
}

/// The unchanged Rust on a whole stream: its time, without the copy of the stream that it owns, and the frames played.
pub fn by_source(stream: &[u8]) -> (f64, i64) {
    let own = stream.to_vec();
    timed(move || {
        let mut audio = Audio::new(own);
        let mut frames = 0;
        while let Some(samples) = audio.decode() {
            std::hint::black_box(samples.interleaved[0]);
            frames += 1;
        }
        frames
    })
}

/// The port on a whole stream.
pub fn by_port(stream: &[u8]) -> (f64, i64) {
    let (mut memory, mut output) = ([0.0; MEMORY], [0.0; OUTPUT]);
    timed(|| {
        let (mut d, _) = Decoder::new(stream, &mut memory, 0);
        let mut frames = 0;
        while d.decode(stream, &mut memory, &mut output).is_ok() {
            std::hint::black_box(output[0]);
            frames += 1;
        }
        frames
    })
}

/// Another decoder, from a shared library that `run` built if the decoder is installed: its one function is `play`.
struct Other {
    name: &'static str,
    play: extern "C" fn(*const u8, usize) -> std::ffi::c_long,
}

#[link(name = "dl")]
extern "C" {
    fn dlopen(path: *const std::ffi::c_char, flags: i32) -> *mut std::ffi::c_void;
    fn dlsym(library: *mut std::ffi::c_void, name: *const std::ffi::c_char) -> *mut std::ffi::c_void;
}

fn others(folder: &Path) -> Vec<Other> {
    const NOW: i32 = 2;
    let mut found = Vec::new();
    for name in ["mpg123", "mpg123-c", "mad", "mp2", "mp2float"] {
        let path = std::ffi::CString::new(format!("{}/{name}.so", folder.display())).unwrap();
        let library = unsafe { dlopen(path.as_ptr(), NOW) };
        if library.is_null() {
            println!("{name}: not installed, left out");
            continue;
        }
        let play = unsafe { dlsym(library, c"play".as_ptr()) };
        assert!(!play.is_null(), "{name} has no function play");
        // Safe: the libraries are those of compare/others, whose `play` has this type.
        let play = unsafe {
            std::mem::transmute::<*mut std::ffi::c_void, extern "C" fn(*const u8, usize) -> std::ffi::c_long>(play)
        };
        found.push(Other { name, play });
    }
    found
}

const KBPS: [usize; 16] = [0, 32, 48, 56, 64, 80, 96, 112, 128, 160, 192, 224, 256, 320, 384, 0];

/// The frames of an encoder's stream that have its commonest format, as twolame's joint stereo changes between two.
pub fn frames_of(stream: &[u8]) -> Vec<&[u8]> {
    let mut all: Vec<Vec<&[u8]>> = vec![Vec::new(); 4];
    let mut at = 0;
    while at + 4 <= stream.len() {
        let head = &stream[at..];
        let size = 144_000 * KBPS[head[2] as usize >> 4] / 44_100 + (head[2] >> 1 & 1) as usize;
        if head[0] != 0xFF || at + size > stream.len() {
            break;
        }
        all[head[3] as usize >> 6].push(&stream[at..at + size]);
        at += size;
    }
    all.into_iter().max_by_key(Vec::len).unwrap()
}

/// One stream in ten parts: each part by every decoder in turn, so that all meet the machine in the same mood.
fn decoders(name: &str, stream: &[u8], others: &[Other], rounds: usize) {
    let frames = frames_of(stream);
    let parts: Vec<Vec<u8>> = frames.chunks(frames.len().div_ceil(10)).map(<[_]>::concat).collect();
    let (count, bytes) = (frames.len(), parts.concat().len());
    println!(
        "{name}: {count} frames, {bytes} bytes, in {} parts, {rounds} rounds",
        parts.len()
    );
    let mut times: Vec<Vec<f64>> = vec![Vec::new(); 2 + others.len()];
    let mut played = vec![0; times.len()];
    for part in (0..rounds).flat_map(|_| &parts) {
        for (i, list) in times.iter_mut().enumerate() {
            let (time, frames) = match i {
                0 => by_source(part),
                1 => by_port(part),
                _ => timed(|| (others[i - 2].play)(part.as_ptr(), part.len()) as i64),
            };
            list.push(time / frames.max(1) as f64);
            played[i] += frames;
        }
    }
    assert_eq!(played[0], played[1], "frames played");
    let names = ["the Rust", "ours"]
        .into_iter()
        .chain(others.iter().map(|other| other.name));
    played.iter_mut().for_each(|frames| *frames /= rounds as i64);
    table(names, &times, &played);
}

/// A line for each decoder: frames, time, and its ratio to the Rust on the same part.
fn table<'a>(names: impl Iterator<Item = &'a str>, times: &[Vec<f64>], played: &[i64]) {
    println!("  decoder   frames  µs a frame  to the Rust  (half of the parts within)");
    for ((name, list), played) in names.zip(times).zip(played) {
        let ratios = list.iter().zip(&times[0]).map(|(time, source)| time / source).collect();
        let [low, middle, high] = quartiles(ratios);
        let micros = median(list.clone()) / 1e3;
        println!("  {name:<9} {played:>6}  {micros:>10.2}  {middle:>11.3}  ({low:.3} .. {high:.3})");
    }
}

/// Where a frame's time goes. The same stream with every payload silent still has all its transforms and windows, and
/// no codes: what it takes is the sound's, the rest is the reading's.
fn shares(name: &str, stream: &[u8], rounds: usize) {
    let frames = frames_of(stream);
    let part = frames[..frames.len().min(1_000)].concat();
    let silent: Vec<u8> = frames[..frames.len().min(1_000)]
        .iter()
        .flat_map(|frame| [&frame[..4], &vec![0; frame.len() - 4]].concat())
        .collect();
    let mut times = [(); 4].map(|_| Vec::new());
    for _ in 0..rounds {
        for (i, (time, frames)) in [by_source(&part), by_port(&part), by_source(&silent), by_port(&silent)]
            .into_iter()
            .enumerate()
        {
            times[i].push(time / frames as f64 / 1e3);
        }
    }
    let [source, ours, source_silent, ours_silent] = times.map(median);
    println!("  {name}: µs a frame, the Rust / ours / ratio");
    for (what, a, b) in [
        ("reading and dequantising", source - source_silent, ours - ours_silent),
        ("transform and window", source_silent, ours_silent),
        ("whole frame", source, ours),
    ] {
        println!("    {what:<26} {a:>7.2} {b:>7.2} {:>6.3}", b / a);
    }
}

/// Every stream of a folder, with the other decoders that are in it.
pub fn streams(folder: &Path, rounds: usize) {
    let others = others(folder);
    let files = files(folder);
    println!("decoders, CPU time, each part by each decoder in turn");
    for (path, stream) in &files {
        decoders(&path.file_stem().unwrap().to_string_lossy(), stream, &others, rounds);
    }
    println!("where a frame's time goes");
    for (path, stream) in &files {
        shares(&path.file_stem().unwrap().to_string_lossy(), stream, 5 * rounds);
    }
}
