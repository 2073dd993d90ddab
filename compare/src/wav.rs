//! The program `wav` on whole streams: its file, byte for byte, beside the one that `by_02` writes of the Rust's samples.

use crate::by_02::{steps, written, LONGEST};
use crate::classes::{Clips, STREAMS};
use crate::corners;
use crate::files::files;
use crate::loud;
use crate::seeded::Seeded;
use crate::summary::summary;
use crate::tally::{first_difference, hex, Tally};
use std::io::{Read, Write};
use std::process::{Command, Output, Stdio};
use std::time::Duration;

/// What was played in all, and how often it came to a corner of the rounding.
#[derive(Default)]
struct Sound {
    frames: usize,
    counts: [usize; CORNERS.len()],
}

/// The corners, each by the sample in steps. A half is one that no holding hides.
const CORNERS: [(&str, fn(f64) -> bool); 7] = [
    ("exact halves above zero", |v| half(v) && v > 0.0),
    ("exact halves below zero", |v| half(v) && v < 0.0),
    ("of these with an even number nearer to zero", |v| {
        half(v) && v.trunc() % 2.0 == 0.0
    }),
    ("held at 32767", |v| v.round() > 32_767.0),
    ("held at -32768", |v| v.round() < -32_768.0),
    ("minus zero", |v| v == 0.0 && v.is_sign_negative()),
    ("not zero, and rounded to it", |v| v != 0.0 && v.round() == 0.0),
];

fn half(value: f64) -> bool {
    value.fract().abs() == 0.5 && (-32_768.0..=32_767.0).contains(&value.round())
}

impl Sound {
    fn add(&mut self, samples: &[f32]) {
        self.frames += samples.len() / 2_304;
        for &sample in samples {
            let value = sample as f64 * 32_768.0;
            for (count, (_, is)) in self.counts.iter_mut().zip(CORNERS) {
                *count += is(value) as usize;
            }
        }
    }

    fn print(&self) {
        println!("samples\n{:>10}  frames of 2,304", self.frames);
        for (count, (name, _)) in self.counts.iter().zip(CORNERS) {
            println!("{count:>10}  {name}");
        }
    }
}

/// Handed to the program at once.
const WHOLE: usize = usize::MAX;

/// Runs the program on a stream, handed over in pieces of so many bytes with pauses between, as by a slow pipe. `WAV` has
/// the words that start it.
fn run(stream: &[u8], piece: usize) -> Output {
    let words = std::env::var("WAV").expect("WAV: the program");
    let mut words = words.split_whitespace();
    let mut command = Command::new(words.next().expect("WAV: the program"));
    command
        .args(words)
        .stdin(Stdio::piped())
        .stdout(Stdio::piped())
        .stderr(Stdio::piped());
    let mut child = command.spawn().expect("the program starts");
    let mut to = child.stdin.take().unwrap();
    std::thread::scope(|scope| {
        scope.spawn(move || {
            for part in stream.chunks(piece) {
                // Of a stream that is too long the program need not read the rest.
                if to.write_all(part).is_err() {
                    return;
                }
                if part.len() < stream.len() {
                    std::thread::sleep(Duration::from_millis(1));
                }
            }
        });
        child.wait_with_output().unwrap()
    })
}

/// A program has no exit status of its own; `./run` gives 1 where nothing was played.
fn status(samples: &[f32]) -> i32 {
    let by_run = std::env::var("WAV").is_ok_and(|words| words.starts_with("./run"));
    (by_run && samples.is_empty()) as i32
}

struct Layer<'a> {
    tally: &'a mut Tally,
    sound: Sound,
}

impl Layer<'_> {
    fn compare(&mut self, class: &str, name: &str, stream: &[u8]) -> Vec<f32> {
        self.handed(class, name, stream, WHOLE)
    }

    /// One stream: exit status, the line on standard error, and the file. Gives what the Rust plays.
    fn handed(&mut self, class: &str, name: &str, stream: &[u8], piece: usize) -> Vec<f32> {
        self.tally.stream(class);
        let (samples, expected) = written(stream);
        self.sound.add(&samples);
        let kind = match (expected.is_empty(), samples.is_empty()) {
            (true, _) => "nothing written",
            (_, true) => "files without a frame",
            _ => "files with frames",
        };
        let output = run(stream, piece);
        let at = first_difference(&output.stdout, &expected).map(|(at, _, _)| at);
        let seen = |file: &[u8]| (file.len(), at.and_then(|at| file.get(at).copied()));
        let said = String::from_utf8_lossy(&output.stderr).into_owned();
        self.tally.same(
            kind,
            (output.status.code(), said, seen(&output.stdout)),
            (Some(status(&samples)), summary(stream), seen(&expected)),
            || format!("{class}, {name}: first differing byte {at:?}; {}", hex(stream)),
        );
        samples
    }
}

/// The stored streams, both clips, and clips joined.
fn stored(layer: &mut Layer) {
    for folder in ["crates/replay/data", "clips"] {
        for (path, stream) in files(folder.as_ref()) {
            layer.compare(&format!("files of {folder}"), &path.to_string_lossy(), &stream);
        }
    }
    let clips = files("clips".as_ref());
    for (first, a) in &clips {
        for (second, b) in &clips {
            let name = format!("{}, then {}", first.display(), second.display());
            layer.compare("clips joined", &name, &[&a[..], b].concat());
        }
    }
}

/// Streams that come in pieces: a read gives what is there, and that need not be all.
fn in_pieces(layer: &mut Layer, clip: &[u8]) {
    for (length, piece) in [
        (clip.len(), 1_000),
        (LONGEST, 5_000),
        (LONGEST, LONGEST - 1),
        (LONGEST + 1, LONGEST),
    ] {
        let stream = &clip.repeat(3)[..length];
        layer.handed("in pieces", &format!("{length} bytes by {piece}"), stream, piece);
    }
}

/// Exact halves, each where it was meant to be, and what is too loud on both sides.
fn rounding(layer: &mut Layer) {
    let (stream, places) = loud::halves();
    let samples = layer.compare("exact halves, one by one", "±1/2 to ±199/2", &stream);
    for (at, m) in places {
        let sample = samples[2 * at];
        let away = (m + m.signum()) / 2;
        layer.tally.same(
            "halves where they were meant, and rounded away from zero",
            (sample as f64 * 32_768.0, steps(sample) as i32),
            (m as f64 / 2.0, away),
            || format!("sample {at}"),
        );
    }
    for (number, shape) in loud::SHAPES.iter().enumerate() {
        let stream = loud::fullest(shape, &mut Seeded::new(number as u64));
        layer.compare("fullest codes and scale factors", &format!("shape {number}"), &stream);
    }
}

fn most_frames(layer: &mut Layer) {
    let samples = layer.compare("a header every 8 bytes", "8,181 frames", &corners::dense());
    let length = 44 + 2 * samples.len();
    layer
        .tally
        .same("the longest file", length, 37_698_092, || "8,181 frames".to_string());
}

/// The stream of one seed: the classes of `decode` in turn, and loud frames.
fn seeded(layer: &mut Layer, seed: u64, clips: &Clips) {
    let s = &mut Seeded::new(seed);
    let turn = (seed % (STREAMS.len() + 1) as u64) as usize;
    let (class, stream) = match STREAMS.get(turn) {
        Some((class, make)) => (*class, make(s, clips)),
        None => ("loud frames", loud::any(s)),
    };
    layer.compare(class, &format!("seed {seed}"), &stream);
}

/// [COUNT [SEED]]: the named streams, then so many seeded ones from SEED on.
pub fn compare(tally: &mut Tally, words: &[String]) {
    println!("wav: the program's exit status, its line on standard error and every byte of its file");
    let number = |at: usize| words.get(at).map(|word| word.parse::<u64>().expect("a number"));
    let (count, first) = (number(0).unwrap_or(2_500), number(1).unwrap_or(0));
    let lavender = std::fs::read("clips/lavender.mp2").unwrap();
    let mut layer = Layer {
        tally,
        sound: Sound::default(),
    };
    stored(&mut layer);
    for (class, name, stream) in corners::named(&lavender) {
        layer.compare(class, &name, &stream);
    }
    in_pieces(&mut layer, &lavender);
    rounding(&mut layer);
    most_frames(&mut layer);
    let clips = Clips::load();
    (first..first + count).for_each(|seed| seeded(&mut layer, seed, &clips));
    layer.sound.print();
}

/// The file of the stream on standard input, to standard output.
pub fn write() {
    let mut stream = Vec::new();
    std::io::stdin().read_to_end(&mut stream).unwrap();
    std::io::stdout().write_all(&written(&stream).1).unwrap();
}
