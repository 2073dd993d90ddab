//! Seeded streams, by class. A seed gives the same stream wherever the files of crates/replay/data and clips/ are the same.

use crate::files::files;
use crate::frames::{format, FORMATS};
use crate::junk;
use crate::seeded::{header as some_header, Seeded, CORNERS};
use crate::source::Format;

/// What the mutations start from.
pub struct Clips(Vec<Vec<u8>>);

impl Clips {
    pub fn load() -> Self {
        let all = [files("clips".as_ref()), files("crates/replay/data".as_ref())].concat();
        Clips(all.into_iter().map(|(_, bytes)| bytes).collect())
    }

    /// A piece of some clip, mostly from a header on: from nothing to a handful of frames.
    fn piece(&self, s: &mut Seeded) -> Vec<u8> {
        let clip = &self.0[s.below(self.0.len())];
        let from = s.below(clip.len() + 1);
        let pair = |w: &[u8]| w[0] == 0xFF && w[1] & 0xFE == 0xFC;
        let ahead = clip[from..].windows(2).position(pair).unwrap_or(0);
        let from = if s.below(8) == 0 { from } else { from + ahead };
        let length = s.one_of(&[300, 900, 2_000, 3_500]);
        clip[from..clip.len().min(from + 1 + s.below(length))].to_vec()
    }
}

pub type Class = (&'static str, fn(&mut Seeded, &Clips) -> Vec<u8>);

pub const STREAMS: [Class; 11] = [
    ("frames of every format", |s, _| frames(s)),
    ("clip with bits turned", turned),
    ("clip with bytes taken out", taken_out),
    ("clip with bytes put in", put_in),
    ("clips spliced", |s, clips| {
        let pieces = 2 + s.below(3);
        (0..pieces).flat_map(|_| clips.piece(s)).collect()
    }),
    ("clip cut off", |s, clips| {
        let mut stream = clips.piece(s);
        stream.truncate(s.below(stream.len() + 1));
        stream
    }),
    ("headers among junk", headers_among_junk),
    ("any junk in front", junk_in_front),
    ("zero runs between frames", |s, _| zero_runs(s)),
    ("corner bytes", |s, _| {
        let length = s.below(200);
        s.bytes(length, |s| s.one_of(&CORNERS))
    }),
    ("any bytes", |s, _| {
        let length = s.below(700);
        s.bytes(length, Seeded::byte)
    }),
];

fn turned(s: &mut Seeded, clips: &Clips) -> Vec<u8> {
    let mut stream = clips.piece(s);
    for _ in 0..s.one_of(&[1, 2, 5, 30, 300]) {
        if !stream.is_empty() {
            let at = s.below(stream.len());
            stream[at] ^= 1 << s.below(8);
        }
    }
    stream
}

fn taken_out(s: &mut Seeded, clips: &Clips) -> Vec<u8> {
    let mut stream = clips.piece(s);
    for _ in 0..1 + s.below(4) {
        let from = s.below(stream.len() + 1);
        let to = stream.len().min(from + 1 + s.below(20));
        stream.drain(from..to);
    }
    stream
}

fn put_in(s: &mut Seeded, clips: &Clips) -> Vec<u8> {
    let mut stream = clips.piece(s);
    for _ in 0..1 + s.below(4) {
        let at = s.below(stream.len() + 1);
        let count = s.below(20);
        let bytes = match s.below(3) {
            0 => vec![0; count],
            1 => s.bytes(count, |s| s.one_of(&CORNERS)),
            _ => s.bytes(count, Seeded::byte),
        };
        stream.splice(at..at, bytes);
    }
    stream
}

fn headers_among_junk(s: &mut Seeded, _: &Clips) -> Vec<u8> {
    let mut stream = Vec::new();
    for _ in 0..1 + s.below(8) {
        let junk = s.below(30);
        stream.extend(s.bytes(junk, |s| if s.below(3) == 0 { s.byte() } else { s.one_of(&CORNERS) }));
        let mut header = some_header(s);
        header.truncate(1 + s.below(6));
        stream.extend(header);
    }
    let rest = s.below(250);
    stream.extend(s.bytes(rest, |s| s.byte() & s.byte()));
    stream
}

/// Junk of a few bytes or many, then a clip, frames, or one header with little behind it.
fn junk_in_front(s: &mut Seeded, clips: &Clips) -> Vec<u8> {
    let most = s.one_of(&[41, 41, 41, 2_000]);
    let length = s.below(most);
    let front = junk::some(s, length);
    let rest = match s.below(4) {
        0 => clips.piece(s),
        1 => frames(s),
        _ => junk::some_header(s),
    };
    [front, rest].concat()
}

/// Frames of one format with zeros in front of each and behind the last, some runs with a byte that is none at their end.
fn zero_runs(s: &mut Seeded) -> Vec<u8> {
    let own = format(s.below(FORMATS));
    let mut stream = Vec::new();
    for _ in 0..2 + s.below(3) {
        stream.extend(zeros(s));
        let extension = s.below(4);
        let (bytes, size) = header(own, extension, s);
        stream.extend(bytes);
        stream.extend(payload(s, size));
    }
    stream.extend(zeros(s));
    stream
}

fn zeros(s: &mut Seeded) -> Vec<u8> {
    let most = s.one_of(&[3, 41, 300]);
    let mut run = vec![0; s.below(most)];
    if s.below(4) == 0 {
        run.push(s.one_of(&CORNERS));
    }
    run
}

/// A header of that format, some with a check word, and the bytes of its frame's data.
pub fn header(f: Format, extension: usize, s: &mut Seeded) -> (Vec<u8>, usize) {
    let (check, padding) = (s.below(4) == 0, s.below(2));
    let rates = (f.bitrate_index + 1) << 4 | f.samplerate_index << 2 | padding << 1 | s.below(2);
    let mode = f.mode << 6 | extension << 4 | s.below(16);
    let mut bytes = vec![0xFF, if check { 0xFC } else { 0xFD }, rates as u8, mode as u8];
    if check {
        bytes.extend([s.byte(), s.byte()]);
    }
    let kbps = [32, 48, 56, 64, 80, 96, 112, 128, 160, 192, 224, 256, 320, 384][f.bitrate_index];
    let size = 144_000 * kbps / [44_100, 48_000, 32_000][f.samplerate_index] + padding - bytes.len();
    (bytes, size)
}

/// Bytes with few ones, so that few subbands are allocated, or any bytes.
pub fn payload(s: &mut Seeded, length: usize) -> Vec<u8> {
    let kind = s.below(3);
    s.bytes(length, |s| match kind {
        0 => s.byte() & s.byte() & s.byte() & s.byte(),
        1 => s.byte() & s.byte() & s.byte(),
        _ => s.byte(),
    })
}

/// Headers with payloads, sometimes of another format, with junk or zeros between, sometimes cut.
fn frames(s: &mut Seeded) -> Vec<u8> {
    let own = format(s.below(FORMATS));
    let mut stream = Vec::new();
    for _ in 0..1 + s.below(5) {
        match s.below(8) {
            0 => stream.extend(vec![0; s.below(9)]),
            1 => {
                let junk = s.below(20);
                stream.extend(s.bytes(junk, |s| s.one_of(&[0x00, 0xFF, 0xFC, 0xFD, 0xA0, 0x31])));
            }
            _ => {}
        }
        let f = if s.below(6) == 0 { format(s.below(FORMATS)) } else { own };
        let extension = s.below(4);
        let (bytes, size) = header(f, extension, s);
        stream.extend(bytes);
        stream.extend(payload(s, size));
    }
    if s.below(3) == 0 {
        stream.truncate(s.below(stream.len() + 1));
    }
    stream
}
