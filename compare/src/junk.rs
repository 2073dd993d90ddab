//! Junk in front of headers, which E2 of document 02 counts: each kind of it, of each length, in front of each kind of header.
#![cfg_attr(any(layer = "cortex", layer = "wav"), allow(dead_code))]

use crate::seeded::Seeded;

/// Junk: its name, whether an attempt passes over all of it to a sync that a search finds, and so many bytes of it.
type Front = (&'static str, bool, fn(usize) -> Vec<u8>);

/// The last five have eleven ones, or half a sync: a header of another layer is met there, or the search goes by.
const FRONTS: [Front; 9] = [
    ("zeros", true, |n| vec![0; n]),
    ("text", true, text),
    ("zeros, then text", true, |n| [vec![0; n / 2], text(n - n / 2)].concat()),
    ("text, then zeros", true, |n| [text(n / 2), vec![0; n - n / 2]].concat()),
    ("FF", false, |n| vec![0xFF; n]),
    ("FF FB again and again", false, |n| [0xFF, 0xFB].repeat(n)[..n].to_vec()),
    ("text and FF", false, |n| ending(text(n), &[0xFF])),
    ("text and FF FB", false, |n| ending(text(n), &[0xFF, 0xFB])),
    ("zeros and FF", false, |n| ending(vec![0; n], &[0xFF])),
];

fn text(n: usize) -> Vec<u8> {
    vec![0x31; n]
}

/// Junk of the same length that ends with these bytes, or with as many of them as it has room for.
fn ending(mut junk: Vec<u8>, last: &[u8]) -> Vec<u8> {
    junk.extend(last);
    junk.split_off(last.len())
}

/// A header: its name, whether a search finds it, its bytes, and how many zeros follow.
type Kind = (&'static str, bool, &'static [u8], usize);

/// 32 kbps, 44.1 kHz, mono: 104 bytes.
const FRAME: Kind = ("accepted", true, &[0xFF, 0xFD, 0x10, 0xC0], 100);

const KINDS: [Kind; 16] = [
    FRAME,
    ("with a check word", true, &[0xFF, 0xFC, 0x10, 0xC0, 0x12, 0x34], 98),
    ("data cut off", true, &[0xFF, 0xFD, 0x10, 0xC0], 99),
    ("refused with 4", true, &[0xFF, 0xFD, 0xF0, 0xC0], 100),
    ("refused with 5", true, &[0xFF, 0xFD, 0x1C, 0xC0], 100),
    ("refused with 6 behind a frame", true, &[0xFF, 0xFD, 0x20, 0xC0], 152),
    ("32 kbps in stereo", true, &[0xFF, 0xFD, 0x10, 0x00], 100),
    ("cut after 2 bytes", true, &[0xFF, 0xFC], 0),
    ("cut after 3 bytes", true, &[0xFF, 0xFD, 0x10], 0),
    ("cut after 4 bytes", true, &[0xFF, 0xFC, 0x10, 0xC0], 0),
    ("cut after 5 bytes", true, &[0xFF, 0xFC, 0x10, 0xC0, 0x12], 0),
    ("another version", false, &[0xFF, 0xF3, 0x10, 0xC0], 100),
    ("another layer", false, &[0xFF, 0xFB, 0x10, 0xC0], 100),
    ("cut after FF", false, &[0xFF], 0),
    ("a byte that is none", false, &[0x31], 0),
    ("nothing", false, &[], 0),
];

fn bytes_of((_, _, header, zeros): Kind) -> Vec<u8> {
    [header, &vec![0; zeros]].concat()
}

/// Any junk of that length.
pub fn some(s: &mut Seeded, length: usize) -> Vec<u8> {
    let (_, _, junk) = s.one_of(&FRONTS);
    junk(length)
}

/// Any header, with what follows it.
pub fn some_header(s: &mut Seeded) -> Vec<u8> {
    bytes_of(s.one_of(&KINDS))
}

pub struct Junk {
    pub name: String,
    pub stream: Vec<u8>,
    /// The byte where the junk begins.
    pub at: usize,
    /// How many bytes an attempt from there passes over, where that is known from how the stream was made.
    pub passed: Option<usize>,
}

/// Junk of one length at the start, behind a frame, and behind a header that is refused within a byte.
pub fn every(length: usize) -> Vec<Junk> {
    let places = [
        ("at the start", Vec::new()),
        ("behind a frame", bytes_of(FRAME)),
        ("within a byte", vec![0xFF, 0xFD, 0xF0]),
    ];
    let mut all = Vec::new();
    for (place, before) in places {
        for (front, passed, junk) in FRONTS {
            for kind in KINDS {
                let behind = [junk(length), bytes_of(kind)].concat();
                // An attempt needs 48 bits.
                let known = passed && kind.1 && 6 <= behind.len();
                all.push(Junk {
                    name: format!("{place}, {front}, {length} bytes, {}", kind.0),
                    at: before.len(),
                    stream: [&before[..], &behind].concat(),
                    passed: known.then_some(length),
                });
            }
        }
    }
    all
}
