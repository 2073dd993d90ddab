//! Named streams for `wav`: what has no frame, junk in front, formats in turn, the longest streams and longer ones, and
//! the most frames.

use crate::by_02::LONGEST;
use crate::loud;
use crate::seeded::Seeded;

/// A class, a name in it, and the stream.
pub type Named = (&'static str, String, Vec<u8>);

/// Headers of 32 kbps mono by sample rate, each with the bytes of its frame's data; and one of stereo.
const MONO_44100: ([u8; 4], usize) = ([0xFF, 0xFD, 0x10, 0xC0], 100);
const MONO_48000: ([u8; 4], usize) = ([0xFF, 0xFD, 0x14, 0xC0], 92);
const MONO_32000: ([u8; 4], usize) = ([0xFF, 0xFD, 0x18, 0xC0], 140);
const STEREO: ([u8; 4], usize) = ([0xFF, 0xFD, 0x10, 0x00], 100);

/// A silent frame, so many bytes short.
fn silent((header, size): ([u8; 4], usize), short: usize) -> Vec<u8> {
    [&header[..], &vec![0; size - short]].concat()
}

fn loud_stereo() -> Vec<u8> {
    loud::frame(&loud::SHAPES[2], 9, |slot, place| (slot * 999 + place * 7_001) as u16)
}

fn junk(length: usize) -> Vec<u8> {
    Seeded::new(2).bytes(length, |s| s.byte() & 0x7F)
}

fn no_frame() -> Vec<Named> {
    let refused = vec![0xFF, 0xF3, 0xFF, 0xFD, 0, 0xFF, 0xFD, 0xF0, 0xFF, 0xFD, 0x1C, 0, 0, 0];
    let named = [
        ("empty", Vec::new()),
        ("five bytes of a frame", silent(MONO_48000, 91)),
        ("junk", junk(3_000)),
        ("48 kHz, one byte short", silent(MONO_48000, 1)),
        ("32 kHz, one byte short", silent(MONO_32000, 1)),
        ("junk, then 48 kHz, cut", [junk(3_000), silent(MONO_48000, 40)].concat()),
        ("refused with 3, 4 and 5", refused),
    ];
    named
        .map(|(name, stream)| ("no frame", name.to_string(), stream))
        .into()
}

fn junk_in_front(clip: &[u8]) -> Vec<Named> {
    let one = |length| [&junk(length), clip].concat();
    let named = |length| ("junk in front", format!("{length} bytes"), one(length));
    [1, 5, 36, 44, 600, 3_000].map(named).into()
}

/// Each kind of junk in front of each kind of header, one byte of it and seven.
fn junk_of_each_kind() -> Vec<Named> {
    let all = [1, 7].into_iter().flat_map(crate::junk::every);
    all.map(|junk| ("junk of each kind", junk.name, junk.stream)).collect()
}

/// Every two of five formats, one frame after the other: of two that differ the second is refused with 6.
fn formats() -> Vec<Named> {
    let quiet = [MONO_44100, MONO_48000, MONO_32000, STEREO].map(|format| silent(format, 0));
    let kinds = [&quiet[..], &[loud_stereo()]].concat();
    let pair = |i: usize| {
        let (a, b) = (&kinds[i / 5][..], &kinds[i % 5][..]);
        (
            "formats in turn",
            format!("{} and {}", i / 5, i % 5),
            [a, b, a, b, a].concat(),
        )
    };
    (0..25).map(pair).collect()
}

/// The longest streams, and some of which nothing is written.
fn lengths(clip: &[u8]) -> Vec<Named> {
    let long = clip.repeat(10);
    let filled = |byte: u8| ("65,536 bytes", format!("{byte:02X}"), vec![byte; LONGEST]);
    let cut = |class, length: usize| (class, format!("clips, {length} bytes"), long[..length].to_vec());
    let longer = [LONGEST + 1, LONGEST + 2, 2 * LONGEST, 200_000].map(|length| cut("more than 65,536 bytes", length));
    let longest = [filled(0), filled(0xFF), filled(0x31), cut("65,536 bytes", LONGEST)];
    longest.into_iter().chain(longer).collect()
}

/// The most frames that a stream can have, 8,181: an empty one takes 8 bytes, header and allocations, and goes on behind
/// them; only the last must have all of its data.
pub fn dense() -> Vec<u8> {
    [&MONO_48000.0[..], &[0; 4]].concat().repeat(LONGEST / 8)
}

/// The same behind a loud frame, which rings on in the second.
fn dense_behind() -> Vec<u8> {
    let mut stream = loud::frame(&loud::SHAPES[1], 6, |slot, place| (slot * 1_777 + place * 9_001) as u16);
    stream.resize(stream.len().div_ceil(8) * 8, 0);
    stream.extend(&dense()[stream.len()..]);
    stream
}

pub fn named(clip: &[u8]) -> Vec<Named> {
    let behind = (
        "a header every 8 bytes",
        "behind a loud frame".to_string(),
        dense_behind(),
    );
    let parts = [
        no_frame(),
        junk_in_front(clip),
        junk_of_each_kind(),
        formats(),
        lengths(clip),
        vec![behind],
    ];
    parts.concat()
}
