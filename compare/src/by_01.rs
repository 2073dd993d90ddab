//! A reading of 01 that shares no code with the port or the Rust: it tells which number belongs to a refusal, and by 02's
//! words how many bytes were passed over (E2) and what the strict reading refuses (E3). Where it is used its position and size
//! must be the Rust's, and in `header` and `answers` the byte of its FF too, so it can be wrong only where neither can tell.
#![cfg_attr(layer = "reader", allow(dead_code))]

use crate::source::Format;
use crate::strict;

/// A stream and a bit position, for the reading of 01.
struct Fields<'a> {
    stream: &'a [u8],
    at: usize,
}

impl Fields<'_> {
    fn left(&self) -> usize {
        (self.stream.len() * 8).saturating_sub(self.at)
    }

    /// A field, bit by bit; cut off it is 0 and the position stays.
    fn field(&mut self, width: usize) -> usize {
        if self.left() < width {
            return 0;
        }
        let mut value = 0;
        for _ in 0..width {
            value = value * 2 + (self.stream[self.at / 8] >> (7 - self.at % 8) & 1) as usize;
            self.at += 1;
        }
        value
    }

    /// Stands behind the first FF FC or FF FD, whose byte it gives, or one byte past the larger of the start and the last
    /// byte.
    fn search(&mut self) -> Option<usize> {
        let last = self.stream.len().saturating_sub(1);
        let from = self.at / 8;
        let pair = |&i: &usize| self.stream[i] == 0xFF && [0xFC, 0xFD].contains(&self.stream[i + 1]);
        let found = (from..last).find(pair);
        self.at = found.map_or((from.max(last) + 1) * 8, |i| (i + 1) * 8 + 3);
        found
    }

    /// Aligns, passes zero bytes, and stands behind eleven ones: those that come next, or those of a search. Gives the byte
    /// where they begin.
    fn sync(&mut self) -> Option<usize> {
        self.at = self.at.div_ceil(8) * 8;
        while self.stream.get(self.at / 8) == Some(&0) {
            self.at += 8;
        }
        let next = self.at / 8;
        match self.field(11) {
            0b111_1111_1111 => Some(next),
            _ => self.search(),
        }
    }

    /// 02: "to the FF of the sync, or to the stream's end if there is none; 0 past that end". That place, and the bytes from
    /// `first` to it.
    fn passed(&self, first: usize, found: Option<usize>) -> (usize, usize) {
        let to = found.unwrap_or(self.stream.len());
        (to, to.saturating_sub(first))
    }
}

/// The search by itself: whether it finds a sync, the position that it leaves, and what `passed` gives from the first byte
/// that it looks at.
#[cfg(layer = "reader")]
pub fn search_by_02(stream: &[u8], at: usize) -> [usize; 4] {
    let mut r = Fields { stream, at };
    let found = r.search();
    let (sync, skipped) = r.passed(at / 8, found);
    [found.is_some() as usize, r.at, sync, skipped]
}

const KBPS: [usize; 14] = [32, 48, 56, 64, 80, 96, 112, 128, 160, 192, 224, 256, 320, 384];
const HERTZ: [usize; 3] = [44_100, 48_000, 32_000];

/// 01's number for an attempt, the position that it leaves, and the data size that it announces, 0 where it is refused. By
/// 02 the byte of the FF, which is the stream's length with 2, and how many bytes were passed over up to there.
#[derive(Clone, Copy, Debug, PartialEq)]
pub struct Reading {
    pub number: u32,
    pub at: usize,
    pub size: usize,
    pub sync: usize,
    pub skipped: usize,
}

impl Reading {
    /// Without an attempt nothing is passed over, and the byte is the aligned start.
    fn unsought(number: u32, at: usize, size: usize) -> Self {
        Reading {
            number,
            at,
            size,
            sync: at.div_ceil(8),
            skipped: 0,
        }
    }
}

/// An attempt in 01's reading, the tolerant one.
#[cfg(not(layer = "decode"))]
pub fn by_01(stream: &[u8], at: usize, known: Format) -> Reading {
    attempt(stream, at, known, false)
}

/// An attempt in either reading.
pub fn attempt(stream: &[u8], at: usize, known: Format, strict: bool) -> Reading {
    let mut r = Fields { stream, at };
    if r.left() < 48 {
        return Reading::unsought(1, at, 0);
    }
    let found = r.sync();
    let (sync, skipped) = r.passed(at.div_ceil(8), found);
    let (number, size) = match found {
        Some(_) => behind_sync(&mut r, known, strict),
        None => (2, 0),
    };
    Reading {
        number,
        at: r.at,
        size,
        sync,
        skipped,
    }
}

/// The header's fields: the number, and the data size. 02 of 13: "after 5 and before 6; position as for 6".
fn behind_sync(r: &mut Fields, known: Format, strict: bool) -> (u32, usize) {
    let (version, layer, unprotected) = (r.field(2), r.field(2), r.field(1));
    if version != 3 || layer != 2 {
        return (3, 0);
    }
    let bitrate = r.field(4);
    if bitrate == 0 || bitrate == 15 {
        return (4, 0);
    }
    let samplerate = r.field(2);
    if samplerate == 3 {
        return (5, 0);
    }
    let (padding, _private, mode) = (r.field(1), r.field(1), r.field(2));
    if strict && !strict::has(bitrate, mode) {
        return (13, 0);
    }
    let format = (samplerate, bitrate - 1, mode);
    if known.samplerate_index != 3 && format != (known.samplerate_index, known.bitrate_index, known.mode % (1 << 32)) {
        return (6, 0);
    }
    let (_extension, _flags) = (r.field(2), r.field(4));
    if unprotected == 0 {
        r.field(16);
    }
    let frame = 144_000 * KBPS[bitrate - 1] / HERTZ[samplerate] + padding;
    (0, frame - if unprotected == 0 { 6 } else { 4 })
}

/// The same for a decode call, with the size of a pending header or 0. A frame's position is its first allocation bit.
#[cfg(any(layer = "decode", layer = "wav"))]
pub fn decode_by_01(stream: &[u8], at: usize, known: Format, pending: usize) -> Reading {
    decode_call(stream, at, known, pending, false)
}

/// A decode call in either reading: a header that is pending is not judged again.
pub fn decode_call(stream: &[u8], at: usize, known: Format, pending: usize, strict: bool) -> Reading {
    let header = match pending {
        0 => attempt(stream, at, known, strict),
        size => Reading::unsought(0, at, size),
    };
    let left = Fields { stream, at: header.at }.left();
    if header.number == 0 && left < 8 * header.size {
        return Reading { number: 7, ..header };
    }
    header
}
