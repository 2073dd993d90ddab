//! Every two of the 56 pairs of bit rate and mode, 16 of which the standard has not (02, E3): a frame of the first, one of the
//! second, and one of the first again.

use crate::classes::{header, payload};
use crate::firmware::Decoder;
use crate::saved;
use crate::seeded::Seeded;
use crate::source::Format;

/// 14 bit rates and 4 modes.
pub const COUNT: usize = 14 * 4;

pub struct Two {
    pub stream: Vec<u8>,
    /// Two states that know the first pair: behind its header, with its frame pending, and behind its frame's data.
    pub states: [Decoder; 2],
}

fn pair(number: usize, samplerate_index: usize) -> Format {
    let mode = number % 4;
    Format {
        samplerate_index,
        bitrate_index: number / 4,
        mode,
        bound: [32, 8, 32, 0][mode],
    }
}

/// Pair `number / 56`, then pair `number % 56`, in most streams at one sampling rate.
pub fn two(number: usize, s: &mut Seeded) -> Two {
    let rate = s.below(3);
    let other = if s.below(4) == 0 { s.below(3) } else { rate };
    let (first, second) = (pair(number / COUNT, rate), pair(number % COUNT, other));
    let mut stream = Vec::new();
    let mut ends = Vec::new();
    for format in [first, second, first] {
        // The extension of the bound above.
        let (bytes, size) = header(format, 1, s);
        stream.extend(bytes);
        ends.push((stream.len(), size));
        stream.extend(payload(s, size));
    }
    let (data, size) = ends[0];
    Two {
        states: [(data, size), (data + size, 0)].map(|(byte, pending)| saved::knowing(first, 8 * byte, pending)),
        stream,
    }
}
