//! The decoder's four calls, for Rust, in editions 2021 and 2024. Link libtag.a; README.md beside this file says where it
//! comes from. tag.h has the same calls for C, and says what the numbers mean and what the processor has to do. No
//! allocation, no panic; `core` is enough. Counts and places are 64 bits wide on every processor.
#![allow(dead_code)]

pub const STREAM: usize = 16_777_216;
pub const MEMORY: usize = 2_048;
pub const OUTPUT: usize = 2_304;
pub const PLACES: usize = 8;
pub const COUNTS: usize = 8;
/// The layout of a saved state: save it beside the state, and go on with no other.
pub const LAYOUT: u32 = 1;

/// What stands where in a decoder's `places`.
pub mod place {
    pub const POSITION: usize = 0;
    pub const SAMPLE_RATE: usize = 1;
    pub const BIT_RATE: usize = 2;
    pub const BOUND: usize = 3;
    pub const PENDING: usize = 4;
    /// The place of the last slot in the memory.
    pub const RING: usize = 5;
    /// Kept for later, written 0 and not read today.
    pub const FRAME_END: usize = 6;
    /// An answer, which no call reads: see `Decoder::skipped`.
    pub const SKIPPED: usize = 7;
}

/// The same for `counts`. The five behind these are kept for later, written 0 and not read today.
pub mod count {
    pub const MODE: usize = 0;
    pub const FRAMES: usize = 1;
    pub const CHOICES: usize = 2;
}

/// What `Decoder::new` can be asked for. The other bits have no effect yet.
pub mod choice {
    /// 32, 48, 56 and 80 kbps in mono alone, 224, 256, 320 and 384 kbps never in mono, as the standard has it: a header with
    /// another pair is refused with 13. Without it every pair is played.
    pub const STRICT: u32 = 1;
}

/// The calls themselves. A slice is lent as a pointer and a length, an array as a pointer.
pub mod boundary {
    use super::{COUNTS, PLACES};

    unsafe extern "C" {
        pub fn tag_open(
            stream: *const u8,
            stream_count: u64,
            memory: *mut f32,
            memory_count: u64,
            places: *mut [u64; PLACES],
            counts: *mut [u32; COUNTS],
            time: *mut [f64; 1],
            choices: u32,
        ) -> u32;
        pub fn tag_format(
            stream: *const u8,
            stream_count: u64,
            places: *mut [u64; PLACES],
            counts: *mut [u32; COUNTS],
            time: *mut [f64; 1],
            rate: *mut [u32; 1],
            kbps: *mut [u32; 1],
            mode: *mut [u32; 1],
        ) -> u32;
        pub fn tag_decode(
            stream: *const u8,
            stream_count: u64,
            memory: *mut f32,
            memory_count: u64,
            output: *mut f32,
            output_count: u64,
            places: *mut [u64; PLACES],
            counts: *mut [u32; COUNTS],
            time: *mut [f64; 1],
            start: *mut [f64; 1],
            bits: *mut [u64; 1],
        ) -> u32;
        pub fn tag_samples16(output: *const f32, output_count: u64, samples: *mut i16, samples_count: u64) -> u32;
    }
}

/// Why a call did not do what it was asked for: the number of document 01 or 02, with the names of crates/audio/specs/Numbers.
#[derive(Clone, Copy, Debug, PartialEq, Eq)]
pub struct Refusal(pub u32);

impl Refusal {
    pub const NO_HEADER_CAN_FOLLOW: Refusal = Refusal(1);
    pub const NO_SYNC: Refusal = Refusal(2);
    pub const OTHER_LAYER: Refusal = Refusal(3);
    pub const NO_BIT_RATE: Refusal = Refusal(4);
    pub const NO_SAMPLE_RATE: Refusal = Refusal(5);
    pub const OTHER_FORMAT: Refusal = Refusal(6);
    pub const CUT_OFF: Refusal = Refusal(7);
    pub const LONG_STREAM: Refusal = Refusal(8);
    pub const LITTLE_ROOM: Refusal = Refusal(9);
    pub const BAD_STATE: Refusal = Refusal(10);
    /// A bit rate that the standard does not have in this mode; with `choice::STRICT` alone.
    pub const BARRED_RATE: Refusal = Refusal(13);

    /// Whether no later call on the same stream decodes anything. If the stream grows, the next call goes on in it.
    pub fn ends(self) -> bool {
        self == Refusal::NO_HEADER_CAN_FOLLOW || self == Refusal::CUT_OFF
    }

    /// Whether the caller lent or saved something wrong: the same call gives the same number until that is mended.
    pub fn callers_mistake(self) -> bool {
        self == Refusal::LONG_STREAM || self == Refusal::LITTLE_ROOM || self == Refusal::BAD_STATE
    }

    /// Whether a player's loop goes on. After every number but 1, 7, 8, 9 and 10 the next call may give a frame.
    pub fn goes_on(self) -> bool {
        !self.ends() && !self.callers_mistake()
    }
}

/// What stands in `Format`'s `mode`, and in the state.
pub mod mode {
    pub const STEREO: u32 = 0;
    pub const JOINT_STEREO: u32 = 1;
    pub const TWO_CHANNELS: u32 = 2;
    pub const MONO: u32 = 3;
}

/// A clip's format: samples a second, kilobits a second, and its `mode`.
#[derive(Clone, Copy, Debug, PartialEq, Eq)]
pub struct Format {
    pub rate: u32,
    pub kbps: u32,
    pub mode: u32,
}

/// A frame that was decoded: its start in seconds, and the bits that it used.
#[derive(Clone, Copy, Debug, PartialEq)]
pub struct Frame {
    pub start: f64,
    pub bits: u64,
}

/// A decoder's state, as plain numbers, laid out as C's `struct tag_state`. With its memory it can be kept between two
/// calls and taken up again, on any processor; the time bit for bit.
#[repr(C)]
#[derive(Clone, Copy, Debug, PartialEq)]
pub struct Decoder {
    /// See `place`.
    pub places: [u64; PLACES],
    /// See `count`.
    pub counts: [u32; COUNTS],
    /// When the next frame starts, in seconds.
    pub time: [f64; 1],
}

const _: () = assert!(core::mem::size_of::<Decoder>() == 104);

fn answer<T>(number: u32, value: T) -> Result<T, Refusal> {
    match number {
        0 => Ok(value),
        _ => Err(Refusal(number)),
    }
}

impl Decoder {
    /// Clears the memory and tries the first header. The decoder can go on, but after 8 or 9 nothing was cleared: open
    /// again. `skipped` is how many bytes stand in front of that header's FF. `choices` is 0 or `choice::STRICT`, and holds
    /// until the next opening.
    pub fn new(stream: &[u8], memory: &mut [f32], choices: u32) -> (Decoder, Result<(), Refusal>) {
        let mut d = Decoder {
            places: [0; PLACES],
            counts: [0; COUNTS],
            time: [0.0],
        };
        let (data, length) = (stream.as_ptr(), stream.len() as u64);
        let (ring, room) = (memory.as_mut_ptr(), memory.len() as u64);
        let (places, counts, time) = (&mut d.places, &mut d.counts, &mut d.time);
        // Safe, here and below: each pointer and length is that of a slice or an array lent for the call.
        let number = unsafe { boundary::tag_open(data, length, ring, room, places, counts, time, choices) };
        (d, answer(number, ()))
    }

    /// The clip's format. If a header is known, its format is told, whatever follows in the stream. If none is, the next one
    /// is tried; if it is accepted, `decode` does not seek it again: its frame comes next. The format stays until the next
    /// opening. `skipped` is how many bytes the attempt passed over; 0 where a header is known.
    pub fn format(&mut self, stream: &[u8]) -> Result<Format, Refusal> {
        let (mut rate, mut kbps, mut mode) = ([0], [0], [0]);
        let (data, length) = (stream.as_ptr(), stream.len() as u64);
        let (places, counts, time) = (&mut self.places, &mut self.counts, &mut self.time);
        let number =
            unsafe { boundary::tag_format(data, length, places, counts, time, &mut rate, &mut kbps, &mut mode) };
        let format = Format {
            rate: rate[0],
            kbps: kbps[0],
            mode: mode[0],
        };
        answer(number, format)
    }

    /// The next frame, to the output's first 2,304 values. 1.0 is full scale, and a loud clip goes beyond it. A refusal
    /// leaves memory and output. `skipped` is how many bytes were passed over from the next whole byte behind the last call;
    /// 0 where the header was found by an earlier call.
    pub fn decode(&mut self, stream: &[u8], memory: &mut [f32], output: &mut [f32]) -> Result<Frame, Refusal> {
        let (mut start, mut bits) = ([0.0], [0]);
        let number = unsafe {
            boundary::tag_decode(
                stream.as_ptr(),
                stream.len() as u64,
                memory.as_mut_ptr(),
                memory.len() as u64,
                output.as_mut_ptr(),
                output.len() as u64,
                &mut self.places,
                &mut self.counts,
                &mut self.time,
                &mut start,
                &mut bits,
            )
        };
        let frame = Frame {
            start: start[0],
            bits: bits[0],
        };
        answer(number, frame)
    }

    /// The bytes that the last call passed over: up to the FF of the header that it met, also where that was refused, or
    /// with 2 up to the stream's end; 0 where no header was sought, and with 1, 8, 9 and 10. Added up over `new` and
    /// `format` until the format is told, they are the junk in front of a clip. Bytes that were taken for a header and
    /// refused are not among them.
    pub fn skipped(&self) -> u64 {
        self.places[place::SKIPPED]
    }
}

/// A frame's values as a converter wants them: 16 bits, rounded to nearest, halves away from zero, and held within the
/// range. Refused with 9, and nothing is written, if either has fewer than 2,304 places.
pub fn samples16(output: &[f32], samples: &mut [i16]) -> Result<(), Refusal> {
    let (values, count) = (output.as_ptr(), output.len() as u64);
    let number = unsafe { boundary::tag_samples16(values, count, samples.as_mut_ptr(), samples.len() as u64) };
    answer(number, ())
}
