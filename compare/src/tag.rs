//! The static libraries' functions, with a slice passed as a pointer and a length, an array as a pointer. The decoder's
//! three calls go by the wrapper that firmware uses, ../../firmware/tag.rs.

mod boundary {
    extern "C" {
        #[cfg(layer = "reader")]
        pub fn reading_reader(
            call: u32,
            stream: *const u8,
            length: usize,
            at: usize,
            argument: usize,
            answer: *mut [usize; 4],
        ) -> u32;
        #[cfg(layer = "bench")]
        pub fn probe_read_run(stream: *const u8, length: usize, at: usize, width: usize, times: usize) -> u64;
        #[cfg(layer = "header")]
        pub fn reading_header(
            stream: *const u8,
            length: usize,
            at: usize,
            known: *const [usize; 4],
            answer: *mut [usize; 7],
        ) -> u32;
        #[cfg(any(layer = "codes", layer = "sound"))]
        pub fn probe_layout(mode: u32, bitrate: usize, samplerate: usize, bound: usize, answer: *mut [usize; 3]);
        #[cfg(any(layer = "codes", layer = "sound"))]
        pub fn probe_side(
            stream: *const u8,
            length: usize,
            at: usize,
            mono: bool,
            table: usize,
            bound: usize,
            limit: usize,
            quant: *mut [u8; 64],
            factor: *mut [u32; 192],
        ) -> usize;
        #[cfg(any(layer = "codes", layer = "sound"))]
        pub fn probe_granule(
            stream: *const u8,
            length: usize,
            at: usize,
            quant: *const [u8; 64],
            factor: *const [u32; 192],
            part: usize,
            bound: usize,
            limit: usize,
            sample: *mut [i32; 192],
        ) -> usize;
        #[cfg(layer = "sound")]
        pub fn probe_synthesize(
            memory: *mut f32,
            memory_length: usize,
            p: usize,
            sample: *const [i32; 192],
            output: *mut f32,
            output_length: usize,
            at: usize,
        ) -> usize;
    }
}

/// The number, and the answer: the value and the bit position afterwards; of a search the byte of the FF, and the bytes
/// passed over.
#[cfg(layer = "reader")]
pub fn reader(call: u32, stream: &[u8], at: usize, argument: usize) -> (u32, [usize; 4]) {
    let mut answer = [usize::MAX; 4];
    let number = unsafe { boundary::reading_reader(call, stream.as_ptr(), stream.len(), at, argument, &mut answer) };
    (number, answer)
}

/// The sum of `times` fields of `width` bits, read one after the other from bit `at`.
#[cfg(layer = "bench")]
pub fn read_run(stream: &[u8], at: usize, width: usize, times: usize) -> u64 {
    unsafe { boundary::probe_read_run(stream.as_ptr(), stream.len(), at, width, times) }
}

/// The number, and the answer: the bit position afterwards, the format (four), the pending data size, the byte of the FF.
#[cfg(layer = "header")]
pub fn header(stream: &[u8], at: usize, known: [usize; 4]) -> (u32, [usize; 7]) {
    let mut answer = [usize::MAX; 7];
    let number = unsafe { boundary::reading_header(stream.as_ptr(), stream.len(), at, &known, &mut answer) };
    (number, answer)
}

/// What the port reads of a frame.
#[cfg(any(layer = "codes", layer = "sound"))]
#[cfg_attr(layer = "sound", allow(dead_code))]
pub struct Read {
    /// The limit of subbands and the bound, cut to it.
    pub limit: usize,
    pub bound: usize,
    pub quant: [u8; 64],
    pub factor: [u32; 192],
    /// The place behind the side information, and behind each granule.
    pub ends: [usize; 13],
    pub samples: [[i32; 192]; 12],
}

/// The limit of subbands, the allocation table and the bound, cut to the limit.
#[cfg(any(layer = "codes", layer = "sound"))]
fn layout(f: crate::source::Format) -> [usize; 3] {
    let mut layout = [0; 3];
    unsafe { boundary::probe_layout(f.mode as u32, f.bitrate_index, f.samplerate_index, f.bound, &mut layout) };
    layout
}

/// A frame of that format from bit `at`.
#[cfg(any(layer = "codes", layer = "sound"))]
pub fn frame(stream: &[u8], at: usize, format: crate::source::Format) -> Read {
    let [limit, table, bound] = layout(format);
    let (data, length, mono) = (stream.as_ptr(), stream.len(), format.mode == 3);
    let mut read = Read {
        limit,
        bound,
        quant: [0xFF; 64],
        factor: [u32::MAX; 192],
        ends: [0; 13],
        samples: [[0; 192]; 12],
    };
    let (quant, factor) = (&mut read.quant, &mut read.factor);
    read.ends[0] = unsafe { boundary::probe_side(data, length, at, mono, table, bound, limit, quant, factor) };
    for granule in 0..12 {
        let (at, part, sample) = (read.ends[granule], granule / 4, &mut read.samples[granule]);
        read.ends[granule + 1] =
            unsafe { boundary::probe_granule(data, length, at, quant, factor, part, bound, limit, sample) };
    }
    read
}

/// A granule's sound, to the output from `at` on; gives the ring position after it.
#[cfg(layer = "sound")]
pub fn synthesize(memory: &mut [f32], p: usize, sample: &[i32; 192], output: &mut [f32], at: usize) -> usize {
    let (ring, room) = (memory.len(), output.len());
    unsafe { boundary::probe_synthesize(memory.as_mut_ptr(), ring, p, sample, output.as_mut_ptr(), room, at) }
}
