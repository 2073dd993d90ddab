// Included behind the text of audio.rs: what is private there can be set and read here.

use crate::source::Format;

impl Audio {
    /// Puts the decoder on a stream, at a bit, with what an earlier header left.
    pub fn stand(&mut self, stream: &[u8], at: usize, known: Format) {
        self.buffer = Buffer::new(stream.to_vec());
        self.buffer.stand(at);
        self.samplerate_index = known.samplerate_index;
        self.bitrate_index = known.bitrate_index;
        self.mode = known.mode as u32;
        self.bound = known.bound;
        self.has_header = known.samplerate_index != 3;
        self.next_frame_data_size = 0;
    }

    /// One attempt at a header: the data size that `decode_header` gives, 0 for a refusal.
    pub fn attempt(&mut self) -> usize {
        self.decode_header()
    }

    /// An attempt that is refused behind the header's mode, as any is whose format is not the known one: for the while the
    /// known mode is one that no header has. The format stays, known or not.
    pub fn refuse_behind_mode(&mut self) {
        let before = (self.mode, self.has_header);
        (self.mode, self.has_header) = (4, true);
        self.next_frame_data_size = self.decode_header();
        (self.mode, self.has_header) = before;
    }

    pub fn format(&self) -> Format {
        Format {
            samplerate_index: self.samplerate_index,
            bitrate_index: self.bitrate_index,
            mode: self.mode as usize,
            bound: self.bound,
        }
    }

    pub fn knows_header(&self) -> bool {
        self.has_header
    }

    /// The data size of a header whose frame is still to come; 0 where there is none.
    pub fn pending(&self) -> usize {
        self.next_frame_data_size
    }

    pub fn kbps(&self) -> i32 {
        BIT_RATE[self.bitrate_index]
    }

    pub fn at(&self) -> usize {
        self.buffer.at()
    }

    /// Decodes a frame from where the decoder stands, whether or not its data is there.
    pub fn frame(&mut self) {
        self.decode_frame();
    }

    /// What the last frame left: the quantiser, 0 to 17, the selector and the three scale-factor indexes of a place.
    pub fn place(&self, ch: usize, sb: usize) -> (usize, u8, [i32; 3]) {
        let of = |q: &QuantSpec| 1 + QUANT_TAB.iter().position(|known| known.levels == q.levels).unwrap();
        (
            self.allocation[ch][sb].map_or(0, of),
            self.scale_factor_info[ch][sb],
            self.scale_factor[ch][sb],
        )
    }

    /// A granule's samples from bit `at`, by `read_samples`, with the last frame's allocations and scale factors.
    pub fn granule(&mut self, at: usize, part: usize, bound: usize, limit: usize) {
        self.buffer.stand(at);
        for sb in 0..limit {
            self.read_samples(0, sb, part);
            if sb < bound {
                self.read_samples(1, sb, part);
            } else {
                self.sample[1][sb] = self.sample[0][sb];
            }
        }
    }

    /// The last granule's samples in the port's order: slot by slot, the left channel's 32, then the right's.
    pub fn samples(&self) -> [i32; 192] {
        std::array::from_fn(|i| self.sample[i / 32 % 2][i % 32][i / 64])
    }

    /// Sets the ring position and the memory, left channel first.
    pub fn sound_from(&mut self, ring: usize, memory: &[f32]) {
        self.v_pos = ring as i32;
        self.v[0].copy_from_slice(&memory[..1024]);
        self.v[1].copy_from_slice(&memory[1024..2048]);
    }

    pub fn ring(&self) -> usize {
        self.v_pos as usize
    }

    pub fn memory(&self) -> Vec<f32> {
        self.v.concat()
    }

    /// One channel's half of the memory.
    pub fn half(&self, ch: usize) -> &[f32] {
        &self.v[ch]
    }

    /// Goes on at the same bit in another stream.
    pub fn lend(&mut self, stream: &[u8]) {
        let at = self.buffer.at();
        self.buffer = Buffer::new(stream.to_vec());
        self.buffer.stand(at);
    }

    /// Sets what `stand` leaves at the start: a pending header, and the frames decoded so far with the next start time.
    pub fn resume(&mut self, pending: usize, frames: usize, time: f64) {
        self.next_frame_data_size = pending;
        self.samples_decoded = (frames * SAMPLES_PER_FRAME) as i64;
        self.time = time;
    }

    /// How many frames were decoded, and when the next one starts, in seconds.
    pub fn clock(&self) -> (usize, f64) {
        (self.samples_decoded as usize / SAMPLES_PER_FRAME, self.time)
    }

    /// What the last frame sounds like.
    pub fn output(&self) -> &[f32] {
        &self.interleaved
    }
}

/// The source's transform: slot `slot` of a granule in the port's order, one channel, into the ring from `p`.
pub fn transform(samples: &[i32; 192], slot: usize, ch: usize, ring: &mut [f32], p: usize) {
    let of = std::array::from_fn(|sb| std::array::from_fn(|k| samples[64 * k + 32 * ch + sb]));
    idct36(&of, slot, ring, p);
}
