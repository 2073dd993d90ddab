//! The Rust that the port follows, its text unchanged. Each module includes a file of the source and adds accessors
//! alone: what is private there can be set and read here, and nothing there is replaced.
#![allow(dead_code)]

/// The part of the state that a header sets. Sample-rate index 3 means that no header is known.
#[derive(Clone, Copy, Debug, PartialEq)]
pub struct Format {
    pub samplerate_index: usize,
    pub bitrate_index: usize,
    pub mode: usize,
    pub bound: usize,
}

pub const NO_FORMAT: Format = Format {
    samplerate_index: 3,
    bitrate_index: 0,
    mode: 0,
    bound: 0,
};

pub mod mpeg {
    pub mod buffer {
        include!(concat!(env!("SOURCE"), "/crates/native32emu-core/src/mpeg/buffer.rs"));

        impl Buffer {
            /// The position in bits.
            pub fn at(&self) -> usize {
                self.bit_index
            }

            /// Puts the position at a bit.
            pub fn stand(&mut self, at: usize) {
                self.bit_index = at;
            }
        }
    }

    pub mod audio {
        include!(concat!(env!("SOURCE"), "/crates/native32emu-core/src/mpeg/audio.rs"));
        include!("accessors.rs");
    }
}

/// The same text of audio.rs over a buffer that hands every call on and remembers places: where a frame's data was
/// asked for, where each read began, and where the frame was aligned. The Rust itself does not count bits, or the bytes in
/// front of a header.
pub mod traced {
    pub mod buffer {
        use crate::source::mpeg::buffer::Buffer as Source;
        use std::cell::Cell;

        pub struct Buffer {
            source: Source,
            asked_at: Cell<usize>,
            reads: Vec<usize>,
            aligned_from: usize,
        }

        impl Buffer {
            pub fn new(bytes: Vec<u8>) -> Self {
                Buffer {
                    source: Source::new(bytes),
                    asked_at: Cell::new(0),
                    reads: Vec::new(),
                    aligned_from: 0,
                }
            }

            /// The last question of a decode call is the one for the frame's data, at its first allocation bit.
            pub fn has(&self, count: usize) -> bool {
                self.asked_at.set(self.source.at());
                self.source.has(count)
            }

            /// A frame ends by it, behind its last code.
            pub fn align(&mut self) {
                self.aligned_from = self.source.at();
                self.source.align();
            }

            pub fn read(&mut self, count: usize) -> u32 {
                self.reads.push(self.source.at());
                self.source.read(count)
            }

            pub fn skip(&mut self, count: usize) {
                self.source.skip(count);
            }

            /// A header attempt begins by it, and forgets the reads before.
            pub fn skip_bytes(&mut self, v: u8) -> usize {
                self.reads.clear();
                self.source.skip_bytes(v)
            }

            pub fn find_frame_sync(&mut self) -> bool {
                self.source.find_frame_sync()
            }

            pub fn at(&self) -> usize {
                self.source.at()
            }

            /// Puts the position at a bit, and forgets the reads.
            pub fn stand(&mut self, at: usize) {
                self.source.stand(at);
                self.reads.clear();
            }

            /// The place of the last frame's first allocation bit, and the place behind its last code.
            pub fn frame(&self) -> (usize, usize) {
                (self.asked_at.get(), self.aligned_from)
            }

            /// Where read `n` since `stand` began; the place behind the last code if there were no more.
            pub fn began(&self, n: usize) -> usize {
                self.reads.get(n).copied().unwrap_or(self.aligned_from)
            }

            /// The byte of the FF that the last header attempt found. Its second read, the version, is eleven bits behind it.
            pub fn sync(&self) -> Option<usize> {
                self.reads.get(1).map(|at| (at - 11) / 8)
            }
        }
    }

    pub mod audio {
        include!(concat!(env!("SOURCE"), "/crates/native32emu-core/src/mpeg/audio.rs"));
        include!("accessors.rs");

        impl Audio {
            /// The last frame's first allocation bit, and the bits that it used.
            pub fn used(&self) -> (usize, usize) {
                let (first, last) = self.buffer.frame();
                (first, last - first)
            }

            /// Where read `n` of a frame began, its first allocation being read 0.
            pub fn began(&self, n: usize) -> usize {
                self.buffer.began(n)
            }

            /// The byte of the FF that the last header attempt found.
            pub fn sync(&self) -> Option<usize> {
                self.buffer.sync()
            }
        }
    }
}
