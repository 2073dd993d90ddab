//! From a header to samples: limit, bound, quantisers, scale factors, the place behind each granule and its samples
//! against the Rust's `decode_frame`. A frame runs through the Rust as it stands; then `read_samples` gives each
//! granule's samples from where the Rust's own reads began, and the last granule's must be those that the frame left.

use crate::frames::{frame, Frame, FORMATS};
use crate::source::traced::audio::Audio;
use crate::tag;
use crate::tally::{first_difference, hex, Tally};

/// 01: 63 gives 0; else the base for index mod 3, rounded and shifted right by index div 3.
fn scale_factor(index: i32) -> u32 {
    let base = [0x0200_0000u32, 0x0196_5FEA, 0x0142_8A30][index as usize % 3];
    let shift = index / 3;
    match index {
        63 => 0,
        _ => (base + ((1 << shift) >> 1)) >> shift,
    }
}

/// How many reads a place's three samples take.
fn code_reads(quantiser: usize) -> usize {
    match quantiser {
        0 => 0,
        1 | 2 | 4 => 1,
        _ => 3,
    }
}

/// What the Rust reads of a frame, in the port's order.
fn source(audio: &mut Audio, f: &Frame, limit: usize) -> tag::Read {
    audio.stand(&f.stream, f.at, f.format);
    audio.frame();
    let bound = audio.format().bound;
    let channels = if f.format.mode == 3 { 1 } else { 2 };
    let (mut quant, mut factor) = ([0; 64], [0; 192]);
    let mut before_codes = bound + limit;
    let mut in_granule = 0;
    for place in 0..64 {
        let (ch, sb) = (place / 32, place % 32);
        if limit <= sb {
            continue;
        }
        let (quantiser, selector, indexes) = audio.place(ch, sb);
        quant[place] = quantiser as u8;
        if ch < channels && quantiser != 0 {
            before_codes += 1 + [3, 2, 1, 2][selector as usize];
            (0..3).for_each(|part| factor[64 * part + place] = scale_factor(indexes[part]));
        }
        if ch == 0 || sb < bound {
            in_granule += code_reads(quantiser);
        }
    }
    let ends = std::array::from_fn(|granule| audio.began(before_codes + granule * in_granule));
    let last = audio.samples();
    let samples = std::array::from_fn(|granule| {
        audio.granule(ends[granule], granule / 4, bound, limit);
        assert_eq!(audio.at(), ends[granule + 1], "the place behind granule {granule}");
        audio.samples()
    });
    assert_eq!(samples[11], last, "the last granule");
    tag::Read {
        limit,
        bound,
        quant,
        factor,
        ends,
        samples,
    }
}

pub fn compare(tally: &mut Tally, count: usize) {
    println!(
        "codes: {count} frames of all {FORMATS} formats, whole and cut off, each from its own bit: limit and bound,"
    );
    println!("quantisers, scale factors, the place behind the side information and behind each granule, all samples");
    let mut audio = Audio::new(Vec::new());
    for seed in 0..count as u64 {
        let f = frame(seed);
        tally.stream(f.class);
        let ours = tag::frame(&f.stream, f.at, f.format);
        let source = source(&mut audio, &f, ours.limit);
        let say = || format!("frame {seed}, at bit {}, {:?}, {}", f.at, f.format, hex(&f.stream));
        let end = f.stream.len() * 8;
        tally.same("bound", ours.bound, source.bound, say);
        tally.same("quantisers", first_difference(&ours.quant, &source.quant), None, say);
        tally.same(
            "scale factors",
            first_difference(&ours.factor, &source.factor),
            None,
            say,
        );
        tally.same("places", first_difference(&ours.ends, &source.ends), None, say);
        let group = if source.ends[12] + 16 < end {
            "samples"
        } else {
            "samples, to the stream's end"
        };
        let all = |samples: &[[i32; 192]; 12]| samples.concat();
        tally.same(
            group,
            first_difference(&all(&ours.samples), &all(&source.samples)),
            None,
            say,
        );
    }
}
