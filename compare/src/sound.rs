//! From samples to sound: the transform against the Rust's `idct36`, and whole frames, memory and output, against its
//! `decode_frame`, from every ring position. Floats are compared by their bits.

use crate::frames::{frame, FORMATS};
use crate::seeded::Seeded;
use crate::source::mpeg::audio::{transform, Audio};
use crate::tag;
use crate::tally::{first_difference, hex, Tally};

const SILENCE: u32 = 0x8000_0000;

fn bits(values: &[f32]) -> Vec<u32> {
    values.iter().map(|value| value.to_bits()).collect()
}

/// A sample whose f32 is exact: small, as large as codes give, as large as 2^24, or a corner.
fn sample(s: &mut Seeded) -> i32 {
    let up_to = |s: &mut Seeded, most: usize| s.below(2 * most + 1) as i32 - most as i32;
    match s.below(8) {
        0 => 0,
        1 => up_to(s, 3),
        2 => s.one_of(&[-16_777_216, 16_777_216, -65_536, 65_536, -1, 1]),
        3 => up_to(s, 16_777_216),
        _ => up_to(s, 104_848),
    }
}

/// A memory as frames could leave it: zeros of both signs, and finite numbers.
fn memory(s: &mut Seeded) -> Vec<f32> {
    let silent = s.below(4) == 0;
    let value = |s: &mut Seeded| match s.below(6) {
        0 => 0.0,
        1 => -0.0,
        _ if silent => 0.0,
        n => (s.below(1 << 24) as f32 - 8_388_608.0) / (1 << (5 * n)) as f32,
    };
    (0..2048).map(|_| value(s)).collect()
}

/// Granules of seeded samples: the 64 values that each slot leaves in the ring, in both channels.
fn transforms(tally: &mut Tally, slots: usize) {
    for seed in 0..slots.div_ceil(6) as u64 {
        let s = &mut Seeded::new(seed);
        let samples: [i32; 192] = std::array::from_fn(|_| sample(s));
        let start = seed as usize % 16 * 64;
        let mut ours = vec![0.0; 2048];
        let mut output = vec![0.0; 192];
        let mut expected = ours.clone();
        let mut p = start;
        for slot in 0..3 {
            p = (p + 960) % 1024;
            (0..2).for_each(|ch| transform(&samples, slot, ch, &mut expected[1024 * ch..][..1024], p));
        }
        let after = tag::synthesize(&mut ours, start, &samples, &mut output, 0);
        let say = || format!("granule {seed}, ring position {start}, {samples:?}");
        for slot in 0..6 {
            let from = 1024 * (slot % 2) + (start + 960 * (1 + slot / 2)) % 1024;
            let part = |memory: &[f32]| bits(&memory[from..from + 64]);
            tally.same("slots", first_difference(&part(&ours), &part(&expected)), None, say);
        }
        tally.same(
            "rings",
            (after, first_difference(&bits(&ours), &bits(&expected))),
            (p, None),
            say,
        );
    }
}

/// Frames one after the other, twelve from each memory.
fn frames(tally: &mut Tally, count: usize) {
    const RUN: u64 = 12;
    let mut audio = Audio::new(Vec::new());
    for run in 0..(count as u64).div_ceil(RUN) {
        let s = &mut Seeded::new(run);
        let mut ring = run as usize % 16 * 64;
        let mut ours = memory(s);
        audio.sound_from(ring, &ours);
        for seed in run * RUN..(run + 1) * RUN {
            let f = frame(seed);
            tally.stream(f.class);
            let read = tag::frame(&f.stream, f.at, f.format);
            let mut output = vec![0.0; 2304];
            for (granule, samples) in read.samples.iter().enumerate() {
                ring = tag::synthesize(&mut ours, ring, samples, &mut output, 192 * granule);
            }
            audio.stand(&f.stream, f.at, f.format);
            audio.frame();
            let say = || {
                format!(
                    "run {run}, frame {seed}, at bit {}, {:?}, {}",
                    f.at,
                    f.format,
                    hex(&f.stream)
                )
            };
            let group = format!("outputs from ring position {}", run as usize % 16 * 64);
            tally.same(
                &group,
                first_difference(&bits(&output), &bits(audio.output())),
                None,
                say,
            );
            let memories = first_difference(&bits(&ours), &bits(&audio.memory()));
            tally.same("memories", (ring, memories), (audio.ring(), None), say);
        }
    }
}

/// 01: from a fresh opening all samples of a frame without sound are -0.0.
fn silence(tally: &mut Tally) {
    for start in 0..16 {
        let mut memory = vec![0.0; 2048];
        let mut output = vec![1.0; 2304];
        let mut ring = start * 64;
        for granule in 0..12 {
            ring = tag::synthesize(&mut memory, ring, &[0; 192], &mut output, 192 * granule);
        }
        tally.same("silence is -0.0", bits(&output), vec![SILENCE; 2304], || {
            format!("ring position {start}")
        });
    }
}

pub fn compare(tally: &mut Tally, count: usize) {
    println!("sound: {count} slots of seeded samples through the transform, from all 16 ring positions;");
    println!(
        "{} frames of all {FORMATS} formats with 72 slots each, twelve one after the other: memory, output",
        count / 36
    );
    transforms(tally, count);
    frames(tally, count / 36);
    silence(tally);
}
