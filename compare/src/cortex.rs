//! Jobs for compare/cortex/driver.c, which does them on every processor: what is lent, and a decoder to open or to take up.
//! A saved state is written as its bytes stand here, so a processor that lays it out otherwise cannot go on with it.

use crate::classes::{payload, Clips, STREAMS};
use crate::files::files;
use crate::firmware::{count, Decoder, MEMORY, OUTPUT, STREAM};
use crate::loud::{self, SHAPES};
use crate::saved;
use crate::seeded::Seeded;
use std::fs::File;
use std::io::{BufWriter, Result, Write};
use std::path::Path;

/// `struct job` of the driver, and what stands behind it.
struct Job {
    stream: Vec<u8>,
    /// The counts as they are lent: of the stream, the memory and the output.
    lent: [u64; 3],
    choices: u32,
    saved: Option<(Decoder, Vec<f32>)>,
    /// Calls of decode; an end that was told twice ends the job earlier.
    calls: u32,
}

impl Job {
    fn open(stream: Vec<u8>) -> Job {
        Job {
            lent: [stream.len() as u64, MEMORY as u64, OUTPUT as u64],
            stream,
            choices: 0,
            saved: None,
            calls: u32::MAX,
        }
    }

    fn write(&self, out: &mut impl Write) -> Result<()> {
        for count in self.lent {
            out.write_all(&count.to_le_bytes())?;
        }
        let length = self.stream.len() as u32;
        for number in [length, self.choices, self.saved.is_some() as u32, self.calls] {
            out.write_all(&number.to_le_bytes())?;
        }
        out.write_all(&self.stream)?;
        match &self.saved {
            Some((state, memory)) => write_saved(out, state, memory),
            None => Ok(()),
        }
    }
}

fn write_saved(out: &mut impl Write, state: &Decoder, memory: &[f32]) -> Result<()> {
    for place in state.places {
        out.write_all(&place.to_le_bytes())?;
    }
    for count in state.counts {
        out.write_all(&count.to_le_bytes())?;
    }
    out.write_all(&state.time[0].to_le_bytes())?;
    for value in memory {
        out.write_all(&value.to_le_bytes())?;
    }
    Ok(())
}

/// Counts that are refused, and counts of which only 64 bits can tell that they suffice.
fn lent(s: &mut Seeded, job: &mut Job) {
    let wide = (1 + s.below(1 << 20) as u64) << 32;
    match s.below(6) {
        0 => job.lent[0] = wide + s.below(STREAM) as u64,
        1 => job.lent[0] = STREAM as u64 + 1,
        2 => job.lent[1] = s.below(MEMORY) as u64,
        3 => job.lent[2] = s.below(OUTPUT) as u64,
        4 => job.lent[1] = wide + s.below(MEMORY) as u64,
        _ => job.lent[2] = wide + s.below(OUTPUT) as u64,
    }
}

/// A seeded stream with any choices; some are lent wrong.
fn seeded(seed: u64, clips: &Clips) -> Job {
    let s = &mut Seeded::new(seed);
    let (_, make) = STREAMS[seed as usize % STREAMS.len()];
    let mut job = Job::open(make(s, clips));
    job.choices = s.below(1 << 32) as u32;
    if s.below(8) == 0 {
        lent(s, &mut job);
        job.calls = 4;
    }
    job
}

/// A memory of the smallest numbers. Under silence they alone are heard, so a processor that flushes them to zero differs.
fn faint(s: &mut Seeded) -> Vec<f32> {
    (0..MEMORY)
        .map(|_| f32::from_bits(s.below(1 << 32) as u32 & 0x80FF_FFFF))
        .collect()
}

/// A saved state with any choices over any memory, in range or with one field out of it, some with any bits where nothing is
/// read.
fn taken_up(seed: u64, clips: &Clips) -> Job {
    let s = &mut Seeded::new(seed);
    let length = s.one_of(&[200, 2_000, 4_000]);
    let (_, make) = STREAMS[seed as usize % STREAMS.len()];
    let kind = s.below(4);
    let stream = match kind {
        0 => make(s, clips),
        1 => vec![0; length],
        _ => payload(s, length),
    };
    let mut state = saved::in_range(s, stream.len());
    state.counts[count::CHOICES] = s.below(32) as u32;
    if s.below(4) == 0 {
        let (_, spoil) = saved::SPOILT[s.below(saved::SPOILT.len())];
        spoil(s, &mut state);
    }
    if s.below(4) == 0 {
        state = saved::littered(s, state);
    }
    let mut job = Job::open(stream);
    job.saved = Some((state, if kind == 1 { faint(s) } else { saved::memory(s) }));
    job.calls = 3;
    if s.below(8) == 0 {
        lent(s, &mut job);
    }
    job
}

fn write_all(folder: &Path, name: &str, jobs: impl Iterator<Item = Job>) -> Result<()> {
    let mut out = BufWriter::new(File::create(folder.join(name))?);
    for job in jobs {
        job.write(&mut out)?;
    }
    out.flush()
}

/// What instructions are counted on, and how many frames: the first second of a clip, a stored stream, and frames that are
/// fuller than any bit rate carries, with 16 bits for each sample of 30 subbands on both channels.
fn timed() -> Result<[(&'static str, Vec<u8>, u32); 3]> {
    let s = &mut Seeded::new(0);
    let fullest = (0..4)
        .flat_map(|_| loud::frame(&SHAPES[2], 3, |_, _| s.below(1 << 16) as u16))
        .collect();
    let stored = std::fs::read("crates/replay/data/rate-44100-kbps-192-mode-0.mp2")?;
    Ok([
        ("mono-064", std::fs::read("clips/lavender.mp2")?, 40),
        ("stereo-192", stored, 4),
        ("fullest", fullest, 4),
    ])
}

/// The files of jobs: every stored stream, so many seeded streams and as many saved states, and a clip for each count of
/// instructions.
pub fn write(folder: &Path, count: u64) -> Result<()> {
    let clips = Clips::load();
    let stored = ["clips", "crates/replay/data"]
        .into_iter()
        .flat_map(|from| files(from.as_ref()));
    write_all(folder, "stored", stored.map(|(_, stream)| Job::open(stream)))?;
    write_all(folder, "seeded", (0..count).map(|seed| seeded(seed, &clips)))?;
    write_all(folder, "saved", (0..count).map(|seed| taken_up(seed, &clips)))?;
    for (name, stream, calls) in timed()? {
        let mut job = Job::open(stream);
        job.calls = calls;
        write_all(folder, name, std::iter::once(job))?;
    }
    // An opening that finds nothing has read every byte.
    let mut search = Job::open(vec![0; 65_536]);
    search.calls = 0;
    write_all(folder, "search", std::iter::once(search))
}
