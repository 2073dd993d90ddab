//! Whole decoders on classes of streams: what is called on them, and in which order, in the tolerant reading and in the
//! strict one. `both` compares each call.

use crate::both::{number_of, state_of, Both, GUARD};
use crate::by_01::attempt;
use crate::classes::{payload, Clips, STREAMS};
use crate::files::files;
use crate::firmware::{count, place, Decoder, COUNTS, MEMORY, OUTPUT, PLACES, STREAM};
use crate::junk;
use crate::pairs;
use crate::saved::{self, fresh, written};
use crate::seeded::Seeded;
use crate::source::{Format, NO_FORMAT};
use crate::strict::{self, STRICT};
use crate::tally::{hex, Tally};
use std::time::Instant;

/// Calls both until neither moves any more, and twice again, with the question about the format at seeded moments, and with
/// any bits in the place that is told and not read.
fn to_the_end(both: &mut Both, stream: &[u8], s: &mut Seeded) {
    let mut still = 0;
    while still < 3 {
        let before = both.state();
        both.litter(s);
        if s.below(2) == 0 {
            both.format(stream);
            both.litter(s);
        }
        both.decode(stream);
        still = if both.state() == before { still + 1 } else { 0 };
    }
}

/// Choices of the two readings.
const READINGS: [u32; 2] = [0, STRICT];

/// A stream from its opening to its end, in both readings.
fn whole(tally: &mut Tally, class: &str, name: &str, stream: &[u8], s: &mut Seeded) {
    for choices in READINGS {
        chosen(tally, class, name, stream, s, choices);
    }
}

/// The class, under which a stream is counted, by the reading.
fn class_of(class: &str, choices: u32) -> String {
    match strict::chosen(choices) {
        true => format!("strict: {class}"),
        false => class.to_string(),
    }
}

fn chosen(tally: &mut Tally, class: &str, name: &str, stream: &[u8], s: &mut Seeded, choices: u32) {
    let class = class_of(class, choices);
    tally.stream(&class);
    let name = format!("{class}, {name}");
    let beyond = s.one_of(&[0, 1, 5, 64]);
    to_the_end(&mut Both::open(tally, &name, stream, beyond, choices), stream, s);
}

/// Another stream is lent between calls, from where the decoder stands.
fn changing(tally: &mut Tally, name: &str, clips: &Clips, s: &mut Seeded, choices: u32) {
    let streams: Vec<Vec<u8>> = (0..2 + s.below(3))
        .map(|_| {
            let (_, make) = STREAMS[s.below(STREAMS.len())];
            make(s, clips)
        })
        .collect();
    let mut stream = &streams[0];
    let both = &mut Both::open(tally, name, stream, 5, choices);
    for _ in 0..3 + s.below(10) {
        stream = &streams[s.below(streams.len())];
        both.lend(stream);
        both.litter(s);
        match s.below(4) {
            0 => both.format(stream),
            _ => both.decode(stream),
        }
    }
}

/// A stream that a saved state can stand in: a class's, or a payload without a header.
fn under_a_state(clips: &Clips, s: &mut Seeded) -> Vec<u8> {
    if s.below(3) == 0 {
        let length = s.one_of(&[0, 60, 200, 1_000, 4_000]);
        return payload(s, length);
    }
    let (_, make) = STREAMS[s.below(STREAMS.len())];
    make(s, clips)
}

/// A state that no opening need have made, and the same with any bits where nothing is read: both go on as the Rust does. In
/// the strict reading too it may know a pair of bit rate and mode that the standard has not.
fn resumed(tally: &mut Tally, name: &str, clips: &Clips, s: &mut Seeded, choices: u32) {
    let stream = under_a_state(clips, s);
    let mut state = saved::in_range(s, stream.len());
    state.counts[count::CHOICES] = choices;
    let mut memory = saved::memory(s);
    memory.resize(MEMORY + s.one_of(&[0, 5]), GUARD);
    go_on(Both::resume(tally, name, &stream, state, memory.clone()), &stream, s);
    let state = saved::littered(s, state);
    go_on(Both::resume(tally, name, &stream, state, memory), &stream, s);
}

fn go_on(mut both: Both, stream: &[u8], s: &mut Seeded) {
    for _ in 0..1 + s.below(3) {
        if s.below(2) == 0 {
            both.format(stream);
        }
        both.litter(s);
        both.decode(stream);
    }
}

/// One field out of range: every call gives 10 and leaves all.
fn spoilt(tally: &mut Tally, name: &str, clips: &Clips, s: &mut Seeded, choices: u32) {
    let stream = under_a_state(clips, s);
    let mut d = saved::in_range(s, stream.len());
    d.counts[count::CHOICES] = choices;
    let (field, spoil) = saved::SPOILT[s.below(saved::SPOILT.len())];
    spoil(s, &mut d);
    let memory = saved::memory(s);
    for mut d in [d, saved::littered(s, d)] {
        refused_by_all(tally, &format!("{name}, {field}, {d:?}"), &mut d, &stream, &memory);
    }
}

/// The numbers that nothing reads are written anew: nothing was passed over.
fn refused_by_all(tally: &mut Tally, name: &str, d: &mut Decoder, stream: &[u8], memory: &[f32]) {
    let (before, output) = (written(d, 0), vec![GUARD; OUTPUT]);
    let (mut lent_memory, mut lent_output) = (memory.to_vec(), output.clone());
    let numbers = [
        number_of(d.format(stream)),
        number_of(d.decode(stream, &mut lent_memory, &mut lent_output)),
    ];
    let left = (state_of(d), bits(&lent_memory) == bits(memory), lent_output == output);
    tally.same(
        "listed: 10 from both",
        (numbers, left),
        ([10; 2], (state_of(&before), true, true)),
        || name.to_string(),
    );
}

fn bits(values: &[f32]) -> Vec<u32> {
    values.iter().map(|value| value.to_bits()).collect()
}

/// Too little memory at the opening, too little memory or output among the calls: 9, and all is left.
fn little_room(tally: &mut Tally, name: &str, clips: &Clips, s: &mut Seeded, choices: u32) {
    let (_, make) = STREAMS[s.below(STREAMS.len())];
    let stream = make(s, clips);
    let less = |s: &mut Seeded, whole: usize| s.one_of(&[0, 1, whole / 2, whole - 1]);
    let memory = saved::memory(s);
    let mut lent = memory.clone();
    let (d, opened) = Decoder::new(&stream, &mut lent[..less(s, MEMORY)], choices);
    tally.same(
        "listed: opening 9",
        (number_of(opened), state_of(&d), bits(&lent) == bits(&memory)),
        (9, state_of(&fresh(choices)), true),
        || name.to_string(),
    );
    let both = &mut Both::resume(tally, name, &stream, d, lent);
    for _ in 0..2 + s.below(5) {
        both.litter(s);
        match s.below(4) {
            0 => both.refused(&stream, 9, less(s, MEMORY), OUTPUT),
            1 => both.refused(&stream, 9, MEMORY, less(s, OUTPUT)),
            _ => both.decode(&stream),
        }
    }
}

/// A way to call: with the tally, what is said of a difference, the clips, and the choices.
type Called = fn(&mut Tally, &str, &Clips, &mut Seeded, u32);

/// How a seed's stream is called: one class of each kind in turn.
const CALLED: [(&str, Called); 4] = [
    ("stream changed between calls", changing),
    ("saved state in range", resumed),
    ("saved state with a field out of range", spoilt),
    ("little room", little_room),
];

/// The stream of one seed, in both readings. The classes come in turn.
fn seeded(tally: &mut Tally, seed: u64, clips: &Clips) {
    let s = &mut Seeded::new(seed);
    let turn = (seed % (STREAMS.len() + CALLED.len()) as u64) as usize;
    if let Some((class, make)) = STREAMS.get(turn) {
        let stream = make(s, clips);
        return whole(tally, class, &format!("seed {seed}"), &stream, s);
    }
    let (class, call) = CALLED[turn - STREAMS.len()];
    for choices in READINGS {
        let class = class_of(class, choices);
        tally.stream(&class);
        call(tally, &format!("{class}, seed {seed}"), clips, s, choices);
    }
}

/// Of the five choices the first has an effect, the strict reading: with each of the others, and any bits above, a seeded
/// stream gives what it gives without.
fn every_choice(tally: &mut Tally, count: u64) {
    let clips = Clips::load();
    for seed in 0..count {
        let s = &mut Seeded::new(seed);
        let (_, make) = STREAMS[seed as usize % STREAMS.len()];
        let stream = make(s, &clips);
        for choices in 0..32 {
            let name = format!("seed {seed}, choices {choices}");
            let above = s.below(1 << 27) as u32;
            chosen(tally, "every choice", &name, &stream, s, above << 5 | choices);
        }
    }
}

fn published(tally: &mut Tally, class: &str, folder: &str) {
    for (name, stream) in files(folder.as_ref()) {
        whole(
            tally,
            class,
            &name.to_string_lossy(),
            &stream,
            &mut Seeded::new(stream.len() as u64),
        );
    }
}

/// Each of the 2 × 65,536 headers over a payload that suffices for the smaller frames.
fn every_header(tally: &mut Tally) {
    for number in 0..131_072u64 {
        let s = &mut Seeded::new(number);
        let mut stream = (0xFFFC_0000u32 + number as u32).to_be_bytes().to_vec();
        let length = s.one_of(&[2, 60, 110, 230]);
        stream.extend(payload(s, length));
        whole(tally, "every header", &format!("{number:05X}"), &stream, s);
    }
}

/// Junk of every length to 40 in front of each kind of header. Where its length is what must be told, the model tells it.
fn every_junk(tally: &mut Tally) {
    for junk in (0..=40).flat_map(junk::every) {
        let s = &mut Seeded::new(junk.stream.len() as u64);
        whole(tally, "junk of every length", &junk.name, &junk.stream, s);
        if let Some(passed) = junk.passed {
            let told = [false, true].map(|strict| attempt(&junk.stream, 8 * junk.at, NO_FORMAT, strict).skipped);
            tally.same("junk by its length", told, [passed; 2], || junk.name.clone());
        }
    }
}

/// Every two of the 56 pairs of bit rate and mode. A frame of the first stands before and behind one of the second: opened; and
/// taken up from a state, made by hand, that knows the first, with its frame pending or not.
fn every_two_pairs(tally: &mut Tally) {
    for number in 0..pairs::COUNT * pairs::COUNT {
        let s = &mut Seeded::new(number as u64);
        let pairs::Two { stream, states } = pairs::two(number, s);
        let name = format!("two pairs, number {number}");
        whole(tally, "every two pairs", &name, &stream, s);
        for choices in READINGS {
            for mut state in states {
                state.counts[count::CHOICES] = choices;
                tally.stream(&class_of("every two pairs, saved", choices));
                let memory = saved::memory(s);
                let both = &mut Both::resume(tally, &name, &stream, state, memory);
                to_the_end(both, &stream, s);
            }
        }
    }
}

/// The beginnings of several clips, cut at every byte.
fn every_cut(tally: &mut Tally) {
    let clips = [
        "clips/citrus",
        "crates/replay/data/check-44100-stereo",
        "crates/replay/data/check-32-at-48000",
        "crates/replay/data/joint-limit-27",
        "crates/replay/data/padding-and-check",
        "crates/replay/data/rate-32000-kbps-032-mode-2",
        "crates/replay/data/incident-other-way",
        "crates/replay/data/junk-almost",
    ];
    for clip in clips {
        let stream = std::fs::read(format!("{clip}.mp2")).unwrap();
        for kept in 0..stream.len().min(1_300) {
            let name = format!("{clip}, {kept} bytes");
            whole(
                tally,
                "clip cut at every byte",
                &name,
                &stream[..kept],
                &mut Seeded::new(kept as u64),
            );
        }
    }
}

/// The longest stream, of zeros, of FF, and of junk with a frame at its end; and one byte more.
fn longest(tally: &mut Tally) {
    let frame = [&[0xFF, 0xFD, 0x10, 0xC0, 0x10, 0x00, 0x00, 0x20][..], &[0x5A; 96]].concat();
    let at_the_end = |fill: u8| {
        let mut stream = vec![fill; STREAM];
        stream[STREAM - frame.len()..].copy_from_slice(&frame);
        stream
    };
    let named = [
        ("zeros", vec![0; STREAM]),
        ("zeros, then a frame", at_the_end(0)),
        ("junk, then a frame", at_the_end(0x31)),
    ];
    for (name, stream) in &named {
        whole(tally, "16,777,216 bytes", name, stream, &mut Seeded::new(1));
    }
    tally.stream("16,777,216 bytes");
    let ones = vec![0xFF; STREAM];
    let both = &mut Both::open(tally, "bytes FF", &ones, 0, 0);
    (0..200).for_each(|_| both.decode(&ones));
    too_long(tally, frame);
}

/// A stream too long: 8 before all else, and all is left.
fn too_long(tally: &mut Tally, frame: Vec<u8>) {
    tally.stream("16,777,217 bytes");
    let mut long = frame.clone();
    long.resize(STREAM + 1, 0);
    let mut memory = vec![GUARD; MEMORY];
    let (mut d, opened) = Decoder::new(&long, &mut memory, 0);
    let told = number_of(d.format(&long));
    tally.same(
        "listed: opening 8",
        (number_of(opened), told, state_of(&d), memory == vec![GUARD; MEMORY]),
        (8, 8, state_of(&fresh(0)), true),
        || "opening".to_string(),
    );
    let both = &mut Both::open(tally, "16,777,217 bytes among the calls", &frame, 5, 0);
    for (memory, output) in [(MEMORY, OUTPUT), (0, OUTPUT), (MEMORY, 0)] {
        both.refused(&long, 8, memory, output);
    }
    both.decode(&frame);
    both.refused(&long, 8, MEMORY, OUTPUT);
    both.format_refused(&long, 8);
}

/// An opening past the wrapper, over any bits: its number, and the places that it leaves.
fn opened_over(stream: &[u8], room: usize, choices: u32) -> (u32, [u64; PLACES]) {
    use crate::firmware::boundary::tag_open;
    let (mut places, mut counts, mut time) = ([7; PLACES], [7; COUNTS], [7.0]);
    let mut memory = [GUARD; MEMORY];
    let (data, length, ring) = (stream.as_ptr(), stream.len() as u64, memory.as_mut_ptr());
    let room = room as u64;
    let number = unsafe { tag_open(data, length, ring, room, &mut places, &mut counts, &mut time, choices) };
    (number, places)
}

/// The answers of decode and format, each with what stands beside it and with what was passed over.
type Beside = ((u32, u64, u64, u64), (u32, [u32; 3], u64));

/// Both calls that leave numbers beside their answer, past the wrapper, format before decode, from a state.
fn beside(stream: &[u8], room: usize, state: Decoder) -> Beside {
    use crate::firmware::boundary::{tag_decode, tag_format};
    let (mut places, mut counts, mut time) = (state.places, state.counts, state.time);
    places[place::SKIPPED] = 7;
    let (mut memory, mut output) = ([GUARD; MEMORY], [GUARD; OUTPUT]);
    let (mut rate, mut kbps, mut mode, mut start, mut bits) = ([7], [7], [7], [-1.0], [7]);
    let (data, length, room) = (stream.as_ptr(), stream.len() as u64, room as u64);
    let (ring, sound) = (memory.as_mut_ptr(), output.as_mut_ptr());
    let (places, counts, time) = (&mut places, &mut counts, &mut time);
    let told = unsafe { tag_format(data, length, places, counts, time, &mut rate, &mut kbps, &mut mode) };
    let passed = std::mem::replace(&mut places[place::SKIPPED], 7);
    let (start_at, bits_at) = (&mut start, &mut bits);
    let number = unsafe {
        tag_decode(
            data,
            length,
            ring,
            room,
            sound,
            OUTPUT as u64,
            places,
            counts,
            time,
            start_at,
            bits_at,
        )
    };
    let format = [rate[0], kbps[0], mode[0]];
    (
        (number, start[0].to_bits(), bits[0], places[place::SKIPPED]),
        (told, format, passed),
    )
}

/// A state that knows a header, with that ring position.
fn knowing(ring: u64) -> Decoder {
    let first = Format {
        samplerate_index: 0,
        ..NO_FORMAT
    };
    let mut state = saved::knowing(first, 0, 0);
    state.places[place::RING] = ring;
    state
}

/// Beside a 13 too there are zeros. The header of 32 kbps in stereo comes three times, the second and third behind junk.
fn beside_13(tally: &mut Tally) {
    tally.stream("strict: past the wrapper");
    let stream = [0xFF, 0xFD, 0x10, 0x00, 0x31, 0x31, 0xFF, 0xFD, 0x10, 0x00, 0x31, 0, 0];
    let (number, places) = opened_over(&stream, MEMORY, STRICT);
    let opened = Decoder {
        places,
        ..fresh(STRICT)
    };
    let mut expected = fresh(STRICT);
    expected.places[place::POSITION] = 26;
    tally.same(
        "strict: opening over any bits 13",
        (number, state_of(&opened)),
        (13, state_of(&expected)),
        || hex(&stream),
    );
    let again = [&stream[..], &stream[..]].concat();
    tally.same(
        "strict: zeros beside 13",
        beside(&again, MEMORY, opened),
        ((13, 0, 0, 3), (13, [0; 3], 2)),
        || hex(&again),
    );
}

/// Where two refusals hold, 01's order decides: 8, 9, 10. Beside each there are zeros. The format is told whatever is lent
/// to decode, but not on a stream too long.
fn order(tally: &mut Tally) {
    tally.stream("two refusals at once");
    let long = vec![0; STREAM + 1];
    let known = (0, [44_100, 32, 0], 0);
    for (length, room, ring, number, told) in [
        (STREAM + 1, 0, 1, 8, (8, [0; 3], 0)),
        (STREAM + 1, MEMORY, 1, 8, (8, [0; 3], 0)),
        (STREAM + 1, MEMORY, 0, 8, (8, [0; 3], 0)),
        (STREAM, 0, 1, 9, (10, [0; 3], 0)),
        (STREAM, MEMORY, 1, 10, (10, [0; 3], 0)),
        (STREAM, 0, 0, 9, known),
        (0, MEMORY, 0, 1, known),
    ] {
        tally.same(
            "listed: order, and zeros beside",
            beside(&long[..length], room, knowing(ring)),
            ((number, 0, 0, 0), told),
            || format!("{length} bytes, room {room}, ring {ring}"),
        );
    }
    for (length, room, number) in [
        (STREAM + 1, 0, 8),
        (STREAM + 1, MEMORY, 8),
        (STREAM, 0, 9),
        (0, MEMORY, 1),
    ] {
        tally.same(
            "listed: opening over any bits",
            opened_over(&long[..length], room, 0),
            (number, fresh(0).places),
            || format!("{length} bytes, room {room}"),
        );
    }
}

/// Seeds from `first` on, so many; gives the seconds that they took.
fn run(tally: &mut Tally, first: u64, count: u64) -> f64 {
    let clips = Clips::load();
    let began = Instant::now();
    for seed in first..first + count {
        seeded(tally, seed, &clips);
    }
    began.elapsed().as_secs_f64()
}

/// decode [COUNT], soak [COUNT [SEED]] or published FOLDER.
pub fn compare(tally: &mut Tally, words: &[String]) {
    println!(
        "decode: whole decoders: every call's number, state, start time and bits used, memory and output, and what"
    );
    println!("is lent beyond them; the 16-bit samples of each frame");
    let number = |at: usize| words.get(at).map(|word| word.parse::<u64>().expect("a number"));
    match words.first().map(String::as_str) {
        Some("published") => published(tally, "published", &words[1]),
        Some("soak") => {
            let clock = std::time::UNIX_EPOCH.elapsed().unwrap().as_secs();
            let (count, first) = (number(1).unwrap_or(1_000_000), number(2).unwrap_or(clock << 20));
            println!("seeds {first} to {}", first + count - 1);
            let took = run(tally, first, count);
            println!("{took:.0} seconds");
        }
        _ => {
            published(tally, "files of crates/replay/data", "crates/replay/data");
            every_header(tally);
            every_cut(tally);
            every_junk(tally);
            every_two_pairs(tally);
            longest(tally);
            order(tally);
            beside_13(tally);
            let count = number(0).unwrap_or(300_000);
            every_choice(tally, count / 32);
            run(tally, 0, count);
        }
    }
}
