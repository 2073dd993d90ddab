//! Plays a clip to a file, as a tag plays it to its converter; `USAGE` says how. play.c is the same in C.

mod tag;

use std::fs::File;
use std::io::{Read, Write};
use tag::{choice, count, mode, place, samples16, Decoder, Format, Frame, Refusal, MEMORY, OUTPUT};

/// Bytes of a clip; more would be cut, so it is refused.
const LONGEST: usize = 65_536;

const PLAYED: i32 = 0;
const TELL_THE_KEEPER: i32 = 1;
const NO_FILE: i32 = 2;
const OUR_MISTAKE: i32 = 3;

const USAGE: &str = "speak CLIP SOUND [strict]
Plays CLIP, at most 65536 bytes, to the file SOUND: samples of 16 bits, low byte first, left and right in turn.
Standard output has the clip's format, the junk in front of it, a line for each call, and then what the keeper of the
clip has to know. With the word strict a header is refused whose bit rate the standard does not have in its mode.
Status: 0 the clip was played to its end, or to where it is cut off; 1 nothing was played, or a call was refused
on the way; 2 wrong words, a clip that is too long, or a file that cannot be read or written; 3 a mistake of this
player.
";

fn words_of(refusal: Refusal) -> &'static str {
    match refusal {
        Refusal::NO_HEADER_CAN_FOLLOW => "no header can follow",
        Refusal::NO_SYNC => "no sync found",
        Refusal::OTHER_LAYER => "another version or layer",
        Refusal::NO_BIT_RATE => "a bit rate that is none",
        Refusal::NO_SAMPLE_RATE => "a sample rate that is none",
        Refusal::OTHER_FORMAT => "another bit rate, sample rate or mode than the first",
        Refusal::CUT_OFF => "the last frame is cut off",
        Refusal::LONG_STREAM => "the stream is too long",
        Refusal::LITTLE_ROOM => "memory or output is too short",
        Refusal::BAD_STATE => "the state is out of range",
        Refusal::BARRED_RATE => "a bit rate that the standard does not have in this mode",
        _ => "a number that this player does not know",
    }
}

fn mode_of(format: Format) -> &'static str {
    match format.mode {
        mode::STEREO => "stereo",
        mode::JOINT_STEREO => "joint stereo",
        mode::TWO_CHANNELS => "two channels",
        mode::MONO => "mono",
        _ => "a mode that this player does not know",
    }
}

/// FNV-1a over the frame's values, so that two decoders can be compared line by line.
fn checksum(output: &[f32]) -> u64 {
    let bytes = output.iter().flat_map(|value| value.to_bits().to_le_bytes());
    bytes.fold(0xCBF2_9CE4_8422_2325, |sum, byte| {
        (sum ^ byte as u64).wrapping_mul(0x0000_0100_0000_01B3)
    })
}

/// What came of a clip.
struct Told {
    /// The last answer, where it was no frame.
    last: Option<Refusal>,
    /// Frames that were played.
    frames: u32,
    /// Calls that were refused on the way, with 2 to 6 or 13.
    refused: u32,
    /// Of these, frames of another format: with 6.
    others: u32,
    /// And frames of a bit rate that the standard does not have in this mode: with 13.
    barred: u32,
    /// Bytes in front of the first frame.
    junk: u64,
}

impl Told {
    fn tell_frame(&mut self, d: &Decoder, frame: Frame, output: &[f32]) {
        let (number, at) = (
            d.counts[count::FRAMES] - 1,
            (d.places[place::POSITION] - frame.bits) / 8,
        );
        let sum = checksum(output);
        println!("frame {number} at {at} bits {} sum {sum:016x}", frame.bits);
        (self.last, self.frames) = (None, self.frames + 1);
    }

    fn tell_refusal(&mut self, d: &Decoder, refusal: Refusal) {
        let word = if refusal.ends() { "end" } else { "refused" };
        let at = d.places[place::POSITION] / 8;
        println!("{word} {} at {at}: {}", refusal.0, words_of(refusal));
        self.last = Some(refusal);
        self.refused += refusal.goes_on() as u32;
        self.others += (refusal == Refusal::OTHER_FORMAT) as u32;
        self.barred += (refusal == Refusal::BARRED_RATE) as u32;
    }

    /// Whether a further call may give a frame.
    fn goes_on(&self) -> bool {
        self.last.is_none_or(Refusal::goes_on)
    }

    fn callers_mistake(&self) -> Option<Refusal> {
        self.last.filter(|refusal| refusal.callers_mistake())
    }
}

fn tell_format(format: Format) {
    let (rate, kbps) = (format.rate, format.kbps);
    println!("format: {rate} samples a second, {kbps} kbps, {}", mode_of(format));
}

fn tell_junk(bytes: u64) {
    match bytes {
        0 => {}
        1 => println!("1 byte of junk in front"),
        _ => println!("{bytes} bytes of junk in front"),
    }
}

/// Asks for the format until it is told. A tag would set its converter to the rate here. Where none will be told, the first
/// call of `decode` says why.
fn ask(d: &mut Decoder, stream: &[u8], told: &mut Told) {
    loop {
        let answer = d.format(stream);
        told.junk += d.skipped();
        match answer {
            Ok(format) => return tell_format(format),
            Err(refusal) if refusal.goes_on() => told.tell_refusal(d, refusal),
            Err(_) => return,
        }
    }
}

/// A tag would hand the samples to its converter here.
fn heard(output: &[f32], sound: &mut File) -> std::io::Result<()> {
    let mut samples = [0; OUTPUT];
    samples16(output, &mut samples).expect("an output of a frame's length");
    let bytes: Vec<u8> = samples.iter().flat_map(|sample| sample.to_le_bytes()).collect();
    sound.write_all(&bytes)
}

/// On 6 the player goes on in the same stream and starts no other clip: the player that took it for the end read out the
/// wrong jar.
fn play(stream: &[u8], sound: &mut File, choices: u32) -> std::io::Result<Told> {
    let (mut memory, mut output) = ([0.0; MEMORY], [0.0; OUTPUT]);
    let mut told = Told {
        last: None,
        frames: 0,
        refused: 0,
        others: 0,
        barred: 0,
        junk: 0,
    };
    let (mut d, opened) = Decoder::new(stream, &mut memory, choices);
    told.junk = d.skipped();
    match opened {
        Err(refusal) if !refusal.ends() => told.tell_refusal(&d, refusal),
        _ => {}
    }
    // After 8 or 9 nothing was cleared: such a decoder must not go on.
    if told.goes_on() {
        ask(&mut d, stream, &mut told);
        tell_junk(told.junk);
    }
    while told.goes_on() {
        match d.decode(stream, &mut memory, &mut output) {
            Ok(frame) => {
                told.tell_frame(&d, frame, &output);
                heard(&output, sound)?;
            }
            Err(refusal) => told.tell_refusal(&d, refusal),
        }
    }
    Ok(told)
}

/// Says how it ended, and gives the status.
fn tell_the_keeper(told: &Told) -> i32 {
    if let Some(refusal) = told.callers_mistake() {
        println!("this player made a mistake: {}", words_of(refusal));
        return OUR_MISTAKE;
    }
    println!("frames played to the end of the clip: {}", told.frames);
    if told.last == Some(Refusal::CUT_OFF) {
        println!("the last frame is cut off: ask the maker of this clip whether it is whole");
    }
    if told.others != 0 {
        println!(
            "frames of another format, not played: {}. Tell the maker of this clip",
            told.others
        );
    }
    if told.barred != 0 {
        println!(
            "frames of a bit rate that the standard does not have in this mode, not played: {}. Tell the maker of this clip",
            told.barred
        );
    }
    let rest = told.refused - told.others - told.barred;
    if rest != 0 {
        println!("calls that found no frame: {rest}. Tell the maker of this clip");
    }
    match told.frames == 0 || told.refused != 0 {
        true => TELL_THE_KEEPER,
        false => PLAYED,
    }
}

fn failed(name: &str, what: &str) -> i32 {
    eprintln!("{name}: {what}");
    NO_FILE
}

fn run(clip: &str, sound: &str, choices: u32) -> i32 {
    let mut stream = Vec::new();
    let read = File::open(clip).and_then(|file| file.take(LONGEST as u64 + 1).read_to_end(&mut stream));
    if read.is_err() {
        return failed(clip, "cannot be read");
    }
    if stream.len() > LONGEST {
        return failed(clip, "has more than 65536 bytes: nothing was played");
    }
    match File::create(sound).and_then(|mut file| play(&stream, &mut file, choices)) {
        Ok(told) => tell_the_keeper(&told),
        Err(_) => failed(sound, "cannot be written"),
    }
}

fn main() {
    let words: Vec<String> = std::env::args().skip(1).collect();
    std::process::exit(match &words[..] {
        [clip, sound] => run(clip, sound, 0),
        [clip, sound, strict] if strict == "strict" => run(clip, sound, choice::STRICT),
        _ => {
            eprint!("{USAGE}");
            NO_FILE
        }
    })
}
