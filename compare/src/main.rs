//! Runs the port and the Rust on the same streams and compares everything they give. See README.md.
//! `run` compiles the layers that were asked for, so that a library without a later layer's functions links.

#[cfg(layer = "answers")]
mod answers;
#[cfg(layer = "bench")]
mod bench;
#[cfg(layer = "decode")]
mod both;
#[cfg(any(
    layer = "answers",
    layer = "reader",
    layer = "header",
    layer = "decode",
    layer = "wav"
))]
mod by_01;
#[cfg(any(layer = "decode", layer = "wav"))]
mod by_02;
#[cfg(any(layer = "decode", layer = "wav", layer = "cortex"))]
mod classes;
#[cfg(layer = "bench")]
mod clock;
#[cfg(layer = "codes")]
mod codes;
#[cfg(layer = "wav")]
mod corners;
#[cfg(layer = "cortex")]
mod cortex;
#[cfg(layer = "decode")]
mod decode;
#[cfg(any(
    layer = "answers",
    layer = "decode",
    layer = "bench",
    layer = "wav",
    layer = "cortex"
))]
mod files;
#[cfg(any(layer = "header", layer = "decode", layer = "bench", layer = "cortex"))]
#[path = "../../firmware/tag.rs"]
mod firmware;
#[cfg(any(layer = "codes", layer = "sound", layer = "decode", layer = "wav", layer = "cortex"))]
mod frames;
#[cfg(layer = "bench")]
mod grow;
#[cfg(layer = "header")]
mod header;
#[cfg(any(layer = "decode", layer = "wav", layer = "cortex"))]
mod junk;
#[cfg(any(layer = "wav", layer = "cortex"))]
mod loud;
#[cfg(layer = "decode")]
mod pairs;
#[cfg(layer = "reader")]
mod reader;
#[cfg(any(layer = "bench", layer = "decode", layer = "wav"))]
mod riff;
#[cfg(any(layer = "header", layer = "decode", layer = "cortex"))]
mod saved;
#[cfg(not(layer = "answers"))]
mod seeded;
#[cfg(layer = "sound")]
mod sound;
mod source;
#[cfg(any(
    layer = "answers",
    layer = "reader",
    layer = "header",
    layer = "decode",
    layer = "wav"
))]
mod strict;
#[cfg(layer = "wav")]
mod summary;
#[cfg(not(any(layer = "answers", layer = "decode", layer = "wav", layer = "cortex")))]
mod tag;
#[cfg(not(any(layer = "answers", layer = "bench", layer = "cortex")))]
mod tally;
#[cfg(layer = "wav")]
mod wav;
#[cfg(layer = "bench")]
mod wave;

#[cfg(layer = "answers")]
fn main() {
    let words: Vec<String> = std::env::args().skip(1).collect();
    match &words.iter().map(String::as_str).collect::<Vec<_>>()[..] {
        [] => answers::across(),
        [folder] => answers::print(folder.as_ref(), false),
        [folder, "strict"] => answers::print(folder.as_ref(), true),
        _ => panic!("FOLDER, FOLDER strict, or nothing"),
    }
}

#[cfg(layer = "bench")]
fn main() {
    let words: Vec<String> = std::env::args().skip(1).collect();
    match &words.iter().map(String::as_str).collect::<Vec<_>>()[..] {
        ["wave", path] => wave::write(path.as_ref()).unwrap(),
        ["grow", folder] => grow::print(folder.as_ref()),
        [folder, rounds] => {
            bench::reader();
            bench::streams(folder.as_ref(), rounds.parse().expect("a number of rounds"));
        }
        _ => panic!("wave FILE, grow FOLDER, or FOLDER ROUNDS"),
    }
}

#[cfg(layer = "wav")]
fn main() {
    let words: Vec<String> = std::env::args().skip(1).collect();
    if words == ["file"] {
        return wav::write();
    }
    let mut tally = tally::Tally::default();
    wav::compare(&mut tally, &words);
    std::process::exit(tally.close());
}

#[cfg(layer = "cortex")]
fn main() {
    let words: Vec<String> = std::env::args().skip(1).collect();
    let count = words[1].parse().expect("a number of streams");
    cortex::write(words[0].as_ref(), count).expect("files of jobs");
}

#[cfg(not(any(layer = "answers", layer = "bench", layer = "wav", layer = "cortex")))]
fn main() {
    #[cfg(not(layer = "decode"))]
    let count: Option<usize> = std::env::args().nth(1).and_then(|word| word.parse().ok());
    let mut tally = tally::Tally::default();
    #[cfg(layer = "reader")]
    reader::compare(&mut tally, count.unwrap_or(2_000_000));
    #[cfg(layer = "header")]
    header::compare(&mut tally, count.unwrap_or(400_000));
    #[cfg(layer = "codes")]
    codes::compare(&mut tally, count.unwrap_or(205_800));
    #[cfg(layer = "sound")]
    sound::compare(&mut tally, count.unwrap_or(1_000_000));
    #[cfg(layer = "decode")]
    decode::compare(&mut tally, &std::env::args().skip(1).collect::<Vec<_>>());
    std::process::exit(tally.close());
}
