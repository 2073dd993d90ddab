// A clip's verdict, for its keeper: whether it can be used, what to do, and one line with every number.
import { frameBytes } from "./header.js";
import { goesOn } from "./calls.js";
import { REASONS, counted, seconds, times, why } from "./words.js";

// What to do where a number was given.
const ADVICE = {
    3: "Bytes in it look like a header, but are none of MPEG-1 Layer II (3). Tell the maker of this clip.",
    4: "A header in it has a bit rate that is none (4). Tell the maker of this clip.",
    5: "A header in it has a sample rate that is none (5). Tell the maker of this clip.",
    6: "Part of it has another format than its beginning, and is not spoken (6). Have it made again in one format, and each clip as a file of its own.",
    7: "Its last frame is cut off, and is not spoken (7). Have the file sent again.",
    13: "The maker's tool wrote a bit rate that the standard does not have in this mode (13), and some players refuse it. " +
        "In mono ask for 192 kbps or less. In stereo ask for 64 kbps, or for 96 and more.",
};

// What to do where no number says it, but the places of headers do.
const ODD = {
    inside: (count) => `${counted(count, "header")} stood inside another frame. Bytes may be missing there. Have the file sent again.`,
    over: (count) => `${counted(count, "frame")} read on past the frame's own end. Bytes may be missing there. Have the file sent again.`,
    begun: () => "Behind its last frame another one begins, and is cut off. Have the file sent again.",
};
const MISSING = {
    front: ["In front of its first frame", "the beginning"], between: ["Between its frames", "something"], behind: ["Behind its last frame", "the end"],
};

function outside(where, bytes, frames) {
    const [place, part] = MISSING[where], stray = `${place} ${counted(bytes, "byte")} ${bytes === 1 ? "belongs" : "belong"} to no frame.`;
    return frames ? `${stray} That is room for ${counted(frames, "frame")}: ${part} may be missing. Have the file sent again.` : stray;
}

// Whether bytes that stand in no frame may be the rest of one. A title or zeros in front may not, nor less than a frame behind.
function suspicious(where, { bytes, stream }, size) {
    const harmless = starts("ID3")(stream) || stream.subarray(0, bytes.front).every((byte) => byte === 0);
    return where === "between" || bytes[where] >= size || (where === "front" && !harmless);
}

function refusal(clip, number, { count, first, alike }) {
    const says = number > 2 ? `${alike ? "the header says" : "the first such header says"} ${why(clip, first)}` : REASONS[number];
    return `refused ${number}, ${times(count)}: ${says}`;
}

// Every number in one line: frames and seconds, refusals in the order in which they came, the end.
function lineOf(clip) {
    const { tally, format: { frames, rate } } = clip, last = tally[7] ? 7 : 1, numbers = Object.keys(tally).map(Number);
    const refused = numbers.filter((number) => number > 1 && goesOn(number)).sort((one, other) => tally[one].first - tally[other].first);
    const sound = counted(frames, "frame") + (frames ? `, ${seconds(frames, rate)}` : "");
    return [sound, ...refused.map((number) => refusal(clip, number, tally[number])), `ended with ${last}: ${REASONS[last]}`].join("; ");
}

export function verdict(clip) {
    const { tally, format, bytes, stream } = clip, size = frameBytes(format), line = lineOf(clip);
    if (!format.frames) return { kind: "none", judgement: "Nothing here can be played.", advice: [fileWords(clip)], line };
    if (bytes.next < 2 && bytes.front + bytes.between + bytes.behind > 0.9 * stream.length) {
        return { kind: "none", judgement: "This is hardly a clip.", advice: [fileWords(clip), "What plays of it may be noise."], line };
    }
    const places = Object.keys(MISSING).filter((where) => bytes[where]);
    const troubles = [
        ...Object.keys(ADVICE).filter((number) => tally[number]).map((number) => ADVICE[number]),
        ...Object.keys(ODD).filter((name) => bytes[name]).map((name) => ODD[name](bytes[name])),
    ];
    const advice = [...troubles, ...places.map((where) => outside(where, bytes[where], Math.floor(bytes[where] / size)))];
    if (troubles.length || places.some((where) => suspicious(where, clip, size))) {
        return { kind: "partly", judgement: "Do not use this clip yet: something is wrong with the file.", advice, line };
    }
    return { kind: "whole", judgement: "Every frame was played.", advice: [...advice, "Now listen: the page cannot tell whether the words are right."], line };
}

const starts = (text, at = 0) => (stream) => [...text].every((letter, i) => stream[at + i] === letter.charCodeAt(0));
const second = (...values) => (stream) => stream[0] === 255 && values.includes(stream[1] & 254);

// Whether all of it is UTF-8, without signs that no text has.
function isText(stream) {
    try {
        return !/[\x00-\x08\x0e-\x1f\x7f]/.test(new TextDecoder("utf-8", { fatal: true }).decode(stream));
    } catch {
        return false;
    }
}

const FILES = [
    [(stream) => !stream.length, "The file is empty: it has no byte."],
    [starts("ID3"), "This looks like an MP3 file with a title: MPEG audio, but Layer III."],
    [second(0xfa, 0xf2, 0xe2), "This looks like an MP3 file: MPEG audio, but Layer III."],
    [second(0xf4), "This looks like Layer II at a low sample rate (MPEG-2), which this decoder does not read."],
    [second(0xf0, 0xf8), "This looks like an AAC file."],
    [(stream) => starts("RIFF")(stream) && starts("WAVE", 8)(stream), "This is a WAV file: its sound is decoded already."],
    [starts("OggS"), "This is an Ogg file."], [starts("fLaC"), "This is a FLAC file."], [starts("ftyp", 4), "This is an MP4 file."],
    [starts("\x89PNG"), "This is a picture (PNG)."], [starts("\xff\xd8\xff"), "This is a picture (JPEG)."],
    [starts("%PDF"), "This is a PDF document."], [starts("PK\x03\x04"), "This is a ZIP file."],
    [starts("\x00\x00\x01"), "This looks like MPEG video. Its sound has to be taken out first."],
    [isText, "This is text."],
    [() => true, "Hardly anything in it can be played."],
];

// What a file is that has no frame, or hardly one.
function fileWords({ stream, tally, format, bytes }) {
    if (tally[13] && bytes.next) return ADVICE[13];
    if (tally[7] && !format.frames) return "A header was read, but the frame behind it is cut off (7). Have the file sent again.";
    if (tally[4] && second(0xfc)(stream)) return "This looks like Layer II in free format, or with a bit rate that is none (4). Ask the maker for a clip with a bit rate.";
    const [, words] = FILES.find(([is]) => is(stream));
    return `${words} A clip for the tag is MPEG-1 Layer II, a file whose name ends in .mp2. Ask the maker for that file.`;
}
