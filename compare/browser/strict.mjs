// The strict reading (02, E3): every stored stream, and small ones by hand, beside an own reading of the bytes. It shares no line
// with the decoder's: the pairs are the standard's list, the order of the tests is 02's. Only what a frame is made of is asked of
// the tolerant decoder, which is held to the Rust.
import { execFileSync } from "node:child_process";
import fs from "node:fs";
import { Decoder } from "../../page/src/tag.js";
import { Listing } from "../../page/src/listing.js";
import { joined } from "../../page/src/ring.js";
import { verdict } from "../../page/src/verdict.js";
import { answersOf } from "./answers.mjs";
import { clips, compiled, ours, rust, streams as listed } from "./stored.mjs";

const STRICT = 1; // bit 0 of the choices
const FRAMES = 32; // of the clip of 320 kbps mono, of 1,044 bytes each
const streams = [...listed, { name: "length-65537.mp2", stream: new Uint8Array(fs.readFileSync("crates/replay/data/length-65537.mp2")) }];

// Bit rates by their number in the header, 1 to 14, and the modes that the standard has them in: m is mono, s is all others.
const RATES = "32 m, 48 m, 56 m, 64 sm, 80 m, 96 sm, 112 sm, 128 sm, 160 sm, 192 sm, 224 s, 256 s, 320 s, 384 s".split(", ").map((pair) => pair.split(" "));
const SAMPLES = [44100, 48000, 32000];
const hasPair = (bitRate, mode) => RATES[bitRate - 1][1].includes(mode === 3 ? "m" : "s");

// Fields from a byte on. One that is cut off is 0, and nothing is read of it.
class Fields {
    constructor(stream, byte) { Object.assign(this, { stream, at: 8 * byte }); }

    next(width) {
        let value = 0;
        if (this.at + width > 8 * this.stream.length) return 0;
        for (const end = this.at + width; this.at < end; this.at++) value = 2 * value + ((this.stream[this.at >> 3] >> (7 - (this.at & 7))) & 1);
        return value;
    }
}

// One attempt from a bit on: its number, where it stops, what it passed over, and the header where it is accepted.
function attempt(stream, position, known, pair) {
    const start = Math.ceil(position / 8), { length } = stream;
    if (8 * length - position < 48) return { number: 1, at: position, skipped: 0 };
    let sync = start;
    while (stream[sync] === 0) sync++;
    const searched = !(stream[sync] === 255 && stream[sync + 1] >= 224), from = sync + 1;
    while (searched && sync < length && !(stream[sync] === 255 && (stream[sync + 1] & 254) === 252)) sync++;
    if (sync >= length) return { number: 2, at: 8 * Math.max(length, from), skipped: length - start };
    const fields = new Fields(stream, sync), stops = (number) => ({ number, at: fields.at, skipped: sync - start, sync });
    fields.next(11);
    const [version, layer, open] = [2, 2, 1].map((width) => fields.next(width));
    if (version !== 3 || layer !== 2) return stops(3);
    const bitRate = fields.next(4);
    if (bitRate === 0 || bitRate === 15) return stops(4);
    const rate = fields.next(2);
    if (rate === 3) return stops(5);
    const [padding, , mode] = [1, 1, 2].map((width) => fields.next(width)), format = [bitRate, rate, mode].join();
    if (!pair(bitRate, mode)) return stops(13);
    if (known && known !== format) return stops(6);
    for (const width of [2, 4, ...(open ? [] : [16])]) fields.next(width);
    const kbps = Number(RATES[bitRate - 1][0]), room = Math.floor((144000 * kbps) / SAMPLES[rate]) + padding - (open ? 4 : 6);
    return { ...stops(0), format, room, words: `rate ${SAMPLES[rate]} kbps ${kbps} mode ${mode}` };
}

// A frame's bits, by the tolerant decoder on what begins with its header; and the bytes of header and frame.
function frameAt(module, stream, sync) {
    const decoder = new Decoder(module, stream.subarray(sync));
    decoder.open(0);
    if (decoder.decode() !== 0) throw new Error("a frame that the tolerant decoder does not play");
    return { bits: decoder.bits, bytes: decoder.position / 8 };
}

// The lines of a stream, and where the frames that play begin and end.
function byBytes(module, stream, pair = hasPair) {
    const lines = [], kept = [];
    let known, met = attempt(stream, 0, known, pair), opening = true;
    for (; ; met = attempt(stream, met.at, known, pair)) {
        const cut = met.number === 0 && 8 * stream.length - met.at < 8 * met.room, number = cut ? 7 : met.number, ends = number === 1 || number === 7;
        known ??= met.format;
        if (number === 0) {
            const { bits, bytes } = frameAt(module, stream, met.sync), end = met.sync + bytes;
            lines.push(`frame ${kept.length} at ${end - Math.ceil(bits / 8)} ${met.words} bits ${bits} skipped ${met.skipped}`);
            kept.push([met.sync, end]);
            met.at = 8 * end;
        } else if (number !== 1 || !opening) lines.push(`${ends ? "end" : "refused"} ${number} at ${met.at >> 3} skipped ${met.skipped}`);
        if (ends && !(number === 1 && opening)) return { lines, kept };
        opening = false;
    }
}

// Wrong readings, each of which some stored stream or one by hand must tell.
const WRONG = {
    "joint stereo counts as mono": (bitRate, mode) => hasPair(bitRate, mode === 1 ? 3 : mode),
    "two channels count as mono": (bitRate, mode) => hasPair(bitRate, mode === 2 ? 3 : mode),
    "80 kbps in every mode": (bitRate, mode) => bitRate === 5 || hasPair(bitRate, mode),
    "192 kbps never in mono": (bitRate, mode) => !(bitRate === 10 && mode === 3) && hasPair(bitRate, mode),
    "every pair": () => true,
};

const bytes = (hex, zeros = 0) => joined([Uint8Array.from(hex.split(" "), (pair) => parseInt(pair, 16)), new Uint8Array(zeros)]);
const BY_HAND = {
    "384 kbps mono": [bytes("FF FD E0 C0", 1249), "refused 13 at 3 skipped 0", "refused 2 at 1254 skipped 1249", "end 1 at 1254 skipped 0"],
    "32 kbps stereo": [bytes("FF FD 10 00", 100), "refused 13 at 3 skipped 0", "refused 2 at 105 skipped 100", "end 1 at 105 skipped 0"],
    "32 kbps, cut before its mode": [bytes("00 00 00 FF FD 10"), "refused 13 at 6 skipped 3", "end 1 at 6 skipped 0"],
    "320 kbps, cut before its mode": [bytes("00 00 00 FF FD D0"), "end 7 at 6 skipped 3"],
    "5 before 13": [bytes("FF FD 1C 00", 4), "refused 5 at 2 skipped 0", "end 1 at 2 skipped 0"],
    "13 before 6, and the format stays": [joined([clips.citrus.subarray(0, 208), bytes("FF FD D0 C0"), clips.citrus.subarray(208, 416)]),
        "frame 0 at 4 rate 44100 kbps 64 mode 3 bits 1632 skipped 0", "refused 13 at 211 skipped 0", "frame 1 at 216 rate 44100 kbps 64 mode 3 bits 1628 skipped 0", "end 1 at 420 skipped 0"],
    "13 first, and no format is known": [joined([bytes("FF FD D0 C0"), clips.citrus.subarray(0, 208)]),
        "refused 13 at 3 skipped 0", "frame 0 at 8 rate 44100 kbps 64 mode 3 bits 1632 skipped 0", "end 1 at 212 skipped 0"],
};

const told = (module, stream, choices) => answersOf({ Decoder, Listing }, module, stream, choices);
const sums = (lines) => lines.filter((line) => line.startsWith("frame")).map((line) => line.replace(/.* time/, "time")).join("\n");
// The frames that play, one behind the other: the last one with all that stands behind it, since it may read on.
const alone = (stream, kept) => joined(kept.map(([sync, end], i) => stream.subarray(sync, i < kept.length - 1 ? end : stream.length)));
const bare = (lines) => lines.map((line) => line.replace(/ time .*/, "")).join("\n");

// What a stream and every stored one are in the strict reading, for the browser: a list by the own reading, and lines with sums.
export const strictList = (module, stream) => byBytes(module, stream).lines.join("\n") + "\n";
export const strictLines = (module) => listed.flatMap(({ name, stream }) => [name, ...told(module, stream, STRICT)]).join("\n") + "\n";

export function compareStrict(count, module) {
    const byHand = Object.entries(BY_HAND).map(([name, [stream]]) => ({ name, stream })), right = [], wrong = new Set(Object.keys(WRONG));
    for (const { name, stream } of [...streams, { name: "citrus-320", stream: clips.barred }, ...byHand]) {
        const lines = told(module, stream, STRICT), { lines: own, kept } = byBytes(module, stream);
        count.lines(bare(lines), own.join("\n"), `${name}, read strictly`);
        if (kept.length) count.same(sums(lines), sums(told(module, alone(stream, kept), 0)).split("\n").slice(0, kept.length).join("\n"), `${name}: its sound is that of the frames that play`);
        if (!own.some((line) => line.startsWith("refused 13"))) count.same(lines.join("\n"), told(module, stream, 0).join("\n"), `${name}: without a 13 both readings are one`);
        for (const words of wrong) if (byBytes(module, stream, WRONG[words]).lines.join() !== own.join()) wrong.delete(words);
        right.push(...own);
    }
    for (const [name, [, ...lines]] of Object.entries(BY_HAND)) count.same(bare(told(module, BY_HAND[name][0], STRICT)), lines.join("\n"), `${name}, by hand`);
    count.same([...wrong].join(), "", "wrong readings that nothing tells");
    count.holds(right.filter((line) => line.startsWith("refused 13")).length > 100, "many headers are refused with 13");
}

// Modules with one small mistake each. The Rust's answers do not tell it: only the strict reading does.
const WRONG_MODULES = {
    "80 kbps in every mode": `/@"readings::only_mono"/,/^}/s/i32 80, label/i32 81, label/`,
    "joint stereo and two channels count as mono": `/@"readings::barred"/,/^}/s/icmp eq i32 %a2, 3/icmp ne i32 %a2, 0/`,
    "13 said as 6": `/@"header::refused_after_mode"/,/^}/s/store i8 12,/store i8 5,/`,
};

export function compareWrongStrict(count, module) {
    const file = "target/page/wrong.wasm", right = listed.map(({ stream }) => byBytes(module, stream).lines.join("\n")).join("\n");
    for (const [words, edit] of Object.entries(WRONG_MODULES)) {
        execFileSync("page/build", ["wasm", file], { env: { ...process.env, EDIT: edit } });
        const wrong = compiled(file);
        count.holds(listed.map(({ stream }) => bare(told(wrong, stream, STRICT))).join("\n") !== right, `not told: ${words}`);
        count.holds(ours(wrong) === rust, `read plainly it is another decoder: ${words}`);
    }
}

// The clip of 320 kbps mono: read plainly every frame plays, and sounds as citrus.mp2; read strictly none does.
export function compareBarred(count, module) {
    const heard = (choices) => {
        const listing = new Listing(new Decoder(module, clips.barred), clips.barred, choices);
        while (listing.step());
        const { calls, tally, format, map } = listing;
        return { calls, tally, format, stream: clips.barred, bytes: map.bytes };
    };
    const plain = heard(0), strict = heard(STRICT), numbers = (clip) => Array.from(clip.calls.number).join();
    count.same(numbers(plain), [...Array(FRAMES).fill(0), 2, 1].join(), "320 kbps mono, read plainly");
    count.same(numbers(strict), [...Array(FRAMES).fill(13), 2, 1].join(), "320 kbps mono, read strictly");
    count.same(sums(told(module, clips.barred, 0)), sums(told(module, clips.citrus, 0)).split("\n").slice(0, FRAMES).join("\n"), "its sound is the citrus clip's");
    count.same(verdict(plain).judgement, "Every frame was played.", "its verdict, read plainly");
    const { kind, advice, line } = verdict(strict);
    count.same(kind, "none", "its verdict, read strictly");
    count.holds(advice.length === 1 && advice[0].includes("(13)") && advice[0].includes("ask for 192 kbps or less"), `the advice: ${advice}`);
    count.same(line, "0 frames; refused 13, 32 times: the header says 320 kbps in mono, which the standard does not have; refused 2, once: no sync found; ended with 1: no header can follow", "its line");
    for (const { bytes } of [plain, strict]) {
        const parts = [bytes.sound, bytes.headers, ...Object.values(bytes.refused), ...Object.values(bytes.passed)];
        count.same(parts.reduce((sum, part) => sum + part, 0), clips.barred.length, "its bytes, each once");
    }
    const { refused, passed } = strict.bytes;
    count.same([refused[13], passed[13]].join(), [4 * FRAMES, 1040 * FRAMES].join(), "headers refused with 13, and what was passed over behind them");
}
