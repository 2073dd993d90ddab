// Small words that the page says: counts, each number's reason, a header.
import { fields } from "./header.js";
import { PAIRS } from "./tag.js";

// The words of crates/listing/specs/Words, which the programs print; compare/page holds these to them.
export const REASONS = {
    0: "a frame", 1: "no header can follow", 2: "no sync found", 3: "another version or layer", 4: "a bit rate that is none", 5: "a sample rate that is none",
    6: "another bit rate, sample rate or mode than the first", 7: "the last frame is cut off", 13: "a bit rate that the standard does not have in this mode",
};
export const MODES = ["stereo", "joint stereo", "two channels", "mono"];
const VERSIONS = ["MPEG-2.5", "a version that is none", "MPEG-2", "MPEG-1"];
const LAYERS = ["no layer", "Layer III (MP3)", "Layer II", "Layer I"];

export const grouped = (number) => number.toLocaleString("en");
export const seconds = (frames, rate) => `${((frames * PAIRS) / rate).toFixed(2)} s`;
export const times = (number) => (number === 1 ? "once" : `${grouped(number)} times`);
export const counted = (number, word) => `${grouped(number)} ${word}${number === 1 ? "" : "s"}`;
export const hexOf = (bytes) => [...bytes].map((byte) => byte.toString(16).toUpperCase().padStart(2, "0")).join(" ");

const VALUES = {
    rate: ({ rate }) => (rate ? `${grouped(rate)} samples a second` : "sample rate 3, which is none"),
    kbps: ({ kbps, bitRate }) => (kbps ? `${kbps} kbps` : `bit rate ${bitRate}, which is ${bitRate ? "none" : "free format and not played"}`),
    mode: ({ mode }) => MODES[mode],
};
export const formatWords = (format) => Object.values(VALUES).map((words) => words(format)).join(", ");

export function headerWords(stream, at) {
    const found = fields(stream, at);
    if (found.version !== 3 || found.layer !== 2) return `${VERSIONS[found.version]}, ${LAYERS[found.layer]}`;
    return formatWords(found) + (found.checked ? ", a check word" : "") + missing(found);
}

const missing = ({ cut }) => (cut ? " (cut off: what is missing counts as 0)" : "");

// What of a header made the decoder refuse it. It reads the fields in their order, and stops at the first that is wrong.
export function why({ calls, stream, format }, row) {
    const number = calls.number[row], found = fields(stream, calls.header(row));
    if (number === 3) return headerWords(stream, calls.header(row));
    if (number === 4 || number === 5) return VALUES[number === 4 ? "kbps" : "rate"](found) + missing(found);
    if (number === 13) return `${VALUES.kbps(found)} in ${VALUES.mode(found)}, which the standard does not have${missing(found)}`;
    const parted = Object.keys(VALUES).filter((name) => found[name] !== format[name]), told = (from) => parted.map((name) => VALUES[name](from)).join(", ");
    return `${told(found)}${missing(found)}, the clip began with ${parted.join() === "kbps" ? format.kbps : told(format)}`;
}
