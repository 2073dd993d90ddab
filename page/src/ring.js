// Two clips, one behind the other, beside the second alone: how long the first rings on, counted bit for bit.
import { Decoder, PAIRS } from "./tag.js";
import { Listing } from "./listing.js";

export const RINGS = 480; // 15 blocks of 32 samples

// Arrays of one kind, one behind the other.
export function joined(parts) {
    const whole = new parts[0].constructor(parts.reduce((length, part) => length + part.length, 0));
    parts.reduce((at, part) => (whole.set(part, at), at + part.length), 0);
    return whole;
}

// A clip's calls, and every frame as it was decoded.
function heard(module, stream) {
    const decoder = new Decoder(module, stream), listing = new Listing(decoder, stream, 0), frames = [];
    for (let before = 0; !listing.done; before = decoder.frames) {
        listing.step();
        if (decoder.frames > before) frames.push(decoder.output.slice());
    }
    return { calls: listing.calls, format: listing.format, frames };
}

// The bytes of a clip up to the header of frame `count`, or all of them.
function firstFrames({ calls }, count) {
    const rows = Array.from(calls.number.keys()).filter((row) => calls.isFrame(row));
    return rows.length > count ? calls.stream.subarray(0, calls.header(rows[count])) : calls.stream;
}

// How many values of two decodings differ, from sample `first` up to `end`; the last such sample, and by how much at most.
function differing(one, other, first, end) {
    const bits = new Uint32Array(one.buffer), otherBits = new Uint32Array(other.buffer);
    const found = { compared: 0, differ: 0, last: 0, largest: 0 };
    for (let i = 2 * first; i < Math.min(2 * end, one.length); i++) {
        found.compared++;
        if (bits[i] === otherBits[i]) continue;
        found.differ++;
        found.last = (i >>> 1) + 1;
        found.largest = Math.max(found.largest, Math.abs(one[i] - other[i]));
    }
    return found;
}

export function ringOut(module, first, second, count) {
    const before = heard(module, first), alone = heard(module, second), frames = Math.min(count, before.frames.length);
    const both = heard(module, joined([firstFrames(before, frames), second])), refused = both.calls.number.filter((number) => number === 6).length;
    const result = { frames, total: before.frames.length, formats: { first: before.format, second: alone.format }, refused, joint: frames * PAIRS };
    Object.assign(result, { both: joined(both.frames), alone: joined(alone.frames), fits: both.frames.length - frames === alone.frames.length });
    if (!result.fits) return result;
    const behind = joined(both.frames.slice(frames)), difference = behind.map((value, i) => value - result.alone[i]);
    return { ...result, difference, ringing: differing(behind, result.alone, 0, RINGS), later: differing(behind, result.alone, RINGS, Infinity) };
}
