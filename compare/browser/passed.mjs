// What a call passed over, and where the header stands that it met: the page's rows, which have both from the decoder, beside
// an own reading of the bytes and beside numbers that were worked out by hand, both from 01 and 02.
import { Decoder } from "../../page/src/tag.js";
import { Listing } from "../../page/src/listing.js";
import { joined } from "../../page/src/ring.js";
import { clips, streams } from "./stored.mjs";

// The FF of the sync that an attempt from byte `start` on finds; the stream's length if there is none; -1 without an attempt.
function syncFrom(stream, start) {
    const second = (byte) => stream[byte] === 255 && stream[byte + 1]; // the byte behind an FF
    if (stream.length - start < 6) return -1;
    let at = start;
    while (stream[at] === 0) at++;
    if (second(at) >= 224) return at;
    while (at < stream.length && (second(at) & 254) !== 252) at++;
    return at;
}

const told = (header, skipped) => `header ${header} skipped ${skipped}`;

// What the bytes say of each call. A call begins where the one before stopped, at the next whole byte.
function byBytes({ position }, stream) {
    return Array.from(position, (_, row) => {
        const start = row ? Math.ceil(position[row - 1] / 8) : 0, sync = syncFrom(stream, start);
        return told(sync < stream.length ? sync : -1, sync < 0 ? 0 : sync - start);
    });
}

const byPage = (calls) => Array.from(calls.number, (_, row) => told(calls.header(row), calls.skipped[row]));

const bytes = (hex) => Uint8Array.from(hex.split(" "), (pair) => parseInt(pair, 16));
const zeros = (count) => new Uint8Array(count), junk = (count) => new Uint8Array(count).fill(0x6a);

// In front of four frames of the lavender clip, or alone: the first calls' numbers, headers, and bytes passed over. A frame has
// 156 bytes, and its sound leaves some of them: 2 of the first.
const frames = clips.lavender.subarray(0, 624);
const BY_HAND = [
    ["a clip alone", [frames], [0, 0, 0], [0, 156, 2]],
    ...[1, 2, 3, 500].map((count) => [`${count} bytes of junk`, [junk(count), frames], [0, count, count], [0, count + 156, 2]]),
    ...[1, 2, 100].map((count) => [`${count} zeros`, [zeros(count), frames], [0, count, count], [0, count + 156, 2]]),
    ["zeros, then junk", [zeros(3), junk(2), frames], [0, 5, 5]],
    ["junk, then zeros", [junk(2), zeros(3), frames], [0, 5, 5]],
    ["FF FF FD", [bytes("FF"), frames], [3, 0, 0], [0, 157, 155]],
    ["FF FF FD behind zeros", [zeros(4), bytes("FF"), frames], [3, 4, 4], [0, 161, 155]],
    ["FF FF FD behind junk", [bytes("6A FF"), frames], [0, 2, 2]],
    ["an opening refused with 2", [bytes("6A 6A 6A 6A 6A FF")], [2, -1, 6], [1, -1, 0]],
    ["zeros alone", [zeros(10)], [2, -1, 10], [1, -1, 0]],
    ["an opening refused with 3", [bytes("FF FB 90 00"), frames], [3, 0, 0], [0, 4, 2]],
    ["an opening refused with 4", [bytes("6A 6A FF FD F0"), frames], [4, 2, 2], [0, 5, 0]],
    ["an opening refused with 5", [bytes("00 FF FD 8C 00"), frames], [5, 1, 1], [0, 5, 1]],
    ["another format behind", [frames, clips.citrus.subarray(0, 208)], [0, 0, 0], [0, 156, 2], [0, 312, 2], [0, 468, 2], [6, 624, 1], [2, -1, 204], [1, -1, 0]],
    ["a first frame that is cut off", [frames.subarray(0, 100)], [7, 0, 0]],
    ["the same behind junk", [junk(7), frames.subarray(0, 100)], [7, 7, 7]],
    ["a second frame that is cut off", [frames.subarray(0, 300)], [0, 0, 0], [7, 156, 2]],
    ["a header that is cut off", [junk(3), frames.subarray(0, 3)], [7, 3, 3]],
    ["too few bytes", [frames.subarray(0, 5)], [1, -1, 0]],
    ["01's example", [bytes("FF FD A0 00"), zeros(622)], [0, 0, 0], [2, -1, 598], [1, -1, 0]],
];

function callsOf(module, stream) {
    const listing = new Listing(new Decoder(module, stream), stream, 0);
    while (listing.step());
    return listing.calls;
}

export function comparePassed(count, module) {
    for (const [name, parts, ...rows] of [...streams.map(({ name, stream }) => [name, [stream]]), ...BY_HAND]) {
        const stream = joined(parts), calls = callsOf(module, stream);
        count.lines(byPage(calls).join("\n"), byBytes(calls, stream).join("\n"), `${name}: headers, and what was passed over`);
        rows.forEach((row, at) => count.same([calls.number[at], calls.header(at), calls.skipped[at]].join(), row.join(), `${name}, call ${at + 1}, by hand`));
    }
}
