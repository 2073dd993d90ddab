// The page's long work, in a thread of its own: it lists clips and makes their sound, and never keeps the page waiting.
import { Decoder } from "./tag.js";
import { Listing } from "./listing.js";
import { MOST_FRAMES, wavHeader } from "./wav.js";
import { ringOut } from "./ring.js";

const SLICE = 50; // milliseconds from one rest to the next
const CHUNK = 64; // frames that are written at once
const clips = new Map();
const cancelled = new Set();
let module;

// Steps until there is none; every now and then the page is told how far it is, and may have cancelled.
async function paced(id, step, share) {
    for (let until = performance.now() + SLICE; step(); ) {
        if (performance.now() < until) continue;
        self.postMessage({ id, share: share() });
        await new Promise((rested) => setTimeout(rested));
        if (cancelled.delete(id)) throw new Error("cancelled");
        until = performance.now() + SLICE;
    }
}

// The listing of this number, and no other that has taken its place.
function listingOf({ key, listing }) {
    if (clips.get(key)?.id !== listing) throw new Error("another clip was opened");
    return clips.get(key);
}

const jobs = {
    async begin({ bytes }) {
        module = await WebAssembly.compile(bytes);
    },

    async list({ id, key, stream, choices }) {
        const listing = new Listing(new Decoder(module, stream), stream, choices), { calls, map } = listing;
        await paced(id, () => listing.step(), () => listing.share);
        clips.set(key, Object.assign(listing, { id }));
        const wide = (name) => Uint32Array.from(calls[name]);
        const columns = { number: Uint8Array.from(calls.number), position: wide("position"), bits: wide("bits"), skipped: wide("skipped") };
        const wave = { values: Float32Array.from(listing.outline?.values ?? []), frames: listing.format.frames };
        return { id, columns, wave, tally: listing.tally, format: listing.format, map: map.columns, bytes: map.bytes };
    },

    frames({ first, count, ...clip }) {
        return listingOf(clip).frames(first, count);
    },

    async wav({ id, ...clip }) {
        const listing = listingOf(clip), { frames, rate } = listing.format, parts = [wavHeader(frames, frames ? rate : 44100)];
        if (frames > MOST_FRAMES) throw new Error(`a WAV file has room for ${MOST_FRAMES} frames, and this clip has ${frames}`);
        let next = 0;
        const step = () => {
            const count = Math.min(Math.max(CHUNK, listing.every), frames - next);
            if (count) parts.push(new Blob([listing.frames(next, count)]));
            next += count;
            return next < frames;
        };
        await paced(id, step, () => next / frames);
        return new Blob(parts, { type: "audio/wav" });
    },

    ring({ first, second, frames }) {
        return ringOut(module, first, second, frames);
    },
};

self.onmessage = async ({ data }) => {
    if ("cancel" in data) return void cancelled.add(data.cancel);
    try {
        self.postMessage({ id: data.id, done: await jobs[data.job](data) });
    } catch (problem) {
        self.postMessage({ id: data.id, failed: problem.message });
    }
};
