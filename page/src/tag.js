// The decoder as JavaScript sees it: the four calls of crate tag, compiled to WebAssembly, and all that is lent to them.
// What each call does, and what stands where in a state, is said in firmware/tag.h.

export const STREAM = 16777216; // bytes that a stream has at most
export const PAIRS = 1152; // samples of a frame on each channel
export const OUTPUT = 2 * PAIRS; // values of a frame, left and right in turn
const MEMORY = 2048, PAGE = 65536; // values of synthesis memory; bytes by which a module's memory grows
const BYTES = { memory: 4 * MEMORY, places: 64, counts: 32, time: 8, start: 8, bits: 8, rate: 4, kbps: 4, mode: 4, output: 4 * OUTPUT, samples: 2 * OUTPUT };
const SAVED = BYTES.memory + BYTES.places + BYTES.counts + BYTES.time;

// Where everything lies in the module's memory, one behind the other: synthesis memory and state first, so that both are
// saved in one piece.
function placed(base, length) {
    const at = {};
    let free = Math.ceil(base / 16) * 16;
    for (const [name, bytes] of Object.entries({ ...BYTES, stream: length })) {
        at[name] = free;
        free += bytes;
    }
    return { at, end: free };
}

// One decoder on one stream, with a memory of its own.
export class Decoder {
    constructor(module, stream) {
        const calls = new WebAssembly.Instance(module).exports;
        const { at, end } = placed(calls.__heap_base.value, stream.length);
        const missing = Math.ceil(end / PAGE) - calls.memory.buffer.byteLength / PAGE;
        if (missing > 0) calls.memory.grow(missing);
        const bytes = calls.memory.buffer;
        new Uint8Array(bytes, at.stream, stream.length).set(stream);
        Object.assign(this, { calls, at, count: BigInt(stream.length) });
        this.saved = new Uint8Array(bytes, at.memory, SAVED);
        // Places and bits are 64 bits wide and below 2^32, so the lower half of each is the number.
        this.places = new Uint32Array(bytes, at.places, 16);
        this.counts = new Uint32Array(bytes, at.counts, 8);
        this.used = new Uint32Array(bytes, at.bits, 1);
        this.began = new Float64Array(bytes, at.start, 1);
        this.told = new Uint32Array(bytes, at.rate, 3);
        this.output = new Float32Array(bytes, at.output, OUTPUT);
        this.samples = new Int16Array(bytes, at.samples, OUTPUT);
    }

    open(choices) {
        const { stream, memory, places, counts, time } = this.at;
        return this.calls.tag_open(stream, this.count, memory, BigInt(MEMORY), places, counts, time, choices);
    }

    decode() {
        const { stream, memory, output, places, counts, time, start, bits } = this.at;
        const rooms = [memory, BigInt(MEMORY), output, BigInt(OUTPUT)];
        return this.calls.tag_decode(stream, this.count, ...rooms, places, counts, time, start, bits);
    }

    // The frame of the last call as 16-bit samples, rounded as in a WAV file.
    samples16() {
        this.calls.tag_samples16(this.at.output, BigInt(OUTPUT), this.at.samples, BigInt(OUTPUT));
        return this.samples;
    }

    // The clip's format: samples a second, kilobits a second, the mode. Zeros where no format is known and the attempt finds none.
    format() {
        const { stream, places, counts, time, rate, kbps, mode } = this.at;
        this.calls.tag_format(stream, this.count, places, counts, time, rate, kbps, mode);
        return { rate: this.told[0], kbps: this.told[1], mode: this.told[2] };
    }

    get position() { return this.places[0]; }
    get skipped() { return this.places[14]; } // the eighth place: of the last call, and no part of the state
    get frames() { return this.counts[1]; }
    get start() { return this.began[0]; }
    get bits() { return this.used[0]; }

    // A decoder is its memory and its state: a copy goes on from there.
    save() { return this.saved.slice(); }
    restore(copy) { this.saved.set(copy); }
}
