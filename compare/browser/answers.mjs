// A stream as the program replay prints it: a line for each call, and behind a frame's line the bits of its start time and a
// checksum of its samples (FNV-1a, 64 bits, over their patterns, low byte first). The Rust's stored answers look so.
// `Decoder`, `Listing` and the compiled module are the page's. The function is sent to the browser as text, so all it needs
// stands in it.
export function answersOf({ Decoder, Listing }, module, stream, choices = 0) {
    const hex = (number) => number.toString(16).padStart(8, "0");
    const sum = (samples) => {
        const bytes = new Uint8Array(samples.buffer, samples.byteOffset, samples.byteLength);
        let high = 0xcbf29ce4, low = 0x84222325;
        for (const byte of bytes) {
            low = (low ^ byte) >>> 0;
            const product = low * 435; // 2^40 + 435, whose upper part shifts
            high = (high * 435 + Math.floor(product / 2 ** 32) + ((low << 8) >>> 0)) % 2 ** 32;
            low = product % 2 ** 32;
        }
        return hex(high) + hex(low);
    };
    const decoder = new Decoder(module, stream), listing = new Listing(decoder, stream, choices), marks = [];
    for (let before = 0; !listing.done; before = decoder.frames) {
        listing.step();
        const [low, high] = new Uint32Array(new Float64Array([decoder.start]).buffer);
        if (decoder.frames > before) marks.push(` time ${hex(high)}${hex(low)} sum ${sum(decoder.output)}`);
    }
    const { calls } = listing;
    calls.format = listing.format;
    let frames = 0;
    return Array.from({ length: calls.count }, (_, row) => (calls.isFrame(row) ? calls.text(row, frames) + marks[frames++] : calls.text(row, frames)));
}
