// A header's fields, read once more so that the page can say them in words. The decoder reads them for itself.
const RATES = [44100, 48000, 32000];
const KBPS = [32, 48, 56, 64, 80, 96, 112, 128, 160, 192, 224, 256, 320, 384];

// A byte that is cut off counts as 0, as the decoder counts it.
export function fields(stream, at) {
    const [second, third, fourth] = [1, 2, 3].map((next) => stream[at + next] ?? 0);
    return {
        version: (second >> 3) & 3, layer: (second >> 1) & 3, checked: !(second & 1), bitRate: third >> 4, mode: fourth >> 6,
        rate: RATES[(third >> 2) & 3], kbps: KBPS[(third >> 4) - 1], padding: (third >> 1) & 1, cut: stream.length < at + 4,
    };
}

// From a header's FF to where the next one should stand.
export const frameBytes = ({ kbps, rate, padding = 0 }) => Math.floor((144000 * kbps) / rate) + padding;
