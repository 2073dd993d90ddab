// The header of a WAV file: 44 bytes, for 16-bit stereo. Behind it stands every frame. It is crate wav's file, byte for byte.
import { OUTPUT } from "./tag.js";

export const MOST_FRAMES = Math.floor((2 ** 32 - 1 - 36) / (2 * OUTPUT)); // a length in the header has 32 bits

export function wavHeader(frames, rate) {
    const size = frames * 2 * OUTPUT, letters = (text) => [...text].reduceRight((word, letter) => 256 * word + letter.charCodeAt(0), 0);
    const pair = (low, high) => low + 65536 * high; // two numbers of 16 bits: whole samples on 2 channels; 4 bytes, of 16 bits each
    const words = [letters("RIFF"), 36 + size, letters("WAVE"), letters("fmt "), 16, pair(1, 2), rate, 4 * rate, pair(4, 16), letters("data"), size];
    return Uint32Array.from(words).buffer;
}
