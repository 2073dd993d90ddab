// What is done to streams in "Try it". The exercises themselves stand in page/exercises.json.
import { joined } from "./ring.js";

// A piece of a stream: the first bytes of a clip, bytes in hexadecimal, zeros.
function piece({ clip, bytes, hex, zeros = 0 }, clips) {
    const written = hex ? hex.split(" ").map((pair) => parseInt(pair, 16)) : [];
    return joined([clip ? clips[clip].subarray(0, bytes) : new Uint8Array(0), Uint8Array.from(written), new Uint8Array(zeros)]);
}

const binary = (byte) => byte.toString(2).padStart(8, "0").replace(/^..../, "$& ");
const flipped = (byte, bit) => byte ^ (128 >> bit);
const becomes = (byte, bit) => `${binary(byte)} becomes ${binary(flipped(byte, bit))}`;

// Each makes a stream of a stream. `needs` are the boxes that it asks for, `put` is what is put in front or behind.
export const EDITS = {
    flip: {
        name: "flip a bit", needs: ["where", "bit"], words: ({ where, bit }, { [where]: byte }) => `flip bit ${bit} of byte ${where}: ${becomes(byte, bit)}`,
        make: (stream, { where, bit }) => stream.map((byte, at) => (at === where ? flipped(byte, bit) : byte)),
    },
    cut: { name: "cut it", needs: ["where"], words: ({ where }) => `cut it at byte ${where}`, make: (stream, { where }) => stream.slice(0, where) },
    front: { name: "put junk in front", needs: ["what"], words: ({ name }) => `put in front: ${name}`, make: (stream, _, put) => joined([put, stream]) },
    behind: { name: "join a clip behind", needs: ["what"], words: ({ name }) => `join behind: ${name}`, make: (stream, _, put) => joined([stream, put]) },
};

// The streams of an exercise, before and after each edit, out of the book of exercises and the built-in clips.
export function steps({ begin, edits = [] }, book, clips) {
    const streams = [piece(book.pieces[begin], clips)];
    for (const { edit, what, ...words } of edits) streams.push(EDITS[edit].make(streams.at(-1), words, what && piece(book.pieces[what], clips)));
    return streams;
}

export const made = (exercise, book, clips) => steps(exercise, book, clips).at(-1);

// An edit in words: what it did to the stream before it.
export const editWords = ({ edit, what, ...words }, stream, book) => EDITS[edit].words({ ...words, ...book.pieces[what] }, stream);
