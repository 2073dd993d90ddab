// Calls until 1 or 7, and all that the page keeps of them: rows, a tally, the wave's outline, a map of the stream's bytes,
// and every so many frames a copy of the decoder, so that any part of the sound can be made again and none is kept.
import { OUTPUT, PAIRS } from "./tag.js";
import { Calls, goesOn } from "./calls.js";
import { fields, frameBytes } from "./header.js";

const BLOCK = 32; // samples of a channel
const BLOCKS = PAIRS / BLOCK; // of a frame
const STRETCHES = 8192; // of an outline, more or less
const COLUMNS = 2048; // of a map, at most
const COPIES = 1024; // of a decoder, at most

// What a column of the map shows. Where several kinds fall on one column, the largest is seen.
export const KINDS = { passed: 0, behind: 10, sound: 30, header: 31, refused: 40 };

// The smallest and the largest sample of each stretch of the sound, left and right. A stretch is `span` blocks.
class Outline {
    constructor(expected) {
        Object.assign(this, { values: [], blocks: 0, span: Math.max(1, Math.ceil((expected * BLOCKS) / STRETCHES)) });
    }

    add(output) {
        for (let first = 0; first < OUTPUT; first += 2 * BLOCK) {
            if (this.blocks++ % this.span === 0) this.values.push(Infinity, -Infinity, Infinity, -Infinity);
            this.block(output, first, this.values.length - 4);
        }
    }

    block(output, first, at) {
        const { values } = this;
        for (let i = first; i < first + 2 * BLOCK; i++) {
            const low = at + 2 * (i % 2);
            values[low] = Math.min(values[low], output[i]);
            values[low + 1] = Math.max(values[low + 1], output[i]);
        }
    }
}

// The stream's bytes in columns; how many became sound, headers and refused headers; how many stand in no frame: in front
// of the first one, between two, behind the last. And how many frames begin inside another, how many read past their own
// end, how many begin where the last one ends, and whether one more has begun at the stream's end.
class ByteMap {
    constructor(length) {
        Object.assign(this, { length, columns: new Uint8Array(Math.min(COLUMNS, length)), refused: 0, frameEnd: 0 });
        this.bytes = { sound: 0, headers: 0, refused: [], passed: [], front: 0, between: 0, behind: 0, inside: 0, over: 0, next: 0, begun: false };
    }

    paint(first, end, kind) {
        const scale = this.columns.length / this.length, last = Math.min(end, this.length);
        for (let column = Math.floor(first * scale); column < last * scale; column++) {
            this.columns[column] = Math.max(this.columns[column], kind);
        }
        return Math.max(0, last - first);
    }

    frame(header, end) {
        this.bytes[this.frameEnd ? "between" : "front"] += Math.max(0, header - this.frameEnd);
        this.bytes.inside += header < this.frameEnd;
        this.bytes.next += header === this.frameEnd;
        this.frameEnd = Math.max(this.frameEnd, end);
    }

    // Bytes that were passed over, behind a header refused with `number`; 0 where it was none.
    pass(first, end, number) {
        this.bytes.passed[number] = (this.bytes.passed[number] ?? 0) + this.paint(first, end, number && KINDS.behind + number);
    }

    // What one call read.
    call(calls, row) {
        const number = calls.number[row], header = calls.header(row), end = calls.end(row), { bytes, length } = this;
        this.pass(calls.begins(row), header < 0 ? length : header, this.refused || (number === 2 ? 2 : 0));
        if (number === 0) {
            bytes.headers += this.paint(header, calls.data(row), KINDS.header);
            bytes.sound += this.paint(calls.data(row), end, KINDS.sound);
        } else if (header >= 0) {
            bytes.refused[number] = (bytes.refused[number] ?? 0) + this.paint(header, end, KINDS.refused + number);
        }
        if ([0, 6, 13].includes(number)) {
            const last = header + frameBytes(fields(calls.stream, header));
            bytes.over += end > last;
            this.frame(header, Math.max(end, last));
        }
        if (number === 7) this.frame(header, length);
        if (number === 7) this.pass(end, length, 7);
        this.refused = number;
        if (goesOn(number)) return;
        bytes.behind = Math.max(0, length - this.frameEnd);
        const rest = calls.stream.subarray(this.frameEnd);
        bytes.begun = rest.length < 6 && rest[0] === 255 && (rest.length < 2 || (rest[1] & 254) === 252);
    }
}

export class Listing {
    constructor(decoder, stream, choices) {
        const number = decoder.open(choices);
        Object.assign(this, { decoder, stream, calls: new Calls(stream), tally: [], map: new ByteMap(stream.length), every: 16 });
        this.carried = number === 0 ? decoder.skipped : 0; // a header accepted at opening has no row: its number goes to the next
        this.copies = [decoder.save()];
        this.done = !goesOn(number) && number !== 1;
        if (number > 1) this.note(number);
    }

    // One call. False where no other can follow.
    step() {
        if (this.done) return false;
        const number = this.decoder.decode();
        this.done = !goesOn(number);
        this.note(number);
        if (number === 0) this.sounded();
        return !this.done;
    }

    note(number) {
        const { decoder, calls } = this, row = calls.count;
        calls.add(number, decoder.position, number === 0 ? decoder.bits : 0, this.carried + decoder.skipped);
        this.carried = 0;
        const says = this.says(calls.header(row)), tally = (this.tally[number] ??= { count: 0, first: row, says, alike: true });
        tally.count++;
        tally.alike &&= tally.says === says;
        this.map.call(calls, row);
    }

    // Version, layer, bit rate, sample rate and mode of a header, in one number.
    says(at) { return ((this.stream[at + 1] & 254) << 16) | ((this.stream[at + 2] & 252) << 8) | (this.stream[at + 3] >> 6); }

    // A copy of the decoder is kept for every `every` frames; where there are too many, for twice as many.
    sounded() {
        const { decoder, stream } = this;
        this.told ??= decoder.format();
        this.outline ??= new Outline(stream.length / frameBytes(this.told));
        this.outline.add(decoder.output);
        if (decoder.frames % this.every) return;
        this.copies.push(decoder.save());
        if (this.copies.length <= COPIES) return;
        this.copies = this.copies.filter((_, i) => i % 2 === 0);
        this.every *= 2;
    }

    // How far the reading is, from 0 to 1.
    get share() { return Math.min(1, this.decoder.position / 8 / this.stream.length); }

    // The format was asked for once, behind the first frame: it is so until the next opening (`told-for-good` in
    // crates/claims/specs/Asking.antt). Without a frame there is none.
    get format() { return { ...this.told, frames: this.decoder.frames }; }

    // Frames `first` to `first + count - 1` as 16-bit samples, left and right in turn. The decoder is afterwards as it was.
    frames(first, count) {
        const { decoder, every } = this, before = decoder.save(), samples = new Int16Array(count * OUTPUT);
        let frame = Math.floor(first / every) * every;
        decoder.restore(this.copies[frame / every]);
        while (frame < first + count) {
            const number = decoder.decode();
            if (!goesOn(number)) break;
            if (number === 0 && frame++ >= first) samples.set(decoder.samples16(), (frame - 1 - first) * OUTPUT);
        }
        decoder.restore(before);
        return samples;
    }
}
