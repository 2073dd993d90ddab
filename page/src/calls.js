// A clip's calls, one row each, as the lister has one line each: what a call answered, and where it left the decoder.

// Only 1 and 7 are the end. 8, 9 and 10 are the caller's mistake. After every other number the next call may give a frame.
export const goesOn = (number) => ![1, 7, 8, 9, 10].includes(number);

const NO_HEADER = [1, 2, 8, 9, 10]; // numbers of a call that met none

// `position` is the bit where the call left the decoder, `bits` what its frame used, `skipped` the bytes that it passed over
// on its way to a header.
export class Calls {
    constructor(stream, columns = { number: [], position: [], bits: [], skipped: [] }, format = {}) {
        Object.assign(this, { stream, format }, columns);
    }

    get count() { return this.number.length; }

    add(number, position, bits, skipped) {
        this.number.push(number);
        this.position.push(position);
        this.bits.push(bits);
        this.skipped.push(skipped);
    }

    isFrame(row) { return this.number[row] === 0; }

    // The byte where a call begins, and the one where the next goes on, rounded down as the lister rounds.
    begins(row) { return row ? this.end(row - 1) : 0; }
    at(row) { return this.position[row] >>> 3; }

    // Behind the last byte of which a call read anything.
    end(row) { return (this.position[row] + 7) >>> 3; }

    // Where a frame's data begin: so many bits before the aligned end.
    data(row) { return this.at(row) - ((this.bits[row] + 7) >>> 3); }

    // The FF of the header that a call met, or -1. Between the byte where the call begins and this one is what it passed over.
    header(row) { return NO_HEADER.includes(this.number[row]) ? -1 : this.begins(row) + this.skipped[row]; }

    // How many frames stand before a row.
    framesBefore(row) {
        let frames = 0;
        for (let i = 0; i < row; i++) frames += this.number[i] === 0;
        return frames;
    }

    // The call that was reading at a byte.
    readingAt(byte) {
        let low = 0, high = this.count - 1;
        while (low < high) {
            const middle = (low + high + 1) >>> 1;
            if (this.begins(middle) <= byte) low = middle;
            else high = middle - 1;
        }
        return low;
    }

    // How many rows from one on have the same number.
    run(first) {
        let end = first + 1;
        while (end < this.count && this.number[end] === this.number[first]) end++;
        return end - first;
    }

    // A row as the lister prints it. A frame's own number is how many frames stand before it.
    text(row, framesBefore) {
        const { rate, kbps, mode } = this.format, number = this.number[row], skipped = `skipped ${this.skipped[row]}`;
        if (number === 0) return `frame ${framesBefore} at ${this.data(row)} rate ${rate} kbps ${kbps} mode ${mode} bits ${this.bits[row]} ${skipped}`;
        return `${goesOn(number) ? "refused" : "end"} ${number} at ${this.at(row)} ${skipped}`;
    }
}
