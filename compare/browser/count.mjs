// What was compared, and what differs.
export class Count {
    constructor() {
        this.compared = this.differ = 0;
    }

    holds(good, words) {
        this.compared++;
        if (good) return true;
        this.differ++;
        console.log(`differs: ${words}`);
        return false;
    }

    same(found, wanted, words) {
        return this.holds(found === wanted, `${words}\n  found:  ${shown(found)}\n  wanted: ${shown(wanted)}`);
    }

    // Two texts line by line; the first line that is another is shown.
    lines(found, wanted, words) {
        const [ours, theirs] = [found, wanted].map((text) => text.split("\n"));
        this.compared += Math.max(ours.length, theirs.length) - 1;
        const first = theirs.findIndex((line, i) => line !== ours[i]);
        return this.same(first < 0 ? ours.length : ours[first], first < 0 ? theirs.length : theirs[first], `${words}, line ${first + 1}`);
    }

    // A part of the comparison, and what it counted.
    async part(words, compare) {
        const before = this.compared, differ = this.differ, begun = Date.now();
        await compare();
        console.log(`${words}: ${this.compared - before} compared, ${this.differ - differ} differ (${((Date.now() - begun) / 1000).toFixed(0)} s)`);
    }
}

const shown = (value) => (typeof value === "string" ? JSON.stringify(value.slice(0, 300)) : String(value));
