// The page's scripts in node: every stored stream beside the unchanged Rust's answers, WAV files beside the proved program's,
// the page's words beside the specs', the exercises beside the Rust's answers, and modules and pages that are wrong on purpose.
import { execFileSync, spawnSync } from "node:child_process";
import fs from "node:fs";
import { joined, ringOut } from "../../page/src/ring.js";
import { Decoder } from "../../page/src/tag.js";
import { made } from "../../page/src/exercises.js";
import { Listing } from "../../page/src/listing.js";
import { MODES, REASONS } from "../../page/src/words.js";
import { goesOn } from "../../page/src/calls.js";
import { verdict } from "../../page/src/verdict.js";
import { answersOf } from "./answers.mjs";
import { wavHeader } from "../../page/src/wav.js";

const DATA = "crates/replay/data";
// The lister takes 65,536 bytes and says `long` to more; the page takes 16,777,216.
const LONG = "length-65537.mp2";
const bytesOf = (file) => new Uint8Array(fs.readFileSync(file));
export const compiled = (file) => new WebAssembly.Module(fs.readFileSync(file));
export const names = fs.readdirSync(DATA).filter((name) => name !== LONG).sort();
export const streams = names.map((name) => ({ name, stream: bytesOf(`${DATA}/${name}`) }));
export const clips = { citrus: bytesOf("clips/citrus.mp2"), lavender: bytesOf("clips/lavender.mp2"), barred: bytesOf("clips/strict/citrus-320.mp2"), alike: bytesOf(`${DATA}/joined-alike.mp2`) };

// The Rust's stored answers, without those of the stream that is too long for the lister.
export const rust = fs.readFileSync("crates/replay/stdout", "utf8").replace(`${LONG}\nlong\n`, "");

export const ours = (module) => streams.flatMap(({ name, stream }) => [name, ...answersOf({ Decoder, Listing }, module, stream)]).join("\n") + "\n";

// The file that the proved program writes.
export const wavOf = (stream) => spawnSync("./run", ["wav"], { input: stream, maxBuffer: 2 ** 28 }).stdout;

function pageWav(module, stream) {
    const listing = new Listing(new Decoder(module, stream), stream, 0);
    while (listing.step());
    const { frames, rate } = listing.format;
    return Buffer.concat([Buffer.from(wavHeader(frames, frames ? rate : 44100)), Buffer.from(listing.frames(0, frames).buffer)]);
}

export function compareWavs(count, module) {
    const all = [...streams, ...["citrus", "lavender", "barred"].map((name) => ({ name, stream: clips[name] }))];
    for (const { name, stream } of all) count.holds(pageWav(module, stream).equals(wavOf(stream)), `the WAV file of ${name}`);
}

// The numbers of which a definition of crates/audio/specs/Numbers holds. It is written `eqb n NAME || eqb n NAME`, and a
// definition of another form gives none.
function numbersOf(specs, name) {
    const written = specs.match(new RegExp(`^${name} n = (.*)$`, "m"))[1].replace(/[()]/g, "").split(" || "), form = /^eqb n (\w+)$/;
    const value = (each) => Number(specs.match(new RegExp(`^${each.match(form)[1]} = (\\d+)$`, "m"))[1]);
    return written.every((each) => form.test(each)) ? written.map(value) : [];
}

// What the specs say in words stands in the page as it is, and after the same numbers no call follows.
export function compareWords(count) {
    const specs = fs.readFileSync("crates/listing/specs/Words.antt", "utf8"), part = (name) => specs.split(name)[1].split("\n\n")[0];
    const { 0: _, ...refusals } = REASONS, told = Object.entries(refusals).map((pair) => pair.join(": "));
    const reasons = [...part("reason_of n =").matchAll(/\(eqb n (\d+)\) \(letters "(.*?)"/g)].map(([, number, words]) => `${number}: ${words}`);
    count.same(told.join("; "), reasons.join("; "), "the reasons");
    count.same(MODES.join(), [...part("mode_words n =").matchAll(/letters "(.*?)"/g)].map((found) => found[1]).join(), "the modes");
    const numbers = fs.readFileSync("crates/audio/specs/Numbers.antt", "utf8"), last = ["ends", "callers_mistake"].flatMap((name) => numbersOf(numbers, name));
    for (let number = 0; number <= 14; number++) count.same(goesOn(number), !last.includes(number), `whether a call may follow ${number}`);
}

// Pages that are wrong on purpose: in which file of page/src, what stands there, what is put in its place, and why
// page/pack.mjs must refuse the page.
const OUTSIDE = "the page asks for something from outside", CONNECTS = "the page does not tell the browser to refuse every connection";
const WRONG_PAGES = {
    "no rule against connections": ["page.html", /<meta http-equiv="Content.*\n/, "", CONNECTS],
    "a rule in a comment": ["page.html", /<meta http-equiv="Content.*/, "<!-- $& -->", CONNECTS],
    "a rule behind a script": ["page.html", /(<meta http-equiv="Content.*\n)([^]*<\/script>\n)/, "$2$1", CONNECTS],
    "a rule that allows every connection": ["page.html", "default-src 'none'", "default-src *", CONNECTS],
    "a rule that allows one more": ["page.html", "base-uri 'none'", "$&; connect-src *", CONNECTS],
    "a script from outside": ["page.html", "</main>", '<script src="x.js"></script>$&', OUTSIDE],
    "a picture from outside": ["page.html", "</main>", "<img srcset=x>$&", OUTSIDE],
    "a link to another page": ["page.html", "</main>", '<a href="x.html">x</a>$&', OUTSIDE],
    "another page after a while": ["page.html", "<title>", '<meta http-equiv="refresh" content="0">$&', OUTSIDE],
    "a style from outside": ["page.css", ":root", "@import 'x.css';\n$&", OUTSIDE],
    "a background from outside": ["page.css", "body {", "body { background: url(x.png);", OUTSIDE],
    "a question to a server": ["main.js", "const VIEWS", "fetch(VIEWS);\n$&", OUTSIDE],
    "a question by the worker": ["worker.js", "const SLICE", "new WebSocket(SLICE);\n$&", OUTSIDE],
    "a script that goes to another page": ["main.js", "const VIEWS", "location.assign(VIEWS);\n$&", OUTSIDE],
    "an address": ["words.js", "no sync found", "see http://x", OUTSIDE],
    "a name that nobody exports": ["words.js", "import { PAIRS }", "import { PAIRS, NOBODY }", "words.js imports NOBODY from tag.js, which has no such name"],
    "an export that is not packed": ["dom.js", "export const fill", "export let other = 0;\n$&", "dom.js imports or exports in a way that is not packed"],
    "an import that is not packed": ["dom.js", "import { goesOn }", "import * as calls", "dom.js imports or exports in a way that is not packed"],
    "modules in a circle": ["words.js", "import { PAIRS", 'import { verdict } from "./verdict.js";\n$&', "modules in a circle"],
    "a script that ends too soon": ["words.js", "no sync found", "</SCRIPT>", "main has what cannot stand in a script"],
};

// Each wrong page is refused for its own reason. Without a mistake it is packed, and is page/listen.html.
export function compareWrongPages(count) {
    const house = "target/page/house", out = `${house}/page.html`, packed = () => spawnSync("node", [`${house}/page/pack.mjs`, "target/page/tag.wasm", out], { encoding: "utf8" });
    fs.rmSync(house, { recursive: true, force: true });
    for (const part of ["page", "clips", "NOTICE", "crates/replay/data"]) fs.cpSync(part, `${house}/${part}`, { recursive: true });
    for (const [words, [file, old, text, why]] of Object.entries(WRONG_PAGES)) {
        const source = `${house}/page/src/${file}`, right = fs.readFileSync(source, "utf8"), wrong = right.replace(old, text);
        fs.writeFileSync(source, wrong);
        const { status, stderr } = packed();
        fs.writeFileSync(source, right);
        count.holds(wrong !== right, `the mistake makes no other page: ${words}`);
        count.holds(status === 1 && stderr.startsWith(why) && !fs.existsSync(out), `not refused, or not for this: ${words}\n  ${stderr.trim()}`);
        fs.rmSync(out, { force: true });
    }
    if (count.same(packed().status, 0, "a page without a mistake")) count.holds(fs.readFileSync(out).equals(fs.readFileSync("page/listen.html")), "it is the page");
}

// The streams of the exercises beside the Rust's answers, which stand in exercises.txt.
const book = JSON.parse(fs.readFileSync("page/exercises.json", "utf8"));
export const exerciseStreams = book.exercises.map((exercise) => made(exercise, book, clips));
export const exerciseAnswers = fs.readFileSync("compare/browser/exercises.txt", "utf8").split(/^\d+\.mp2\n/m).slice(1);

export function writeExercises(folder) {
    exerciseStreams.forEach((stream, i) => fs.writeFileSync(`${folder}/${String(i + 1).padStart(2, "0")}.mp2`, stream));
}

export function compareExercises(count, module) {
    exerciseStreams.forEach((stream, i) => count.lines(answersOf({ Decoder, Listing }, module, stream).join("\n") + "\n", exerciseAnswers[i], `exercise ${i + 1}`));
}

// Demand 3: behind 4, 8 and 12 frames nothing differs from sample 481 on. Behind 11 last bits do.
export function compareRing(count, module) {
    const speech = clips.alike.slice(0, 4608), sweep = clips.alike.slice(4608);
    for (let frames = 1; frames <= 12; frames++) {
        const { fits, later, ringing } = ringOut(module, speech, sweep, frames), alike = frames % 4 === 0;
        count.holds(fits && ringing.last <= 480 && later.compared === 22080, `ring-out behind ${frames} frames`);
        count.holds(alike ? later.differ === 0 : later.differ > 0 && later.largest < 1e-6, `from sample 481 on behind ${frames} frames: ${later.differ} differ`);
    }
    count.same(ringOut(module, clips.citrus, clips.lavender, 4).fits, false, "the incident as a ring-out");
}

// Numbers by chance, the same on every machine: Marsaglia's xorshift of 32 bits.
function chance(seed) {
    let state = seed;
    return (below) => {
        state ^= state << 13;
        state ^= state >>> 17;
        state ^= state << 5;
        return (state >>> 0) % below;
    };
}

// A stored stream that was damaged: bits turned, bytes taken out, zeros or ones put in, another stream joined, cut off.
function damaged(draw) {
    const some = () => Buffer.from(streams[draw(streams.length)].stream.subarray(0, 6000));
    let bytes = some();
    for (let times = draw(8); times > 0; times--) {
        const at = draw(bytes.length + 1), rest = bytes.subarray(at), before = bytes.subarray(0, at);
        const ways = [
            () => bytes.map((byte, i) => (i === at ? byte ^ (1 << draw(8)) : byte)), () => Buffer.concat([before, rest.subarray(draw(300))]),
            () => Buffer.concat([before, Buffer.alloc(draw(60), draw(2) ? 255 : 0), rest]), () => Buffer.concat([before, some()]), () => before,
        ];
        bytes = ways[draw(ways.length)]();
    }
    return new Uint8Array(bytes);
}

// Damaged streams beside the proved program replay, which is compiled for x86-64.
export function compareDamaged(count, module, many) {
    const draw = chance(20261116), folder = "target/page/damaged", all = Array.from({ length: many }, (_, i) => ({ name: `${i}.mp2`, stream: damaged(draw) }));
    fs.rmSync(folder, { recursive: true, force: true });
    fs.mkdirSync(folder, { recursive: true });
    for (const { name, stream } of all) fs.writeFileSync(`${folder}/${name}`, stream);
    const proved = execFileSync("../../../run", ["replay", ...all.map(({ name }) => name)], { cwd: folder, maxBuffer: 2 ** 28 }).toString();
    count.lines(all.flatMap(({ name, stream }) => [name, ...answersOf({ Decoder, Listing }, module, stream)]).join("\n") + "\n", proved, "the lines of the damaged streams");
}

// Every byte is counted once: as sound, header, refused header, or passed over. The verdicts of some streams, by hand: a
// byte cut out, a frame's FF damaged, half of the clip made zeros.
export function compareBytes(count, module) {
    const heard = (stream) => {
        const listing = new Listing(new Decoder(module, stream), stream, 0);
        while (listing.step());
        const { calls, tally, format, map } = listing;
        return { calls, tally, format, stream, bytes: map.bytes };
    };
    for (const { name, stream } of streams) {
        const { sound, headers, refused, passed } = heard(stream).bytes, parts = [sound, headers, ...Object.values(refused), ...Object.values(passed)];
        count.holds(parts.every((part) => part >= 0) && parts.reduce((sum, part) => sum + part, 0) === stream.length, `${name}: its bytes, each once`);
    }
    const { lavender } = clips, without = (at) => joined([lavender.slice(0, at), lavender.slice(at + 1)]), zeroed = lavender.slice();
    zeroed.fill(0, lavender.length / 2);
    const said = { whole: [lavender, lavender.slice(0, 77 * 156)], partly: [without(500), lavender.with(312, 127), lavender.with(0, 127), zeroed, lavender.slice(0, -1), clips.citrus.slice(10000)] };
    for (const [kind, list] of Object.entries(said)) list.forEach((stream, i) => count.same(verdict(heard(stream)).kind, kind, `the verdict of ${kind} ${i + 1}`));
}

// Any part of the sound is the same whether it was reached from the beginning or from a copy of the decoder.
export function compareCopies(count, module) {
    const stream = joined(Array(70).fill(clips.citrus)), listing = new Listing(new Decoder(module, stream), stream, 0);
    while (listing.step());
    const whole = listing.frames(0, listing.format.frames);
    for (const first of [0, 1, 15, 16, 17, 5000, listing.format.frames - 3]) {
        const part = listing.frames(first, 3);
        count.holds(part.every((sample, i) => sample === whole[first * 2304 + i]), `frames from ${first} on`);
    }
}

// Modules with one small mistake each: the Rust's answers must tell every one.
const WRONG = {
    "a value of the window by its last bit": "0,/store float -5.000000e-01/s//store float 0xBFE0000020000000/",
    "the factor of width 2 by its last bit": "s/0x3FE6A09E60000000/0x3FE6A09E80000000/",
    "product and sum rounded once": "/= fmul float %r54, %r55/,/%r59 = fadd/s/%r59 = fadd float %r57, %r58/%x1 = fpext float %r54 to double\\n %x2 = fpext float %r55 to double\\n" +
        " %x3 = fpext float %r57 to double\\n %x4 = fmul double %x1, %x2\\n %x5 = fadd double %x3, %x4\\n %r59 = fptrunc double %x5 to float/",
    "a start time multiplied": "s/fdiv double/fmul double/",
    "negative samples divided toward zero": "s/ashr i32 (%r[0-9]+), 12/sdiv i32 \\1, 4096/",
    "half a step less when a sample is scaled": "s/add i32 (%r[0-9]+), 2048/add i32 \\1, 2047/",
    "the ring turned by two slots": "s/add i64 (%r[0-9]+), 960/add i64 \\1, 896/",
    "streams above 1,024 bytes refused": "s/icmp ult i64 16777216,/icmp ult i64 1024,/",
};

export function compareWrong(count) {
    const file = "target/page/wrong.wasm", right = fs.readFileSync("target/page/tag.wasm");
    for (const [words, edit] of Object.entries(WRONG)) {
        execFileSync("page/build", ["wasm", file], { env: { ...process.env, EDIT: edit } });
        count.holds(!fs.readFileSync(file).equals(right), `the mistake makes no other module: ${words}`);
        count.holds(ours(compiled(file)) !== rust, `not told: ${words}`);
    }
}
