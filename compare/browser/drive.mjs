// The page in a browser, as a person uses it: files, buttons, sliders, keys. Every view's picture is kept.
import fs from "node:fs";
import path from "node:path";
import * as stored from "./stored.mjs";
import { compareContrast, compareKeys, compareNames, compareWidth } from "./looks.mjs";
import { Page } from "./page.mjs";
import { answersOf } from "./answers.mjs";
import { strictLines, strictList } from "./strict.mjs";
import { sleep } from "./chromium.mjs";
import { REASONS } from "../../page/src/words.js";

const VIEWS = ["listen", "incident", "ring-out", "try-it"];
const module = () => stored.compiled("target/page/tag.wasm");
const MADE = path.resolve("target/page/made");
const AWAKE = 1000; // milliseconds that the page may be busy at most; listing itself would take several seconds

function made(name, bytes) {
    fs.mkdirSync(MADE, { recursive: true });
    fs.writeFileSync(path.join(MADE, name), bytes);
    return path.join(MADE, name);
}

// The stored streams by the decoder of the page's own worker, in a reading.
async function compareStreams(count, page, choices, wanted) {
    const files = stored.streams.map(({ name, stream }) => [name, Buffer.from(stream).toString("base64")]);
    const found = await page.run(`(async () => {
        const bytes = (text) => Uint8Array.from(atob(text), (letter) => letter.charCodeAt(0)), files = ${JSON.stringify(files)};
        const code = worker.textContent + ";self.onmessage = async ({ data }) => { const module = await WebAssembly.compile(data.decoder);" +
            "self.postMessage(data.files.map(([name, stream]) => [name, ...(" + ${JSON.stringify(String(answersOf))} + ")({ ...in_tag, ...in_listing }, module, stream, ${choices})].join('\\\\n')).join('\\\\n') + '\\\\n'); };";
        const other = new Worker(URL.createObjectURL(new Blob([code], { type: "text/javascript" })));
        other.postMessage({ decoder: bytes(decoder.textContent), files: files.map(([name, text]) => [name, bytes(text)]) });
        return await new Promise((answer, fail) => (other.onmessage = ({ data }) => answer(data), other.onerror = ({ message }) => fail(new Error(message)))); })()`);
    count.lines(found, wanted, "the lines of the stored streams, in the browser");
}

// Every stored stream opened as a file, its list and its WAV file saved.
async function compareFiles(count, page) {
    const rust = new Map(stored.rust.split(/^(?=.*\.mp2$)/m).map((part) => [part.split("\n")[0], part.split("\n").slice(1).join("\n").replace(/ time .*/g, "")]));
    for (const { name, stream } of stored.streams) {
        await page.give(`crates/replay/data/${name}`);
        count.lines((await page.saved("#save-list", name.replace(".mp2", ".txt"))).toString(), rust.get(name), `${name}, its list as it was saved`);
        if (!count.same(await page.run("sound.hidden"), !/^frame/m.test(rust.get(name)), `${name}: whether there is sound`)) continue;
        if (/^frame/m.test(rust.get(name))) count.holds((await page.saved("#save-wav", name.replace(".mp2", ".wav"))).equals(stored.wavOf(stream)), `${name}, its WAV file as it was saved`);
    }
}

const VERDICTS = {
    citrus: "149 frames, 3.89 s; ended with 1: no header can follow.",
    "citrus-320": "32 frames, 0.84 s; refused 2, once: no sync found; ended with 1: no header can follow.",
    lavender: "154 frames, 4.02 s; ended with 1: no header can follow.",
    incident: "149 frames, 3.89 s; refused 6, 154 times: the header says 48 kbps, the clip began with 64; refused 2, once: no sync found; ended with 1: no header can follow.",
    "joined-alike": "22 frames, 0.53 s; ended with 1: no header can follow.",
    "joined-bit-rates": "12 frames, 0.29 s; refused 6, 6 times: the header says 96 kbps, the clip began with 128; ended with 1: no header can follow.",
};

// The clips that are built in: the verdict of each, by hand from the Rust's answers, and its picture.
async function compareClips(count, page) {
    for (const name of await page.run("[...pick.options].map(({ value }) => value).filter((value) => value !== 'own')")) {
        await page.pick(name);
        await page.keep(`clip-${name}`);
        if (VERDICTS[name]) count.same(await page.text("line"), VERDICTS[name], `the verdict of ${name}`);
        count.holds((await page.text("shows")).length > 20, `${name} has a sentence`);
    }
    count.same(await page.run("[...document.querySelectorAll('#readings input')].map(({ id, checked }) => `${id} ${checked}`).join()"), "reading-0 false", "one switch, and it is off");
}

const isOn = (name) => `document.getElementById("${name}").textContent === "Stop"`;

// What is given to the loudspeaker is the WAV file's samples, and no piece comes early or late.
async function comparePlayed(count, page) {
    await page.run(`window.given = []; window.begin = AudioBufferSourceNode.prototype.start; AudioBufferSourceNode.prototype.start = function (at) {
        given.push({ at, rate: this.buffer.sampleRate, sides: [0, 1].map((side) => Array.from(this.buffer.getChannelData(side), (x) => x * 32768)) }); return begin.call(this, at); }; 0`);
    await page.click("#play");
    await page.until(isOn("play"));
    await page.until(`!(${isOn("play")})`);
    const given = await page.run("AudioBufferSourceNode.prototype.start = begin, given"), wav = stored.wavOf(stored.clips.citrus);
    const samples = given.flatMap(({ sides: [left, right] }) => left.flatMap((value, i) => [value, right[i]]));
    count.same(samples.length, (wav.length - 44) / 2, "how many samples are played");
    count.holds(samples.every((sample, i) => sample === wav.readInt16LE(44 + 2 * i)), "the samples that are played");
    given.slice(1).forEach(({ at }, i) => count.holds(Math.abs(at - given[i].at - given[i].sides[0].length / given[i].rate) < 1e-9, `piece ${i + 1} of the sound follows at once`));
}

async function compareSound(count, page) {
    await page.pick("citrus");
    await comparePlayed(count, page);
    await page.click("#play");
    await page.until(`${isOn("play")} && parseFloat(clock.textContent) > 0.5`);
    await page.keep("playing");
    await page.click("#play");
    count.same(await page.text("play"), "Play", "the button after it was stopped");
    count.holds(parseFloat(await page.text("clock")) > 0.5, "the place where it was stopped stays");
    await page.focus("place");
    for (const key of ["End", "ArrowLeft", "ArrowLeft"]) await page.key(key);
    count.same(await page.text("clock"), "3.81 s of 3.89 s", "the place by keys");
    await page.click("#play");
    await page.until(isOn("play"));
    await page.until(`!(${isOn("play")})`);
    count.same(await page.text("clock"), "0.00 s of 3.89 s", "at its end the sound goes back to its beginning");
    await page.click("#wave", 0.75);
    await page.until("!head.hidden && parseFloat(clock.textContent) > 2.9");
    count.holds(parseFloat(await page.run("head.style.left")) > 74, "a line goes along the wave"); // frame 111 of 149
    await page.focus("place");
    await page.key("Home");
    await page.until(`${isOn("play")} && parseFloat(clock.textContent) < 2`);
    count.holds(true, "the place is moved while it plays");
    await page.pick("lavender");
    await sleep(3000); // by then a late piece of the first clip, or silence, would have been told
    count.same(await page.run("trouble.hidden && !document.querySelector('.play.on')"), true, "a clip picked while another plays stops it, and nothing is wrong");
}

async function compareBytes(count, page) {
    await page.pick("incident");
    count.holds((await page.text("chosen")).includes("refused 6 at 30995 skipped 0:"), "the first refusal is chosen");
    count.holds((await page.text("hex")).startsWith("From byte 30,992: header FF FD 20 C4 behind it 65"), `the bytes of the first refusal: ${await page.text("hex")}`);
    count.same(await page.text("legend"), "sound, 30,342 bytesits headers, 596 bytespassed over, 54 bytesheaders refused with 6, 616 bytespassed over behind 6, 23,408 bytes", "the legend");
    const steps = [["#previous", "frame 148 at 30788"], ["#next", "refused 6 at 30995"], ["#next", "refused 6 at 31151 skipped 152:"], ["#refusal", "refused 6 at 30995"]];
    for (const [button, words] of steps) {
        await page.click(button);
        count.holds((await page.text("chosen")).includes(words), `${button} goes to ${words}`);
    }
    await page.click("#map", 0.25);
    count.holds((await page.text("chosen")).includes("frame 66 at 13732"), `a click in the map: ${await page.text("chosen")}`);
    await page.choose("byte", "212");
    count.holds((await page.text("chosen")).includes("frame 1 at 212"), "a byte by its number");
    await page.click("#calls details:nth-child(2) summary");
    await page.until(`document.querySelectorAll("#calls details:nth-child(2) .call").length === 100`);
    await page.click("#calls details:nth-child(2) > button:last-child");
    count.same(await page.run(`document.querySelectorAll("#calls details:nth-child(2) .call").length`), 154, "all rows of a run");
    count.same(await page.run("document.activeElement.dataset.row"), "249", "the first new row has the focus");
    await page.click("#calls details:nth-child(2) .call:nth-child(4)");
    count.holds((await page.text("chosen")).includes("refused 6 at 31307"), "a row that is chosen");
    await page.keep("bytes");
    await page.pick("junk-any");
    for (const words of ["skipped 500: plays", "Its header, at byte 500, says"]) count.holds((await page.text("chosen")).includes(words), `junk in front: ${await page.text("chosen")}`);
}

async function compareIncident(count, page) {
    await page.view("incident");
    await page.keep("incident");
    const reasons = await page.run("[...document.querySelectorAll('[data-reason]')].map(({ textContent }) => textContent)");
    count.same(reasons.join(), [6, 1, 1, 2, 3, 4, 5, 6, 7, 13].map((number) => `${number}: ${REASONS[number]}`).join(), "the reasons in the incident and among the words");
    const heard = (id) => page.run(`document.querySelector("#parts-${id} [aria-current]")?.textContent ?? ""`);
    for (const [id, ms, words] of [["old", 5500, "At the lavender jar: “Citrus jar."], ["ours", 5200, "No other clip is started"], ["mended", 1000, "Lavender jar. Contains linalool"]]) {
        await page.click(`#play-${id}`);
        await page.until(`document.querySelector("#parts-${id} [aria-current]")`);
        await sleep(ms);
        count.holds((await heard(id)).includes(words), `what is heard of ${id}: ${await heard(id)}`);
        await page.keep(`incident-${id}`);
        await page.click(`#play-${id}`);
        count.same(await heard(id), "", `${id} is stopped`);
    }
}

// The slider by keys: behind 12 frames nothing differs from sample 481 on, behind 11 last bits do.
async function compareRing(count, page) {
    await page.view("ring-out");
    const facts = async (words) => count.holds((await page.text("ring-facts")).includes(words), `ring-out says “${words}”: ${await page.text("ring-facts")}`);
    await facts("22,080 values compared bit for bit, 0 differ.");
    count.holds((await page.text("ring-words")).includes("up to sample 480"), "it rings on for 480 samples");
    await page.keep("ring-out-12");
    await page.focus("frames");
    await page.key("ArrowLeft");
    await page.until(`document.getElementById("frames-words").textContent === "11 of 12"`);
    count.same(await page.run("document.getElementById('frames').ariaValueText"), "11 of 12", "the slider says so");
    await facts("11 frames in front, divided by 4, leave 3.");
    count.holds(!(await page.text("ring-facts")).includes(", 0 differ"), "behind 11 frames last bits differ");
    await page.keep("ring-out-11");
    for (const id of ["play-both", "play-alone", "play-knock"]) {
        await page.click(`#${id}`);
        await page.until(isOn(id));
        await page.until(`!(${isOn(id)})`);
        count.holds(true, `${id} plays and ends`);
    }
    await page.choose("first", "citrus");
    await page.until(`document.getElementById("ring-words").textContent.startsWith("The second clip is refused")`);
    await facts("refused with 6. This is the incident.");
    await page.keep("ring-out-refused");
}

// Each exercise: the right guess and a wrong one. What is right is told by the Rust's answers.
async function compareTries(count, page) {
    await page.view("try-it");
    for (const [i, answers] of stored.exerciseAnswers.entries()) {
        const lines = answers.trim().split("\n"), byFrames = (await page.text("question")).startsWith("How many");
        const right = byFrames ? lines.filter((line) => line.startsWith("frame")).length : Number(lines.find((line) => !line.startsWith("frame")).split(" ")[1]);
        for (const guess of [right, right === 1 ? 2 : 1]) {
            await page.click(`#guesses input[value="${guess}"]`);
            await page.run("answer.replaceChildren()");
            await page.click("#see");
            await page.until(`answer.textContent.startsWith("You said")`);
            count.holds((await page.text("answer")).startsWith(`You said ${guess}. ${guess === right ? "So it is." : `It is ${right}.`}`), `exercise ${i + 1}, guess ${guess}: ${await page.text("answer")}`);
        }
        await page.keep(`exercise-${i + 1}`);
        await page.click("#next-exercise");
    }
}

// A stream of one's own: each thing that can be done, undone again, and opened.
async function compareOwn(count, page) {
    const length = async (bytes, words) => count.holds((await page.text("stream-words")).startsWith(bytes), `${words}: ${await page.text("stream-words")}`);
    await page.click("#see");
    count.same(await page.text("answer"), "Choose an answer first.", "no answer without a guess");
    await page.choose("begin", "citrus");
    await length("832 bytes, from byte 0: FF FD 40 C4", "the beginning");
    for (const [id, value] of [["where", "99999"], ["bit", "8"], ["where", ""]]) {
        await page.choose(id, value);
        await page.click("#add");
        count.same(await page.run("edits.children.length"), 0, `${id} ${value} is not taken`);
        await page.choose(id, "0");
    }
    const edits = [
        ["flip", { where: "2", bit: "7" }, "832 bytes, from byte 0: FF FD 41"], ["flip", { where: "700", bit: "0" }, "832 bytes, from byte 692"], ["cut", { where: "600" }, "600 bytes"],
        ["front", { what: "ones" }, "603 bytes, from byte 0: FF FF FF FF FD"], ["behind", { what: "lavender" }, "1,851 bytes"],
    ];
    for (const [edit, boxes, bytes] of edits) {
        await page.choose("edit", edit);
        for (const [id, value] of Object.entries(boxes)) await page.choose(id, value);
        await page.click("#add");
        await length(bytes, edit);
    }
    await page.keep("own-stream");
    count.holds((await page.text("edits")).includes("flip bit 7 of byte 2: 0100 0000 becomes 0100 0001"), `the edits in words: ${await page.text("edits")}`);
    for (const bytes of ["603 bytes", "600 bytes"]) {
        await page.click("#undo");
        await length(bytes, "undone");
        count.same(await page.run("document.activeElement.id"), "add", "the focus is not lost");
    }
    await page.click("#open-it");
    await page.until(`!listen.hidden && line.textContent.startsWith("2 frames")`);
    count.same(await page.text("of"), "your stream, 600 bytes", "it is opened in the first view");
    await page.until(`document.activeElement.id === "judgement"`);
    await page.view("try-it");
    await page.click("#the-words");
    count.same(await page.run("words.open && document.activeElement.tagName"), "SUMMARY", "the words are shown");
}

// Files that are no clip: a sentence, and the page goes on.
async function compareOthers(count, page) {
    const text = (words) => Buffer.from(words, "latin1");
    const files = {
        "empty.mp2": [text(""), "The file is empty: it has no byte."],
        "song.mp3": [Buffer.concat([text("ID3\x04\x00\x00\x00\x00\x00\x10"), Buffer.alloc(16)]), "This looks like an MP3 file with a title"],
        "bare.mp3": [Buffer.concat([Buffer.from([0xff, 0xfb, 0x90, 0]), Buffer.alloc(413)]), "This looks like an MP3 file"],
        "low.mp2": [Buffer.concat([Buffer.from([0xff, 0xf5, 0x84, 0xc4]), Buffer.alloc(300)]), "This looks like Layer II at a low sample rate"],
        "sound.wav": [stored.wavOf(stored.clips.citrus.slice(0, 416)), "This is a WAV file: its sound is decoded already."],
        "list.txt": [Buffer.from("Contains linalool, geraniol and coumarin – no more.\n"), "This is text."],
        "late.bin": [Buffer.concat([text("no more than a beginning. ".repeat(40)), Buffer.alloc(9)]), "Hardly anything in it can be played."],
        "picture.png": [Buffer.concat([text("\x89PNG\r\n\x1a\n"), Buffer.alloc(50)]), "This is a picture (PNG)."],
        "one.mp2": [Buffer.from([255]), "Hardly anything in it can be played."],
        "cut.mp2": [stored.clips.citrus.slice(0, 100), "A header was read, but the frame behind it is cut off (7)."],
        "zeros.mp2": [Buffer.alloc(5000), "Hardly anything in it can be played."],
    };
    for (const [name, [bytes, words]] of Object.entries(files)) {
        await page.give(made(name, bytes));
        count.same(await page.text("judgement"), "✖ Nothing here can be played.", `${name}, the judgement`);
        count.holds((await page.text("advice")).startsWith(words), `${name}: ${await page.text("advice")}`);
        await page.keep(`no-clip-${name}`);
    }
    await page.give("clips/citrus.mp2");
    count.same(await page.text("judgement"), "✔ Every frame was played.", "a clip after all these");
}

// A folder has no bytes. The browser's words for that end with a full stop, and the page's sentence goes on behind them.
async function compareFolder(count, page) {
    const { result } = await page.send("Runtime.evaluate", { expression: "file" });
    await page.send("DOM.setFileInputFiles", { files: [path.resolve("clips")], objectId: result.objectId });
    await page.until("!trouble.hidden");
    const words = await page.text("trouble");
    count.holds(/^clips cannot be read: .*[^.]\. Is it a folder\?$/.test(words), `a folder: ${words}`);
    await page.pick("citrus");
    count.same(await page.run("trouble.hidden"), true, "it is forgotten with the next clip");
}

async function compareDrop(count, page) {
    await page.run(`(() => { const files = new DataTransfer(); files.items.add(new File([new Uint8Array([255, 253, 160, 0]), new Uint8Array(622)], "dropped.mp2"));
        dispatchEvent(new DragEvent("dragenter")); window.marked = document.body.classList.contains("drop"); dispatchEvent(new DragEvent("drop", { dataTransfer: files, cancelable: true })); })()`);
    await page.until(`document.getElementById("of").textContent === "dropped.mp2, 626 bytes"`);
    await page.read();
    count.same(await page.run("marked && !document.body.classList.contains('drop')"), true, "a file over the page is marked");
    count.same(await page.text("line"), "1 frame, 0.03 s; refused 2, once: no sync found; ended with 1: no header can follow.", "a file that was dropped");
}

// The longest streams: the page stays awake, tells how far it is, and can be told to stop.
async function compareLong(count, page) {
    const ones = made("ones.mp2", Buffer.alloc(16777216, 255)), copies = Buffer.concat(Array(541).fill(stored.clips.citrus)), long = made("long.mp2", copies);
    await page.start(made("too-long.mp2", Buffer.alloc(16777217)));
    count.same(await page.text("judgement"), "✖ The file is too long (8).", "a file that is too long");
    count.same(await page.text("of"), "too-long.mp2, 16,777,217 bytes", "its name and length");
    count.same(await page.run("pick.value + shows.textContent"), "", "no clip of the list is said to be shown");
    await page.keep("too-long");
    await page.watch();
    await page.start(long);
    await page.until("!working.hidden && progress.value > 0.05");
    await page.keep("at-work");
    await page.click("#cancel");
    await page.until("working.hidden");
    count.same(await page.text("judgement"), "✖ It was not read to its end.", "after it was cancelled");
    count.same(await page.run("sound.hidden && bytes.hidden && list.hidden"), true, "nothing of another clip stands under its name");
    await page.give(ones);
    count.holds((await page.text("line")).startsWith("0 frames; refused 3, 8,388,606 times: the header says MPEG-1, Layer I"), `16 MiB of FF: ${await page.text("line")}`);
    await page.keep("ones");
    await page.give(long);
    count.same(await page.text("line"), "80,609 frames, 2105.70 s; ended with 1: no header can follow.", "541 times the citrus clip");
    count.holds((await page.longest()) < AWAKE, `the page slept for ${await page.longest()} ms`);
    console.log(`longest streams: the page was busy for ${await page.longest()} ms at most`);
    await page.watch();
    const file = await page.saved("#save-wav", "long.wav"), citrus = stored.wavOf(stored.clips.citrus);
    count.same(file.length, 44 + 80609 * 4608, "the length of a long WAV file");
    count.same(file.readUInt32LE(40), 80609 * 4608, "its length as it says");
    count.holds(file.subarray(44, citrus.length).equals(citrus.subarray(44)), "its first 149 frames");
    count.holds((await page.longest()) < AWAKE, `the page slept for ${await page.longest()} ms while it saved`);
}

// For everybody: names, keys, contrast in light and dark, narrow screens.
async function compareLooks(count, page) {
    await page.pick("incident");
    await page.run("document.querySelectorAll('details').forEach((details) => (details.open = true)), 0");
    for (const view of VIEWS) {
        await page.view(view);
        if (view === "try-it") for (const button of ["#guesses input", "#see"]) await page.click(button);
        await compareNames(count, page, view);
        await compareKeys(count, page, view);
        for (const [wide, scheme] of [[1180, "light"], [1180, "dark"], [390, "light"], [320, "dark"]]) {
            await page.size(wide, 900, scheme);
            await sleep(150);
            await compareContrast(count, page, `${view}, ${scheme}`);
            await compareWidth(count, page, `${view}, ${wide}`);
            await page.keep(`${view}-${wide}-${scheme}`);
        }
        await page.size(1180, 900);
    }
    await page.focus("tab-try-it");
    for (const [key, view] of [["ArrowRight", "listen"], ["ArrowLeft", "try-it"], ["ArrowLeft", "ring-out"]]) {
        await page.key(key);
        count.same(await page.run(`document.activeElement.id`), `tab-${view}`, `${key} goes to the tab`);
        count.same(await page.run(`document.getElementById("${view}").hidden`), false, `${key} shows its view`);
    }
}

// The switch "Strict", beside what the specs and the own reading say of it: a clip that shows it, both verdicts, off and on
// again, and other clips while it is on.
const BARRED = "In mono ask for 192 kbps or less. In stereo ask for 64 kbps, or for 96 and more.";
const STRICT_CLIP = {
    judgement: "✖ Nothing here can be played.",
    line: "0 frames; refused 13, 32 times: the header says 320 kbps in mono, which the standard does not have; refused 2, once: no sync found; ended with 1: no header can follow.",
    beside: `Read plainly: Every frame was played. ${VERDICTS["citrus-320"]}`,
    legend: "headers refused with 13, 128 bytespassed over behind 13, 33,280 bytes",
    chosen: "▲ refused 13 refused 13 at 3 skipped 0: a bit rate that the standard does not have in this mode: the header says 320 kbps in mono, which the standard does not have. " +
        "Its header, at byte 0, says 44,100 samples a second, 320 kbps, mono.",
};
const besideIs = `!beside.hidden && beside.textContent`;

async function compareStrictClip(count, page) {
    count.same(await page.run(`document.getElementById("reading-0").checked`), false, "the switch is off");
    await page.click("#readings button");
    await page.until(besideIs);
    count.same(await page.run(`document.getElementById("reading-0").checked + pick.value`), "truecitrus-320", "the clip that shows it is read in it");
    for (const [id, words] of Object.entries(STRICT_CLIP)) count.same(await page.text(id), words, `320 kbps mono, read strictly: ${id}`);
    count.holds((await page.text("advice")).includes(BARRED), `its advice: ${await page.text("advice")}`);
    count.same(await page.run("sound.hidden && !refusal.hidden"), true, "there is no sound, and a first refusal to go to");
    const tints = await page.run(`[...document.querySelectorAll("#legend i")].map((square) => getComputedStyle(square).backgroundColor)`);
    count.holds(tints.length === 2 && tints.every((tint) => tint.startsWith("rgb(")), `13 has its colours: ${tints}`);
    count.same((await page.saved("#save-list", "citrus-320.txt")).toString(), strictList(module(), stored.clips.barred), "its list as it was saved");
    await page.keep("strict");
}

async function compareReadings(count, browser) {
    const page = new Page(browser), { citrus, barred } = stored.clips, mixed = Buffer.concat([citrus.subarray(0, 832), barred.subarray(0, 2088), citrus.subarray(832, 1664)]);
    await page.open(path.resolve("page/listen.html"));
    await compareStrictClip(count, page);
    await page.click("#reading-0");
    await page.until(`line.textContent.startsWith("32 frames")`);
    count.same(await page.text("judgement"), "✔ Every frame was played.", "the switch turned off");
    count.same(await page.run("beside.hidden"), true, "one reading, one verdict");
    await page.click("#reading-0");
    await page.until(besideIs);
    count.same(await page.text("line"), STRICT_CLIP.line, "the switch turned on again");
    count.same(await page.run(`(pick.value = "lavender", pick.dispatchEvent(new Event("change")), beside.hidden)`), true, "while the next clip is read the last one's plain verdict is gone");
    await page.pick("incident");
    await page.until(besideIs);
    count.same(await page.text("line"), VERDICTS.incident, "the incident has no 13");
    count.same(await page.text("beside"), `Read plainly: Do not use this clip yet: something is wrong with the file. ${VERDICTS.incident}`, "its plain verdict is the same");
    await page.give("crates/replay/data/rate-48000-kbps-056-mode-1.mp2");
    count.holds((await page.text("line")).includes("the header says 56 kbps in joint stereo, which the standard does not have"), `56 kbps in joint stereo: ${await page.text("line")}`);
    count.holds((await page.text("advice")).includes(BARRED), "its advice");
    await page.give(made("mixed.mp2", mixed));
    await page.until(besideIs);
    count.holds((await page.text("line")).startsWith("8 frames, 0.21 s; refused 13, 2 times: the header says 320 kbps in mono"), `two frames of 320 kbps among eight: ${await page.text("line")}`);
    count.same(await page.run("advice.children.length"), 1, "no byte of it stands in no frame");
    count.holds((await page.text("beside")).includes("8 frames, 0.21 s; refused 6, 2 times: the header says 320 kbps, the clip began with 64"), `the same, read plainly: ${await page.text("beside")}`);
    await compareNames(count, page, "strict");
    await compareKeys(count, page, "strict");
    for (const [wide, scheme] of [[1180, "light"], [1180, "dark"], [320, "dark"]]) {
        await page.size(wide, 900, scheme);
        await sleep(150);
        await compareContrast(count, page, `strict, ${scheme}`);
        await compareWidth(count, page, `strict, ${wide}`);
        await page.keep(`strict-${wide}-${scheme}`);
    }
    for (const trouble of page.troubles()) count.holds(false, trouble);
    await page.start(made("too-long.mp2", Buffer.alloc(16777217)));
    count.same(await page.run("beside.hidden"), true, "no reading of another clip stands under a file that is too long");
    count.same(await page.run(`new Promise((told) => { addEventListener("securitypolicyviolation", ({ effectiveDirective }) => told(effectiveDirective));
        fetch("http://127.0.0.1:9/").catch(() => setTimeout(told, 1000)); })`), "connect-src", "the browser refuses a connection by the page's own rule");
    await page.close();
}

// Two pictures as README has them: the page as it opens, and ring-out.
async function pictures(page) {
    await page.size(960, 900);
    for (const view of ["listen", "ring-out"]) {
        await page.view(view);
        await sleep(200);
        await page.keep(`readme-${view}`);
    }
    await page.size(1180, 900);
    await page.view("listen");
}

export async function drive(count, browser) {
    const page = new Page(browser), opened = path.resolve("page/listen.html");
    try {
        await page.open(opened);
        console.log((await page.send("Browser.getVersion")).product);
        await pictures(page);
        await count.part("browser beside the Rust's stored answers", () => compareStreams(count, page, 0, stored.rust));
        await count.part("the strict reading in the browser", () => compareStreams(count, page, 1, strictLines(module())));
        const parts = { "built-in clips": compareClips, sound: compareSound, bytes: compareBytes, incident: compareIncident, "ring-out in the browser": compareRing, exercises: compareTries,
            "a stream of one's own": compareOwn, "files that are no clip": compareOthers, "a folder": compareFolder, "a dropped file": compareDrop, "the longest streams": compareLong, "for everybody": compareLooks, "files saved": compareFiles };
        for (const [words, part] of Object.entries(parts)) await count.part(words, () => part(count, page));
        for (const trouble of page.troubles()) count.holds(false, trouble);
        count.holds(true, "no error, and nothing asked of the network");
    } finally {
        await page.close();
    }
    await count.part("the switch “Strict”", () => compareReadings(count, browser));
}
