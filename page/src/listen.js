// "Listen and see": a clip, its verdict and its sound.
import { $, fill, make, save, sign, trouble } from "./dom.js";
import { Calls } from "./calls.js";
import { ask, askLong, cancel } from "./work.js";
import { drawMap, drawWave } from "./draw.js";
import { isPlaying, playButton, stop } from "./sound.js";
import { counted, formatWords, seconds } from "./words.js";
import { verdict } from "./verdict.js";
import { chosenReading, showBeside } from "./readings.js";
import { listText, showBytes } from "./bytes.js";

let clip = null, row = 0, turn = 0;

// Lists a stream. Undefined where it was cancelled.
export async function listed(key, name, stream, choices, asks = askLong) {
    const found = await asks("list", { key, stream, choices });
    return found && { ...found, key, listing: found.id, name, stream, choices, calls: new Calls(stream, found.columns, found.format) };
}

const MARKS = 500; // places in the wave where refusals are marked
const SIGNS = { whole: "✔", partly: "▲", none: "✖" };

// The verdict's words, and whether the rest of the view belongs to them.
function say(kind, judgement, advice, line, rest) {
    $("judgement").className = `judgement ${kind}`;
    fill($("judgement"), ...(SIGNS[kind] ? [sign(SIGNS[kind])] : []), judgement);
    fill($("advice"), ...advice.map((words) => make("p", {}, words)));
    $("line").textContent = line;
    $("beside").hidden = true; // it belongs to the verdict before
    for (const id of ["sound", "bytes", "list"]) $(id).hidden = !rest;
}

// Shows a stream, unless another one was asked for in the meantime. Nothing of the last one stands under the new name.
export async function show(name, stream) {
    const mine = ++turn;
    stop();
    cancel();
    trouble("");
    $("of").textContent = `${name}, ${counted(stream.length, "byte")}`;
    $("verdict").ariaBusy = "true";
    say("", "It is being read …", [], "", false);
    const failed = (problem) => mine === turn && (trouble(`${name} cannot be shown: ${problem.message}.`), undefined);
    const next = await listed("listen", name, stream, chosenReading()).catch(failed);
    if (mine !== turn) return;
    $("verdict").ariaBusy = "false";
    if (!next) return say("none", "It was not read to its end.", ["Choose a clip, or open a file."], "", false);
    clip = { ...next, marks: marks(next) };
    const { kind, judgement, advice, line } = verdict(clip);
    say(kind, judgement, advice, `${line}.`, true);
    showSound();
    showBytes(clip, draw);
    await showBeside(clip, listed);
}

function showSound() {
    const { format, wave, marks } = clip, { frames, mode } = format;
    $("sound").hidden = !frames;
    if (!frames) return;
    $("place").max = frames - 1;
    tell(0);
    $("wave").setAttribute("aria-label", `The wave of both channels, ${seconds(frames, format.rate)}`);
    const loud = wave.values.some((value) => Math.abs(value) > 1) && "Red is louder than full scale, and is held there.";
    const words = [`${formatWords(format)}.`, mode === 3 && "Mono: both channels are the same.", marks.length && "▼ marks where calls were refused.", loud];
    $("wave-words").textContent = [...words, "Click in the wave to play from there."].filter(Boolean).join(" ");
}

// Shows the place in the sound: in the slider, in seconds, and as a line in the wave.
function tell(frame) {
    const { rate, frames } = clip.format, words = `${seconds(frame, rate)} of ${seconds(frames, rate)}`;
    $("clock").textContent = words;
    $("place").value = frame;
    $("place").setAttribute("aria-valuetext", words);
    $("head").hidden = !isPlaying($("play"));
    $("head").style.left = `${(100 * frame) / frames}%`;
}

// Where in the sound calls were refused: the frames before, and the number.
function marks({ calls, format }) {
    const found = [], width = format.frames / MARKS;
    for (let at = 0, before = 0; format.frames && at < calls.count; at++) {
        if (calls.isFrame(at)) before++;
        else if (calls.number[at] !== 1) found[Math.floor(before / width)] ??= [before, calls.number[at]];
    }
    return found.filter(Boolean);
}

// Draws the wave and the map, with a call that is chosen.
function draw(chosen = row) {
    row = chosen;
    if (!clip || $("bytes").hidden || $("listen").hidden) return;
    if (clip.format.frames) drawWave(clip, clip.marks, clip.calls.isFrame(row) ? clip.calls.framesBefore(row) : -1);
    drawMap(clip, row);
}

export function startListen() {
    const named = (ending) => clip.name.replace(/\.[a-z0-9]{1,4}$/i, "") + ending, place = () => Number($("place").value);
    const playFrom = (frame) => {
        stop();
        tell(frame);
        $("play").click();
    };
    const ended = (over) => tell(over ? 0 : place());
    playButton($("play"), () => {
        const { key, listing, format } = clip;
        return { sound: { ...format, one: 32768, piece: (first, count) => ask("frames", { key, listing, first, count }) }, from: place(), step: tell, ended };
    });
    $("place").oninput = () => (isPlaying($("play")) ? playFrom(place()) : tell(place()));
    $("wave").onclick = (event) => playFrom(Math.floor((event.offsetX / event.target.clientWidth) * clip.format.frames));
    const failed = (problem) => trouble(`No file was saved: ${problem?.message ?? "it was cancelled"}.`);
    const saves = (ending, makes) => () => {
        const name = named(ending); // of the clip that is saved, whatever is shown when the file is made
        makes(clip).then((file) => (file ? save(file, name) : failed())).catch(failed);
    };
    $("save-wav").onclick = saves(".wav", ({ key, listing }) => askLong("wav", { key, listing }));
    $("save-list").onclick = saves(".txt", listText);
    $("cancel").onclick = cancel;
    return draw;
}

// A file above 16,777,216 bytes is not read.
export function tooLong(name, length) {
    turn++;
    stop();
    cancel();
    trouble("");
    $("verdict").ariaBusy = "false";
    $("of").textContent = `${name}, ${counted(length, "byte")}`;
    say("none", "The file is too long (8).", ["A stream has 16,777,216 bytes at most. This one was not read."], "", false);
}
