// A clip's bytes and calls: the map's legend, one call that is chosen, and all of them.
import { $, chip, fill, make } from "./dom.js";
import { goesOn } from "./calls.js";
import { REASONS, counted, grouped, headerWords, hexOf, seconds, times, why } from "./words.js";

const ROWS = 100, RUNS = 40, HEX = 48; // rows of a run, runs, and bytes that are shown at once
let clip, calls, row, tell;

export function showBytes(next, told) {
    [clip, calls, tell] = [next, next.calls, told];
    const first = calls.number.findIndex((number) => number > 1 && goesOn(number));
    $("map").setAttribute("aria-label", `A map of ${counted(clip.stream.length, "byte")}. The list below says it in words.`);
    showLegend();
    fill($("calls"));
    showRuns(0, 0);
    $("map").onclick = (event) => choose(calls.readingAt(Math.floor((event.offsetX / event.target.clientWidth) * clip.stream.length)));
    $("byte").onchange = () => choose(calls.readingAt(Number($("byte").value)));
    $("previous").onclick = () => choose(row - 1);
    $("next").onclick = () => choose(row + 1);
    $("refusal").onclick = () => choose(first);
    $("refusal").hidden = first < 0;
    choose(Math.max(0, first), "off");
}

function showLegend() {
    const { sound, headers, refused, passed } = clip.bytes;
    const kinds = [["sound", "sound", sound], ["header", "its headers", headers], ["passed", "passed over", passed[0]]];
    refused.forEach((bytes, number) => kinds.push([`refused-${number}`, `headers refused with ${number}`, bytes]));
    passed.slice(2).forEach((bytes, i) => kinds.push([`pale-${i + 2}`, i ? `passed over behind ${i + 2}` : "searched, no sync found (2)", bytes]));
    const shown = kinds.filter(([, , bytes]) => bytes), square = (name) => make("i", { style: `background: var(--${name})` });
    fill($("legend"), ...shown.map(([name, words, bytes]) => make("li", {}, square(name), `${words}, ${counted(bytes, "byte")}`)));
    $("byte").max = Math.max(0, clip.stream.length - 1);
}

// A call in words, as a keeper would say it.
function callWords(at, framesBefore) {
    const number = calls.number[at];
    const data = () => `${counted(calls.bits[at], "bit")} from byte ${grouped(calls.data(at))} on`;
    if (number === 0) return `plays at ${seconds(framesBefore, calls.format.rate)}; ${data()}`;
    return number > 2 && goesOn(number) ? `${REASONS[number]}: the header says ${why(clip, at)}` : REASONS[number];
}

// A button that makes way for what comes next, and hands it the focus.
function more(list, words, next) {
    const button = make("button", {}, words), before = list.children.length;
    button.onclick = () => {
        button.remove();
        next();
        (list.children[before].querySelector("summary") ?? list.children[before]).focus();
    };
    list.append(button);
}

// The rows of a run, some at a time. `framesBefore` is what stands before the first of them.
function showRows(list, from, count, framesBefore) {
    const now = Math.min(count, ROWS), frames = calls.isFrame(from);
    for (let i = 0; i < now; i++) {
        const at = from + i, before = framesBefore + (frames ? i : 0), button = make("button", { className: "call", onclick: () => choose(at) });
        button.append(make("code", {}, calls.text(at, before)), make("span", {}, callWords(at, before)));
        button.dataset.row = at;
        list.append(button);
    }
    const next = () => showRows(list, from + now, count - now, framesBefore + (frames ? now : 0));
    if (now < count) more(list, `${grouped(count - now)} more`, next);
}

function runWords(first, count, framesBefore) {
    const number = calls.number[first], last = framesBefore + count, { rate } = calls.format;
    if (number !== 0) return `${count > 1 ? `${times(count)}: ` : ""}${REASONS[number]}`;
    const names = count > 1 ? `frames ${framesBefore} to ${last - 1}` : `frame ${framesBefore}`;
    return `${names}: ${seconds(framesBefore, rate)} to ${seconds(last, rate)}`;
}

// Runs of calls with the same answer, some at a time.
function showRuns(first, framesBefore) {
    for (let runs = 0; first < calls.count; runs++) {
        const from = first, before = framesBefore, count = calls.run(first);
        if (runs === RUNS) return more($("calls"), "More calls", () => showRuns(from, before));
        const details = make("details", {}, make("summary", {}, chip(calls.number[first]), ` ${runWords(first, count, before)}`));
        details.ontoggle = () => details.open && details.children.length === 1 && showRows(details, from, count, before);
        $("calls").append(details);
        if (calls.isFrame(first)) framesBefore += count;
        first += count;
    }
}

// The bytes from a call's header on, or from where it began: header, check word, sound, and what is none of them.
function hexWords(from, header) {
    const { stream } = clip, frame = calls.isFrame(row), body = header < 0 ? from : header + 4;
    const data = frame ? calls.data(row) : body, end = frame ? calls.end(row) : body;
    const parts = [["b", "header", from, body], ["span", "check word", body, data], ["em", "sound", data, end], ["span", "behind it", end, Infinity]];
    const shown = parts.flatMap(([name, words, first, last]) => {
        const bytes = stream.subarray(Math.min(first, from + HEX), Math.min(last, from + HEX));
        return bytes.length ? [`${words} `, make(name, {}, hexOf(bytes)), " "] : [];
    });
    if (header < 0 && calls.begins(row) >= stream.length) return ["No byte is left."];
    return [`From byte ${grouped(from)}: `, ...shown, from + HEX < stream.length ? "…" : ""];
}

// Shows a call. It is told to a screen reader where the person asked for it.
function choose(at, live = "polite") {
    row = Math.max(0, Math.min(at, calls.count - 1));
    const { stream } = clip, before = calls.framesBefore(row), header = calls.header(row);
    const from = header < 0 ? Math.max(0, Math.min(calls.begins(row), stream.length - 1)) : header;
    const says = header < 0 ? "" : ` Its header, at byte ${grouped(header)}, says ${headerWords(stream, header)}.`;
    $("chosen").ariaLive = live;
    fill($("chosen"), chip(calls.number[row]), " ", make("code", {}, calls.text(row, before)), `: ${callWords(row, before)}.${says}`);
    fill($("hex"), ...hexWords(from, header));
    $("byte").value = from;
    document.querySelector(".call[aria-current]")?.removeAttribute("aria-current");
    document.querySelector(`.call[data-row="${row}"]`)?.setAttribute("aria-current", "true");
    tell(row);
}

// The list as the lister prints it, made in pieces so that the page stays awake.
export async function listText({ calls }) {
    const parts = [];
    for (let at = 0, before = 0; at < calls.count; at++) {
        parts.push(`${calls.text(at, before)}\n`);
        before += calls.isFrame(at);
        if (at % 20000 === 19999) parts.splice(0, parts.length, await new Promise((rested) => setTimeout(() => rested(new Blob(parts)))));
    }
    return new Blob(parts, { type: "text/plain" });
}
