// The page: its tabs, its clips, and files that are opened or dropped.
import { $, option, trouble, unpacked } from "./dom.js";
import { startWorker } from "./work.js";
import { show, startListen, tooLong } from "./listen.js";
import { startIncident } from "./incident.js";
import { startRingOut } from "./ringout.js";
import { startTryIt } from "./tryit.js";
import { showReadings } from "./readings.js";
import { joined } from "./ring.js";
import { stop } from "./sound.js";
import { REASONS } from "./words.js";
import { STREAM } from "./tag.js";

const VIEWS = ["listen", "incident", "ring-out", "try-it"];
const streams = {}, sentences = { own: "A stream of your own." };
let drawings = [], asked = 0, again = () => {};

function view(name) {
    stop();
    for (const id of VIEWS) {
        $(id).hidden = id !== name;
        $(`tab-${id}`).ariaSelected = id === name;
        $(`tab-${id}`).tabIndex = id === name ? 0 : -1;
    }
    history.replaceState(null, "", `#${name}`);
    drawings.forEach((draw) => draw());
}

// Arrow keys go from tab to tab, as a screen reader says they do.
function tabKeys(event) {
    const step = { ArrowRight: 1, ArrowLeft: -1 }[event.key], at = VIEWS.findIndex((id) => event.target.id === `tab-${id}`);
    if (!step || at < 0) return;
    const next = VIEWS[(at + step + VIEWS.length) % VIEWS.length];
    view(next);
    $(`tab-${next}`).focus();
}

// Shows a stream by its key in the list of clips.
function open(key, name = key) {
    asked++;
    view("listen");
    $("pick").value = key;
    $("shows").textContent = sentences[key];
    again = () => show(name, streams[key]).catch((problem) => trouble(`${name} cannot be shown: ${problem.message}.`));
    return again();
}

// A stream of the person's own stands in the list from then on.
function openOwn(name, stream) {
    streams.own = stream;
    Object.assign($("own"), { hidden: false, textContent: `your own: ${name}` });
    $("own").dataset.name = name;
    const shown = open("own", name), mine = asked;
    return shown.then(() => mine === asked && $("judgement").focus());
}

// A file, unless something else was asked for while it was fetched.
async function openFile(file) {
    const mine = ++asked;
    view("listen");
    $("pick").value = $("shows").textContent = ""; // none of the list is shown, and each can be chosen
    if (file.size > STREAM) return tooLong(file.name, file.size);
    const stream = await file.arrayBuffer().catch((problem) => trouble(`${file.name} cannot be read: ${problem.message}. Is it a folder?`));
    if (stream && mine === asked) await openOwn(file.name, new Uint8Array(stream));
}

function unpack() {
    for (const { name, title, bytes, parts, sentence } of JSON.parse($("clips").textContent)) {
        streams[name] = parts ? joined(parts.map((part) => streams[part])) : unpacked(bytes);
        sentences[name] = sentence;
        $("pick").append(option(name, title));
    }
    $("pick").append(Object.assign(option("own", ""), { id: "own", hidden: true }));
    document.querySelectorAll("[data-reason]").forEach((place) => (place.textContent = `${place.dataset.reason}: ${REASONS[place.dataset.reason]}`));
}

function startOpening() {
    let over = 0;
    const mark = (change) => document.body.classList.toggle("drop", (over = Math.max(0, over + change)) > 0);
    $("pick").onchange = () => open($("pick").value, $("pick").selectedOptions[0].dataset.name);
    $("file").onchange = () => $("file").files[0] && openFile($("file").files[0]).then(() => ($("file").value = ""));
    addEventListener("dragenter", () => mark(1));
    addEventListener("dragleave", () => mark(-1));
    addEventListener("drop", (event) => {
        mark(-over);
        if (event.dataTransfer.files[0]) openFile(event.dataTransfer.files[0]);
        else trouble("What was dropped is no file.");
    });
}

async function start() {
    const wanted = location.hash.slice(1), redraw = () => drawings.forEach((draw) => draw());
    for (const name of ["dragover", "drop"]) addEventListener(name, (event) => event.preventDefault()); // a file must not take the page away
    unpack();
    await startWorker();
    const ring = startRingOut(streams);
    drawings = [startListen(), ring.draw];
    startTryIt(streams, openOwn);
    showReadings(open, () => again());
    startOpening();
    for (const id of VIEWS) $(`tab-${id}`).onclick = () => view(id);
    document.querySelector("[role=tablist]").onkeydown = tabKeys;
    addEventListener("resize", redraw);
    matchMedia("(prefers-color-scheme: dark)").onchange = redraw;
    await open("incident");
    await Promise.all([startIncident(streams), ring.count()]);
    if (VIEWS.includes(wanted)) view(wanted);
    document.documentElement.dataset.ready = "true";
}

start().catch((problem) => {
    $("judgement").textContent = "The decoder did not start.";
    $("verdict").ariaBusy = "false";
    trouble(`This browser cannot run the page: ${problem.message}.`);
});
