// The pictures: a wave, a map of bytes, and the joint of two clips. Their colours are the page's, in light and dark.
import { $, colourOf, make, signOf } from "./dom.js";
import { counted, grouped } from "./words.js";
import { KINDS } from "./listing.js";
import { RINGS } from "./ring.js";

const colour = (name) => getComputedStyle(document.documentElement).getPropertyValue(`--${name}`).trim();

// A canvas as sharp as the screen, with its pen and its size in the page's pixels.
function canvas(id) {
    const element = $(id), ratio = devicePixelRatio || 1, wide = element.clientWidth || 1;
    const high = Number((element.dataset.high ??= element.getAttribute("height"))), pen = element.getContext("2d");
    Object.assign(element, { width: Math.round(wide * ratio), height: Math.round(high * ratio) });
    element.style.height = `${high}px`;
    pen.scale(ratio, ratio);
    pen.font = "13px system-ui, sans-serif";
    return { pen, wide, high };
}

function box(pen, name, x, y, wide, high) {
    pen.fillStyle = colour(name);
    pen.fillRect(x, y, wide, high);
}

function words(pen, text, x, y, name = "soft", align = "left") {
    Object.assign(pen, { fillStyle: colour(name), textAlign: align });
    pen.fillText(text, x, y);
}

// One channel. A column shows the smallest and the largest of all that falls on it.
function drawChannel(pen, { values }, channel, wide, top, high) {
    const middle = top + high / 2, stretches = values.length / 4, tints = { fits: colour("sound"), loud: colour("loud") };
    for (let x = 0; x < wide; x++) {
        const first = Math.floor((x / wide) * stretches), end = Math.max(first + 1, Math.floor(((x + 1) / wide) * stretches));
        const part = values.subarray(4 * first, 4 * end), low = Math.min(...part.filter((_, i) => i % 4 === 2 * channel));
        const most = Math.max(...part.filter((_, i) => i % 4 === 2 * channel + 1)), up = Math.min(1, most), down = Math.max(-1, low);
        pen.fillStyle = most > 1 || low < -1 ? tints.loud : tints.fits;
        pen.fillRect(x, middle - (up * high) / 2, 1, Math.max(1, ((up - down) * high) / 2));
    }
}

// Both channels. `marks` are refusals, with the frames before them; `frame` is the chosen one, or -1.
export function drawWave({ wave, format: { frames } }, marks, frame) {
    const { pen, wide, high } = canvas("wave"), half = high / 2;
    box(pen, "back", 0, 0, wide, high);
    if (frame >= 0) box(pen, "chosen", (frame / frames) * wide, 0, Math.max(2, wide / frames), high);
    ["left", "right"].forEach((name, channel) => {
        drawChannel(pen, wave, channel, wide, channel * half + 16, half - 20);
        words(pen, name, 18, channel * half + 13);
    });
    for (const [before, number] of marks) {
        const x = Math.min(wide - 7, Math.max(7, (before / frames) * wide));
        box(pen, colourOf(number), x, 0, 1, high);
        words(pen, "▼", x, 11, colourOf(number), "center");
    }
}

function kindColour(kind) {
    if (kind >= KINDS.refused) return colour(colourOf(kind - KINDS.refused));
    const plain = Object.keys(KINDS).find((name) => KINDS[name] === kind);
    return colour(plain ?? `pale-${kind - KINDS.behind}`);
}

// The columns as a picture of one line, drawn as wide as the page is. Refusals, where they are few, are drawn once more, so
// wide that they are seen.
function drawColumns(pen, map, wide) {
    const line = make("canvas", { width: map.length, height: 1 }), dot = line.getContext("2d"), tints = {}, refusals = [];
    map.forEach((kind, i) => {
        dot.fillStyle = tints[kind] ??= kindColour(kind);
        dot.fillRect(i, 0, 1, 1);
        if (kind >= KINDS.refused) refusals.push(i);
    });
    Object.assign(pen, { imageSmoothingEnabled: map.length > wide, imageSmoothingQuality: "high" });
    pen.drawImage(line, 0, 20, wide, 34);
    if (refusals.length > wide / 16) return;
    for (const i of refusals) {
        pen.fillStyle = tints[map[i]];
        pen.fillRect((i / map.length) * wide, 20, Math.max(2, wide / map.length), 34);
    }
}

// What stands above the map: a run of calls with the same answer, where there is room.
function drawRuns(pen, { calls, stream }, wide) {
    for (let row = 0, runs = 0, free = 0; row < calls.count && runs < 400; runs++) {
        const count = calls.run(row), number = calls.number[row], header = calls.header(row);
        const text = `${signOf(number)} ${number === 0 ? counted(count, "frame") : number}${number && count > 1 ? ` × ${grouped(count)}` : ""}`;
        const at = ((header < 0 ? Math.min(calls.at(row), stream.length) : header) / stream.length) * wide, length = pen.measureText(text).width;
        const x = Math.max(free, Math.min(at, wide - length));
        if (x - at < 60 && x + length <= wide) {
            words(pen, text, x, 14, colourOf(number));
            free = x + length + 10;
        }
        row += count;
    }
}

export function drawMap(clip, row) {
    const { pen, wide, high } = canvas("map"), { map, stream, calls } = clip, across = (byte) => (byte / stream.length) * wide;
    if (!stream.length) return words(pen, "no bytes", 0, 40);
    drawColumns(pen, map, wide);
    drawRuns(pen, clip, wide);
    words(pen, "byte 0", 0, high - 4);
    words(pen, grouped(stream.length), wide, high - 4, "soft", "right");
    const from = Math.max(0, calls.header(row) < 0 ? Math.min(calls.begins(row), stream.length - 1) : calls.header(row));
    const x = Math.min(wide - 5, across(from)), end = Math.min(wide - 1, across(Math.max(from + 1, calls.at(row))));
    Object.assign(pen, { strokeStyle: colour("ink"), lineWidth: 2 });
    pen.strokeRect(x + 1, 17, Math.max(3, end - x), 40);
}

const BEFORE = 240, AFTER = 960, LEFT = 46, TOP = 34, EACH = 122, GAP = 10;

// One curve of the joint: a value for each sample from BEFORE the joint to AFTER it, or none.
function drawCurve(pen, [name, tint, value], panel, scale, across) {
    const top = TOP + panel * (EACH + GAP), middle = top + EACH / 2;
    Object.assign(pen, { strokeStyle: colour("line"), lineWidth: 1 });
    pen.strokeRect(LEFT, top, across(AFTER) - LEFT, EACH);
    const marks = [[`+${scale}`, top + 12], ["0", middle + 4], [`−${scale}`, top + EACH - 2]];
    marks.forEach(([text, y]) => words(pen, text, LEFT - 4, y, "soft", "right"));
    pen.beginPath();
    for (let i = -BEFORE; i < AFTER; i++) if (value(i) !== undefined) pen.lineTo(across(i), middle - ((value(i) / scale) * EACH) / 2);
    Object.assign(pen, { strokeStyle: colour(tint), lineWidth: 1.5 });
    pen.stroke();
    words(pen, name, LEFT + 8, top + 18, tint);
}

export function drawRing({ fits, both, alone, difference, joint, later }) {
    const { pen, wide, high } = canvas("ring"), across = (i) => LEFT + ((i + BEFORE) / (BEFORE + AFTER)) * (wide - LEFT - 12);
    const left = (samples) => (i) => (i < 0 ? undefined : samples?.[2 * i]), places = Array.from({ length: BEFORE + AFTER }, (_, i) => i - BEFORE);
    const joined = (i) => both[2 * (joint + i)];
    const curves = [["first, then second", "bad", joined], ["second alone", "accent", left(alone)], ["the knock", "ink", left(difference)]];
    const loudest = Math.max(...curves.flatMap(([, , value]) => places.map((i) => Math.abs(value(i) ?? 0))));
    const scale = [0.01, 0.02, 0.05, 0.1, 0.2, 0.5, 1, 2, 4].find((most) => most >= loudest) ?? 8;
    if (fits) box(pen, "shade", across(0), TOP - 6, across(RINGS) - across(0), 3 * (EACH + GAP));
    curves.forEach((curve, panel) => drawCurve(pen, curve, panel, scale, across));
    for (let i = -BEFORE; i <= AFTER; i += BEFORE) words(pen, String(i).replace("-", "−"), Math.min(wide - 16, across(i)), high - 8, "soft", "center");
    if (wide < 560) return; // there is no room for words
    words(pen, "first ends here", across(0) - 6, 20, "soft", "right");
    if (fits) words(pen, "480 samples", (across(0) + across(RINGS)) / 2, 20, "soft", "center");
    if (fits) words(pen, later.differ ? "last bits differ" : "every sample the same", across(RINGS) + 6, 20);
}
