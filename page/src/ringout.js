// "Ring-out": how long one clip is heard in the next, counted bit for bit.
import { $, fill, make, options, trouble } from "./dom.js";
import { ask } from "./work.js";
import { drawRing } from "./draw.js";
import { playButton, readySound, stop } from "./sound.js";
import { counted, formatWords, grouped } from "./words.js";
import { OUTPUT } from "./tag.js";
import { RINGS } from "./ring.js";

let clips, ring = null, turn = 0, last = Promise.resolve();

// What was counted, in words.
function facts({ frames, ringing, later, formats }) {
    const remainder = frames % 4, milliseconds = ((1000 * RINGS) / formats.first.rate).toFixed(1);
    const differ = make("span", { className: later.differ ? "warn" : "ok" }, `${grouped(later.differ)} differ`);
    return [
        [`Samples 1 to 480, ${milliseconds} milliseconds: ${grouped(ringing.compared)} values compared, ${grouped(ringing.differ)} differ.`],
        [`From sample 481 on: ${grouped(later.compared)} values compared bit for bit, `, differ,
            later.differ ? `, by at most ${later.largest.toFixed(8)} of full scale.` : "."],
        [`${counted(frames, "frame")} in front, divided by 4, leave ${remainder}. The second clip alone has 0 in front, and leaves 0. `],
        [remainder
            ? "The remainders are not the same, and so equal bits are not promised. The first clip is gone all the same. The sums are added in another "
                + "order, and a last bit can differ. Take a count that 4 divides."
            : "The remainders are the same, and so it is proved: from sample 481 on none can differ."],
    ];
}

const refusal = ({ formats, refused }) => [
    [`First: ${formatWords(formats.first)}. Second: ${formatWords(formats.second)}.`],
    [`${counted(refused, "frame")} of the second clip refused with 6. This is the incident. Choose two clips of one format to hear a ring-out.`],
];

function headline({ fits, ringing }) {
    if (!fits) return "The second clip is refused: it has another format than the first.";
    if (!ringing.differ) return "Nothing of the first clip is heard in the second: it ended in silence. Move the slider.";
    return `The first clip rings on up to sample ${ringing.last}, with up to ${ringing.largest.toPrecision(2)} of full scale.`;
}

const draw = () => ring && !$("ring-out").hidden && drawRing(ring);

// Counts, unless the slider was moved on in the meantime.
async function count() {
    const mine = ++turn, [first, second] = ["first", "second"].map((id) => clips[$(id).value].stream);
    stop();
    await last; // one count at a time: those in between are left out
    if (mine !== turn) return;
    last = ask("ring", { first, second, frames: Number($("frames").value) }).catch((problem) => trouble(`Nothing was counted: ${problem.message}.`));
    const found = await last;
    if (mine !== turn || !found) return;
    ring = found;
    Object.assign($("frames"), { max: ring.total, value: ring.frames, ariaValueText: `${ring.frames} of ${ring.total}` });
    $("frames-words").textContent = `${ring.frames} of ${ring.total}`;
    $("ring-words").textContent = headline(ring);
    fill($("ring-facts"), ...(ring.fits ? facts(ring) : refusal(ring)).map((parts) => make("li", {}, ...parts)));
    $("ring-caption").textContent = `Left channel. 0 is the second clip's first sample.${ring.fits ? " Shaded are its first 480 samples." : ""}`;
    $("play-knock").disabled = !ring.ringing?.differ;
    draw();
}

export function startRingOut(streams) {
    const alike = streams["joined-alike"], end = 12 * 384; // twelve frames of speech, then the sweep
    clips = {
        speech: { name: "speech, 128 kbps stereo", stream: alike.slice(0, end) },
        sweep: { name: "a sweep, 128 kbps stereo", stream: alike.slice(end) },
        citrus: { name: "the citrus clip, 64 kbps mono", stream: streams.citrus },
        lavender: { name: "the lavender clip, 48 kbps mono", stream: streams.lavender },
    };
    for (const id of ["first", "second"]) fill($(id), ...options(clips));
    $("second").value = "sweep";
    $("first").onchange = () => (Object.assign($("frames"), { max: 9999, value: 9999 }), count());
    $("second").onchange = $("frames").oninput = count;
    playButton($("play-both"), () => ({ sound: readySound(ring.both, ring.formats.first.rate) }));
    playButton($("play-alone"), () => ({ sound: readySound(ring.alone, ring.formats.second.rate) }));
    playButton($("play-knock"), () => ({ sound: readySound(ring.difference.subarray(0, 4 * OUTPUT), ring.formats.second.rate) }));
    return { draw, count };
}
