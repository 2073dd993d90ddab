// Plays sound piece by piece, so that a long clip starts at once. One sound is heard at a time.
import { OUTPUT, PAIRS } from "./tag.js";
import { trouble } from "./dom.js";

const PIECE = 40; // frames that are asked for at once, a second or so
const AHEAD = 2; // seconds of sound that wait to be played
let context, playing = null;

// A sound that is there already: 16-bit samples or floats, left and right in turn, and what a 1 is among them.
export const readySound = (samples, rate, one = 1) => ({
    rate, one, frames: samples.length / OUTPUT, piece: async (first, count) => samples.subarray(first * OUTPUT, (first + count) * OUTPUT),
});

// `over` is whether the sound has come to its end.
export function stop(over = false) {
    if (!playing) return;
    const { sources, ended } = playing;
    playing = null;
    for (const source of sources) source.stop();
    ended(over);
}

export const isPlaying = (owner) => playing?.owner === owner;

// Plays from a frame on. `step` is told the frame that is heard, `ended` when it is over or was stopped.
function play(owner, sound, from, step, ended) {
    stop();
    if (context?.sampleRate !== sound.rate) {
        context?.close();
        context = new AudioContext({ sampleRate: sound.rate });
    }
    const me = { owner, sources: new Set(), ended }, begun = context.currentTime;
    playing = me;
    context.resume().catch((problem) => playing === me && trouble(`The browser plays no sound: ${problem.message}.`));
    feed(me, sound, from).catch((problem) => playing === me && (stop(), trouble(`The sound stopped: ${problem.message}.`)));
    setTimeout(() => playing === me && context.currentTime === begun && trouble("The browser plays no sound. Is there a loudspeaker?"), 3000);
    const show = () => {
        if (playing !== me) return;
        if (me.began) step(Math.min(sound.frames, from + Math.max(0, ((context.currentTime - me.began) * sound.rate) / PAIRS)));
        requestAnimationFrame(show);
    };
    show();
}

async function feed(me, sound, from) {
    for (let next = from, at = 0; playing === me && next < sound.frames; next += PIECE) {
        const samples = await sound.piece(next, Math.min(PIECE, sound.frames - next));
        if (playing !== me) return;
        at = Math.max(at, context.currentTime + 0.05);
        me.began ??= at;
        schedule(me, samples, sound, at, next + PIECE >= sound.frames);
        at += samples.length / 2 / sound.rate;
        const early = at - context.currentTime - AHEAD;
        if (early > 0) await new Promise((rested) => setTimeout(rested, 1000 * early));
    }
}

function schedule(me, samples, { rate, one }, at, last) {
    const buffer = context.createBuffer(2, samples.length / 2, rate), sides = [0, 1].map((channel) => buffer.getChannelData(channel));
    for (let i = 0; i < samples.length; i++) sides[i % 2][i >>> 1] = samples[i] / one;
    const source = new AudioBufferSourceNode(context, { buffer });
    source.connect(context.destination);
    me.sources.add(source);
    source.onended = () => {
        me.sources.delete(source);
        if (last && playing === me) stop(true);
    };
    source.start(at);
}

// A button that plays and stops. `start` gives the sound, where it begins, and what is to be told.
export function playButton(button, start) {
    const name = button.textContent, kind = button.className;
    const shown = (on) => Object.assign(button, { textContent: on ? "Stop" : name, className: `${kind} play${on ? " on" : ""}` });
    shown(false);
    button.onclick = () => {
        if (isPlaying(button)) return stop();
        const { sound, from = 0, step = () => {}, ended = () => {} } = start();
        try {
            play(button, sound, from, step, (over) => (shown(false), ended(over)));
            shown(true);
        } catch (problem) {
            trouble(`This browser plays no sound: ${problem.message}.`);
        }
    };
}
