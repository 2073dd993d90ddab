// The incident: what the old player did with two clips in one stream, beside what ours does. The words stand in the page;
// what is counted in them, and what is heard, comes from the decoder.
import { $ } from "./dom.js";
import { ask } from "./work.js";
import { listed } from "./listen.js";
import { playButton, readySound } from "./sound.js";
import { counted, seconds } from "./words.js";
import { OUTPUT } from "./tag.js";
import { joined } from "./ring.js";

// The items of a list are parts of a playing, one behind the other: a clip's sound, or so many frames of silence.
function offer(id, rate, sounds) {
    const items = [...$(`parts-${id}`).children];
    const samples = items.map(({ dataset }) => sounds[dataset.sound] ?? new Int16Array(dataset.silence * OUTPUT));
    const follow = (frame) => {
        let end = 0;
        const now = samples.findIndex((part) => (end += part.length / OUTPUT) > frame);
        if (items[now]?.ariaCurrent) return;
        items.forEach((item, at) => (item.ariaCurrent = at === now ? "true" : null));
        $("incident-now").textContent = items[now]?.dataset.silence ? items[now].textContent : ""; // a voice needs no second one
    };
    playButton($(`play-${id}`), () => ({ sound: readySound(joined(samples), rate, 32768), step: follow, ended: () => follow(Infinity) }));
}

export async function startIncident({ incident, lavender }) {
    const both = await listed("incident", "incident", incident, 0, ask), alone = await listed("lavender", "lavender", lavender, 0, ask);
    const rate = both.format.rate, said = { sixes: counted(both.tally[6].count, "time") }, sounds = {};
    for (const [name, { key, listing, format: { frames } }] of Object.entries({ citrus: both, lavender: alone })) {
        said[name] = `${counted(frames, "frame")}, ${seconds(frames, rate)}`;
        sounds[name] = await ask("frames", { key, listing, first: 0, count: frames });
    }
    document.querySelectorAll("[data-said]").forEach((place) => (place.textContent = said[place.dataset.said]));
    for (const id of ["old", "ours", "mended"]) offer(id, rate, sounds);
}
