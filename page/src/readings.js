// Ways to read, chosen at opening: a switch for each, with what it does and a clip that shows it. A way comes with the
// request that gives it an effect.
import { $, fill, make } from "./dom.js";
import { verdict } from "./verdict.js";

// `bit` is its place in the choices of tag_open.
const READINGS = [
    { bit: 0, name: "Strict", sentence: "refuse a bit rate that the standard does not have in this mode (13), as a bought player may.", clip: "citrus-320" },
];

export const chosenReading = () => READINGS.reduce((choices, { bit }) => choices | ($(`reading-${bit}`).checked << bit), 0);

// `pick` opens a built-in clip, `again` reads the clip at hand once more. A clip that shows a way is read in it.
export function showReadings(pick, again) {
    for (const { bit, name, sentence, clip } of READINGS) {
        const box = make("input", { type: "checkbox", id: `reading-${bit}`, onchange: again });
        const button = make("button", { onclick: () => ((box.checked = true), pick(clip)) }, "A clip that shows it");
        $("readings").append(make("div", { className: "row" }, make("label", {}, box, ` ${name}: ${sentence}`), button));
    }
}

// Two readings side by side: the plain one's verdict below that of the chosen one.
export async function showBeside({ choices, name, stream }, listed) {
    $("beside").hidden = !choices;
    fill($("beside"));
    const plain = choices && (await listed("plain", name, stream, 0));
    if (!plain) return;
    const { judgement, line } = verdict(plain);
    fill($("beside"), make("strong", {}, "Read plainly: "), `${judgement} ${line}.`);
}
