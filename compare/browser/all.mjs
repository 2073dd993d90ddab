// node compare/browser/all.mjs BROWSER, or '' for none: see compare/page, which makes what is compared here.
import { Count } from "./count.mjs";
import * as stored from "./stored.mjs";
import { comparePassed } from "./passed.mjs";
import { compareBarred, compareStrict, compareWrongStrict } from "./strict.mjs";
import { drive } from "./drive.mjs";

const [browser, folder] = process.argv.slice(2);
if (browser === "exercises") {
    stored.writeExercises(folder);
    process.exit(0);
}
const count = new Count(), module = stored.compiled("target/page/tag.wasm");
await count.part("node beside the Rust's stored answers", () => count.lines(stored.ours(module), stored.rust, "the lines of the stored streams"));
await count.part("WAV files beside the proved program's", () => stored.compareWavs(count, module));
await count.part("3,000 damaged streams beside the proved program replay", () => stored.compareDamaged(count, module, 3000));
await count.part("headers and what was passed over", () => comparePassed(count, module));
await count.part("the strict reading beside an own reading", () => compareStrict(count, module));
await count.part("320 kbps mono, read both ways", () => compareBarred(count, module));
await count.part("every byte counted once, and some verdicts", () => stored.compareBytes(count, module));
await count.part("words beside the specs", () => stored.compareWords(count));
await count.part("exercises beside the Rust's answers", () => stored.compareExercises(count, module));
await count.part("ring-out", () => stored.compareRing(count, module));
await count.part("parts of the sound", () => stored.compareCopies(count, module));
await count.part("modules that are wrong on purpose", () => stored.compareWrong(count));
await count.part("modules that are wrong in the strict reading", () => compareWrongStrict(count, module));
await count.part("pages that are wrong on purpose", () => stored.compareWrongPages(count));
if (browser) await drive(count, browser);
console.log(`${count.compared} compared, ${count.differ} differ`);
process.exit(count.differ ? 1 : 0);
