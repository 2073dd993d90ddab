// "Try it": a stream, what is done to it, a guess, and the decoder's answer.
import { $, chip, fill, make, option, options } from "./dom.js";
import { ask } from "./work.js";
import { listed } from "./listen.js";
import { EDITS, editWords, made, steps } from "./exercises.js";
import { REASONS, counted, grouped, hexOf } from "./words.js";
import { verdict } from "./verdict.js";

const OWN = "A stream of your own. Do something to it.";
const CALLS = 12, HEX = 40; // shown at most
const book = JSON.parse($("exercises").textContent), exercises = book.exercises;
let clips, plan;

// The choices of a place in the plan: what it may begin with, what may be put in front, what may be joined behind.
const pieces = (place) => (book[place] ?? []).map((key) => option(key, book.pieces[key].name));

// The answers to choose from.
function guesses(frames) {
    const values = frames ? [0, 1, 2, 3, 4, 5, 6, 7, 8] : [1, 2, 3, 4, 5, 6, 7], words = (value) => (frames ? counted(value, "frame") : `${value}: ${REASONS[value]}`);
    return values.map((value) => make("label", {}, make("input", { type: "radio", name: "guess", value }), make("span", {}, words(value))));
}

// The stream's first bytes, or those around the bit that was flipped last.
function hexWords(stream) {
    const last = plan.edits?.at(-1), at = last?.edit === "flip" ? last.where : -1, from = Math.max(0, at - 8);
    const part = (first, end) => hexOf(stream.subarray(first, end));
    const bytes = at < 0 ? [part(0, HEX)] : [part(from, at), " ", make("b", {}, part(at, at + 1)), " ", part(at + 1, from + HEX)];
    return [`${counted(stream.length, "byte")}${stream.length ? `, from byte ${grouped(from)}: ` : "."}`, ...bytes, from + HEX < stream.length ? " …" : ""];
}

// Shows the stream as it is planned, and forgets the last answer.
function showPlan(next) {
    plan = next;
    const edits = plan.edits ?? [], streams = steps(plan, book, clips), frames = plan.asks === "frames";
    $("task").textContent = plan.task;
    $("begin").value = plan.begin;
    fill($("edits"), ...edits.map((words, at) => make("li", {}, editWords(words, streams[at], book))));
    $("undo").hidden = !edits.length;
    fill($("stream-words"), ...hexWords(streams.at(-1)));
    $("where").max = Math.max(0, streams.at(-1).length - 1);
    $("question").textContent = frames ? "How many frames play?" : "Look at the first call that plays no frame. Which number does it give?";
    fill($("guesses"), ...guesses(frames));
    fill($("answer"));
    $("answer-lines").textContent = "";
}

// A plan of the person's own.
function own(begin, edits) {
    $("exercise").value = exercises.length;
    showPlan({ begin, edits, task: OWN });
}

// The boxes that an edit asks for.
function showBoxes() {
    const edit = $("edit").value;
    for (const id of ["where", "bit", "what"]) $(`${id}-label`).hidden = !EDITS[edit].needs.includes(id);
    fill($("what"), ...pieces(edit));
}

function add() {
    const edit = $("edit").value, words = { edit, where: Number($("where").value), bit: Number($("bit").value), what: $("what").value };
    if (EDITS[edit].needs.every((id) => $(id).reportValidity())) own(plan.begin, [...(plan.edits ?? []), words]);
}

async function see() {
    const guess = document.querySelector("#guesses input:checked")?.value;
    if (guess === undefined) return fill($("answer"), "Choose an answer first."), document.querySelector("#guesses input").focus();
    const mine = plan, clip = await listed("try", "try", made(plan, book, clips), 0, ask), { calls, format } = clip;
    if (mine !== plan) return;
    const row = calls.number.findIndex((number) => number !== 0), number = calls.number[row], { line } = verdict(clip);
    const answer = plan.asks === "frames" ? format.frames : number, right = Number(guess) === answer;
    const lines = Array.from({ length: Math.min(CALLS, calls.count) }, (_, at) => calls.text(at, calls.framesBefore(at)));
    fill($("answer"),
        make("p", { className: right ? "ok" : "off" }, `You said ${guess}. ${right ? "So it is." : `It is ${answer}.`}`),
        make("p", {}, chip(number), ` ${REASONS[number]}. ${row ? `It came after ${counted(row, "frame")}.` : "It is the first call."} ${plan.because ?? ""}`));
    $("answer-lines").textContent = [`${line}.`, "", ...lines, ...(calls.count > CALLS ? [".."] : [])].join("\n");
}

// `open` shows a stream in "Listen and see".
export function startTryIt(streams, open) {
    const chosen = () => Number($("exercise").value);
    clips = streams;
    fill($("exercise"), ...exercises.map((_, i) => option(i, `${i + 1} of ${exercises.length}`)), option(exercises.length, "your own stream"));
    fill($("begin"), ...pieces("begin"));
    fill($("edit"), ...options(EDITS));
    $("exercise").onchange = () => (chosen() < exercises.length ? showPlan(exercises[chosen()]) : own(plan.begin, plan.edits));
    $("next-exercise").onclick = () => {
        $("exercise").value = chosen() < exercises.length - 1 ? chosen() + 1 : 0;
        $("exercise").onchange();
    };
    $("begin").onchange = () => own($("begin").value, []);
    $("edit").onchange = showBoxes;
    $("add").onclick = add;
    $("undo").onclick = () => (own(plan.begin, plan.edits.slice(0, -1)), $("add").focus());
    $("see").onclick = see;
    $("open-it").onclick = () => open("your stream", made(plan, book, clips));
    $("the-words").onclick = () => (($("words").open = true), $("words").querySelector("summary").focus());
    showBoxes();
    showPlan(exercises[0]);
}
