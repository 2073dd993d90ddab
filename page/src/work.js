// The page's side of the worker: a question, its answer, how far it is, and a word to stop.
import { $, unpacked } from "./dom.js";

const waiting = new Map();
const long = new Set(); // jobs whose progress is shown
let worker, asked = 0;

export function startWorker() {
    worker = new Worker(URL.createObjectURL(new Blob([$("worker").textContent], { type: "text/javascript" })));
    worker.onmessage = ({ data }) => {
        const { answer, fail, told } = waiting.get(data.id);
        if ("share" in data) return told?.(data.share);
        waiting.delete(data.id);
        if ("failed" in data) fail(new Error(data.failed));
        else answer(data.done);
    };
    worker.onerror = ({ message }) => waiting.forEach(({ fail }) => fail(new Error(message)));
    return ask("begin", { bytes: unpacked($("decoder").textContent) });
}

// Asks for a job. The promise has its number, by which it can be cancelled.
export function ask(job, words, told) {
    const id = ++asked, promise = new Promise((answer, fail) => waiting.set(id, { answer, fail, told }));
    worker.postMessage({ id, job, ...words });
    return Object.assign(promise, { id });
}

// A job that may take long: its progress is shown, and it can be cancelled. Undefined where it was.
export async function askLong(job, words) {
    const asking = ask(job, words, (share) => {
        $("working").hidden = false;
        $("progress").value = share;
    });
    long.add(asking.id);
    try {
        return await asking;
    } catch (problem) {
        if (problem.message !== "cancelled") throw problem;
    } finally {
        long.delete(asking.id);
        if (!long.size) $("working").hidden = true;
    }
}

export const cancel = () => long.forEach((id) => worker.postMessage({ cancel: id }));
