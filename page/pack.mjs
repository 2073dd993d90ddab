// node page/pack.mjs WASM OUT: packs the sources of the page, the decoder and the clips into one file.
import fs from "node:fs";
import path from "node:path";
import vm from "node:vm";

const [wasm, out] = process.argv.slice(2), house = path.resolve(import.meta.dirname ?? path.dirname(new URL(import.meta.url).pathname), "..");
const source = (name) => fs.readFileSync(path.join(house, "page/src", name), "utf8");
const MOST = 24 * 1024; // bytes of the decoder
// The page's rule for the browser: no connection. It stands in the head as it stands here, whole and on a line of its own.
const POLICY = `<meta http-equiv="Content-Security-Policy" content="default-src 'none'; script-src 'unsafe-inline' 'wasm-unsafe-eval'; ` +
    `worker-src blob:; style-src 'unsafe-inline'; img-src data:; form-action 'none'; base-uri 'none'">`;
const CALLS = ["tag_decode", "tag_format", "tag_open", "tag_samples16"];

function refuse(words) {
    console.error(words);
    process.exit(1);
}

// The decoder, if it is what was thought of: nothing from outside, the four calls, its memory, and where that is free.
function decoder() {
    const bytes = fs.readFileSync(wasm), module = new WebAssembly.Module(bytes);
    const names = (list) => list.map(({ name, kind }) => `${kind} ${name}`).sort().join(", ");
    const wanted = ["global __heap_base", "memory memory", ...CALLS.map((name) => `function ${name}`)].sort().join(", ");
    if (WebAssembly.Module.imports(module).length) refuse(`the module asks for ${names(WebAssembly.Module.imports(module))}`);
    if (names(WebAssembly.Module.exports(module)) !== wanted) refuse(`the module has ${names(WebAssembly.Module.exports(module))}, and not ${wanted}`);
    if (bytes.length > MOST) refuse(`the module has ${bytes.length} bytes, more than ${MOST}`);
    return bytes.toString("base64");
}

// What a module exports, and the lines by which it imports. Only these two forms are packed.
const exported = (text) => [...text.matchAll(/^export (?:async )?(?:const|class|function) ([\w$]+)/gm)].map((found) => found[1]);
const imported = (text) => [...text.matchAll(/^import { (.*) } from "\.\/(\w+)\.js";$/gm)].map(([line, names, file]) => ({ line, names, file }));

function checked(name, text) {
    const forms = text.match(/^(import|export)\b/gm)?.length ?? 0;
    if (forms !== exported(text).length + imported(text).length) refuse(`${name}.js imports or exports in a way that is not packed`);
    for (const { names, file } of imported(text)) {
        const missing = names.split(", ").filter((each) => !exported(source(`${file}.js`)).includes(each));
        if (missing.length) refuse(`${name}.js imports ${missing} from ${file}.js, which has no such name`);
    }
}

// A module behind all that it imports, each once. A module becomes a function that gives what it exports.
function bundle(name, done = new Set(), open = []) {
    if (open.includes(name)) refuse(`modules in a circle: ${[...open, name].join(" imports ")}`);
    if (done.has(name)) return "";
    done.add(name);
    const text = source(`${name}.js`);
    checked(name, text);
    const before = imported(text).map(({ file }) => bundle(file, done, [...open, name])).join("");
    const own = imported(text).reduce((rest, { line, names, file }) => rest.replace(line, () => `const { ${names} } = in_${file};`), text);
    return `${before}const in_${name} = (() => {\n${own.replace(/^export /gm, "")}return { ${exported(text).join(", ")} };\n})();\n`;
}

function script(name) {
    const text = `"use strict";\n${bundle(name)}`;
    if (/<\/script|<!--/i.test(text)) refuse(`${name} has what cannot stand in a script`);
    new vm.Script(text, { filename: name });
    return text.trim();
}

// Words in JSON, where no "<" may stand as it is: it could end the script that holds them.
const data = (value) => JSON.stringify(value).replaceAll("<", "\\u003c");
const read = (name) => JSON.parse(fs.readFileSync(path.join(house, "page", name), "utf8"));
const clips = read("clips.json").map(({ from, ...clip }) => (from ? { ...clip, bytes: fs.readFileSync(path.join(house, from)).toString("base64") } : clip));
const parts = {
    STYLE: source("page.css").trim(), DECODER: decoder(), CLIPS: data(clips), EXERCISES: data(read("exercises.json")),
    WORKER: script("worker"), PAGE: script("main"),
    NOTICE: fs.readFileSync(path.join(house, "NOTICE"), "utf8").replaceAll("&", "&amp;").replaceAll("<", "&lt;").trim(),
};
const page = source("page.html").replace(/\/\*([A-Z]+)\*\//g, (_, name) => parts[name] ?? refuse(`nothing stands for ${name}`));

// What would ask for something from outside: markup, an address, a script's call, and what the rule cannot refuse, another page.
const OUTSIDE = [
    /\b(src|srcset|poster|ping|action|formaction)\s*=|\bdata\s*=\s*["']|\bhref\s*=(?!"data:)|http-equiv\s*=\s*["']?refresh/i,
    /\b(https?|wss?):|["'`(]\/\/|@import|(?<!object)url\(|image-set\(/i,
    /\b(import|fetch|importScripts|sendBeacon)\s*\(|\b(XMLHttpRequest|WebSocket|EventSource|WebTransport|RTCPeerConnection)\b/,
    /\blocation\s*=|\blocation\.(href|assign|replace)\b|\bwindow\.open\b/,
];
// The decoder and the clips' bytes are no words, and NOTICE names a place without asking for it.
const words = [source("page.html"), parts.STYLE, data(read("clips.json")), parts.EXERCISES, parts.WORKER, parts.PAGE].join("\n");
const found = OUTSIDE.map((pattern) => words.match(pattern)?.[0]).find(Boolean);
if (found) refuse(`the page asks for something from outside: ${found}`);
if (!source("page.html").split("<style>")[0].split("\n").includes(POLICY)) refuse("the page does not tell the browser to refuse every connection");
fs.writeFileSync(out, page);
console.log(`${path.relative(house, out)}: ${page.length} characters, the decoder's ${fs.statSync(wasm).size} bytes among them`);
