// Small things that every view uses.
import { REASONS } from "./words.js";
import { goesOn } from "./calls.js";

export const $ = (id) => document.getElementById(id);

// An element with its properties and what stands in it.
export function make(name, properties = {}, ...children) {
    const element = Object.assign(document.createElement(name), properties);
    element.append(...children);
    return element;
}

export const fill = (element, ...children) => element.replaceChildren(...children);
export const option = (value, text) => make("option", { value, textContent: text });

// A list of choices out of { key: { name } }.
export const options = (entries) => Object.entries(entries).map(([key, { name }]) => option(key, name));

// A call's answer as a mark: a sign, a word and the number, so that no colour is needed to tell it.
export const signOf = (number) => (number === 0 ? "●" : goesOn(number) ? "▲" : "■");
export const colourOf = (number) => (number === 0 ? "sound" : number === 1 ? "end-1" : `refused-${REASONS[number] ? number : 8}`);

// A sign for the eye alone: a screen reader says the word behind it.
export const sign = (text) => make("span", { ariaHidden: "true" }, `${text} `);

export function chip(number) {
    const word = number === 0 ? "frame" : `${goesOn(number) ? "refused" : "end"} ${number}`;
    return make("span", { className: "chip", title: REASONS[number], style: `background: var(--${colourOf(number)})` }, sign(signOf(number)), word);
}

// Bytes that the page carries as text.
export const unpacked = (text) => Uint8Array.from(atob(text), (letter) => letter.charCodeAt(0));

// Hands a file to the person.
export function save(blob, name) {
    const link = make("a", { href: URL.createObjectURL(blob), download: name });
    link.click();
    setTimeout(() => URL.revokeObjectURL(link.href), 60000);
}

// Says what went wrong, where it cannot be missed. A browser's own words may end with a full stop, and need no second one.
export function trouble(words) {
    $("trouble").textContent = words.replace(/\.\.( |$)/, ".$1");
    $("trouble").hidden = !words;
}
