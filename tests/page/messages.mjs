// The messages of the page, as its files have them.

import { readdirSync, readFileSync } from "node:fs";

const ROOT = new URL("../../contrib/", import.meta.url);
const PAGE = new URL("cockpit/enogate/", ROOT);
const text = path => readFileSync(path, "utf8");

/** The modules that have words, by their names. */
export const MODULES = new Map(readdirSync(PAGE).filter(name => /^[a-z]+\.js$/.test(name) && name !== "tables.js")
        .map(name => [name, text(new URL(name, PAGE))]));

const STRING = String.raw`"(?:[^"\\]|\\.)*"`;
const TEXT = String.raw`${STRING}(?:\s*\+\s*${STRING})*`;
const MESSAGE = new RegExp(String.raw`(?<![\w$.])N?_\(\s*(${TEXT})\s*\)`, "g");
const PLURAL = new RegExp(String.raw`(?<![\w$.])ngettext\(\s*(${TEXT}),\s*(${TEXT}),`, "g");
const valueOf = literals => [...literals.matchAll(new RegExp(STRING, "g"))].map(([one]) => JSON.parse(one)).join("");

/** The messages of a module: of each its forms. */
export const messagesIn = code => [MESSAGE, PLURAL].flatMap(pattern =>
    [...code.matchAll(pattern)].map(([, ...forms]) => forms.map(valueOf)));

const COMMENT = /\/\*[^]*?\*\/|^\s*\/\/.*$/gm;
const REGULAR_EXPRESSION = /(?<=[(,=] ?)\/(?:[^/\n\\[]|\\.|\[[^\]\n]*\])+\/[a-z]*/g;
// Texts that only code reads: classes, selectors, and what a value is compared with.
const INTERNAL = new RegExp([String.raw`className: (?:\w+ \? )?${STRING}`, String.raw`[!=]== ${STRING}`,
                             String.raw`(?:rowWithCells|querySelectorAll|matchMedia)\((?:${STRING}(?:,\s*)?)*\)`]
        .join("|"), "g");
const ANY_TEXT = new RegExp(`${STRING}|\`(?:[^\`\\\\]|\\\\.)*\``, "g");

/** The texts of a module that are no messages, without the parts of templates that are computed. */
export function otherTextsIn(code) {
    const rest = [COMMENT, REGULAR_EXPRESSION, MESSAGE, PLURAL, INTERNAL, /^import .*$/gm]
            .reduce((left, pattern) => left.replace(pattern, ""), code);
    return [...rest.matchAll(ANY_TEXT)].map(([one]) => one.slice(1, -1).replace(/\$\{(?:[^{}]|\{[^{}]*\})*\}/g, ""));
}

/** The elements of a page: each with its attributes, and the text directly in it. */
function elementsOf(html) {
    const [elements, open] = [[], [{ text: "" }]];
    for (const [, end, name, attributes = "", between] of html.matchAll(/<(\/?)([a-z0-9]+)([^>]*)>|([^<]+)/g)) {
        if (between !== undefined) {
            open.at(-1).text += between;
        } else if (end) {
            open.pop();
        } else {
            const members = new Map([...attributes.matchAll(/([a-z-]+)(?:="([^"]*)")?/g)].map(([, key, value]) =>
                [key, value ?? ""]));
            const made = { name, members, text: "", hasChildren: false };
            open.at(-1).hasChildren = true;
            elements.push(made);
            if (!["meta", "link", "input"].includes(name))
                open.push(made);
        }
    }
    return elements;
}

const SHOWN_ATTRIBUTES = ["placeholder", "title", "aria-label"];
const HTML = elementsOf(text(new URL("index.html", PAGE)).replace("<!DOCTYPE html>", ""));
const translated = ({ members }) => (members.get("translate") ?? "no").split(" ");

/** The messages of index.html. */
export const htmlMessages = HTML.flatMap(one => translated(one).filter(part => part !== "no")
        .map(part => part === "" ? one.text : one.members.get(part)));

/** The texts and attributes of index.html that are shown, but not translated, or not as Cockpit does it. */
export const untranslatedHtml = HTML.flatMap(one => [
    ...translated(one).includes("") ? one.hasChildren ? [one.text] : [] : [one.text.trim()],
    ...SHOWN_ATTRIBUTES.filter(key => one.members.has(key) && !translated(one).includes(key))
            .map(key => one.members.get(key)),
]).filter(one => /[a-z]/i.test(one));

/** The label of the page in the menu of Cockpit, and the words that find it there. */
export function manifestMessages() {
    const { label, keywords } = JSON.parse(text(new URL("manifest.json", PAGE))).menu.index;
    return [label, ...keywords.flatMap(({ matches }) => matches)];
}

/** The words that a reading can have: those of the tables, and those of the oracle of the tests. */
export function readingWords() {
    const entities = [...text(new URL("share/entities", ROOT)).matchAll(/\b(?:on|off|types|options|normal)=(\S+)/g)]
            .flatMap(([, words]) => words.split("|"));
    const oracle = text(new URL("../tests/oracle/profiles.py", ROOT));
    const decoders = [...oracle.matchAll(/(?:word_table|threshold|percent)_decoder\((.*?)\)/g)]
            .flatMap(([, given]) => [...given.matchAll(/"([^"]+)"/g)].map(([, word]) => word));
    // A rocker and its side have a name, such as AI or B0.
    return [...entities, ...decoders].filter(word => /^[a-z_]+$/.test(word));
}
