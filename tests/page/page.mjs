// A stand-in for the browser and for Cockpit: elements without markup, and processes that the test ends.

const elements = new Map();

/** An element. One with an ID appears when the page first looks for it. */
class Element {
    constructor(name = "") {
        Object.assign(this, { name, children: [], parent: null, text: "", dataset: {}, attributes: new Map(),
                              listeners: new Map(), hidden: false, disabled: false, open: false });
        const classes = new Set();
        this.classList = {
            contains: name => classes.has(name),
            toggle: (name, isSet) => isSet ? classes.add(name) : classes.delete(name),
        };
    }

    get textContent() {
        return this.text + this.children.map(({ textContent }) => textContent).join("");
    }

    set textContent(text) {
        this.replaceChildren();
        this.text = text;
    }

    /** What was entered. In a list, the selected option is chosen at first, otherwise the first one. */
    get value() {
        return this.entered ?? (this.children.find(({ selected }) => selected) ?? this.children[0])?.value ?? "";
    }

    set value(value) {
        this.entered = value;
    }

    get firstChild() {
        return this.children[0] ?? null;
    }

    get firstElementChild() {
        return this.firstChild;
    }

    get lastElementChild() {
        return this.children.at(-1) ?? null;
    }

    get parentElement() {
        return this.parent;
    }

    get nextSibling() {
        return this.parent.children[this.parent.children.indexOf(this) + 1] ?? null;
    }

    append(...children) {
        for (const child of children)
            this.insertBefore(typeof child === "string" ? Object.assign(new Element(), { text: child }) : child, null);
    }

    insertBefore(child, place) {
        child.remove();
        child.parent = this;
        this.children.splice(place ? this.children.indexOf(place) : this.children.length, 0, child);
    }

    remove() {
        if (this.parent)
            this.parent.children = this.parent.children.filter(child => child !== this);
        this.parent = null;
    }

    replaceChildren(...children) {
        this.children.forEach(child => { child.parent = null; });
        Object.assign(this, { children: [], text: "", entered: undefined });
        this.append(...children);
    }

    setAttribute(name, value) {
        this.attributes.set(name, value);
    }

    toggleAttribute(name, isSet) {
        if (isSet)
            this.attributes.set(name, "");
        else
            this.attributes.delete(name);
    }

    addEventListener(name, listener) {
        this.listeners.set(name, listener);
    }

    click() {
        this.listeners.get("click")({ target: this });
    }

    /** Somebody enters a value. */
    enterValue(value, event = "input") {
        this.value = value;
        this.listeners.get(event)({ target: this });
    }

    /** Somebody presses Enter in it. */
    enter() {
        this.listeners.get("keydown")({ key: "Enter", preventDefault: () => {} });
    }

    focus() {
        Element.focused = this;
    }

    scrollIntoView() {
        this.isScrolledTo = true;
    }

    showModal() {
        this.open = true;
    }

    close() {
        this.open = false;
    }

    setCustomValidity(why) {
        this.why = why;
    }

    reportValidity() {
        return !this.why;
    }

    matches() {
        return false;
    }

    querySelector() {
        return null;
    }

    /** The elements below it with these names, which are separated by commas. */
    querySelectorAll(names) {
        return this.children.flatMap(child =>
            [...names.split(", ").includes(child.name) ? [child] : [], ...child.querySelectorAll(names)]);
    }
}

/** The element that has got the focus last. */
export const focused = () => Element.focused;

/** The element with this ID. */
export function byId(id) {
    if (!elements.has(id))
        elements.set(id, new Element());
    return elements.get(id);
}

/** A process that was started, and that the test ends. */
export class Process {
    constructor(words, options) {
        Object.assign(this, { words, options });
        this.isClosed = false;
        this.promise = new Promise((resolve, reject) => Object.assign(this, { resolve, reject }));
    }

    stream(callback) {
        this.write = callback;
        return this;
    }

    then(done, failed) {
        return this.promise.then(done, failed);
    }

    close(problem) {
        this.isClosed = true;
        this.reject({ problem });
    }
}

/** `enogatectl --serve`, which starts a process for each requested command. The end of this process is the answer. */
class Serve extends Process {
    constructor(words, options) {
        super(words, options);
        Object.assign(this, { commands: new Map(), requests: "" });
    }

    input(text, hasMore) {
        this.requests += text;
        text.split("\n").filter(Boolean).map(JSON.parse).forEach(request => this.take(request));
        if (!hasMore)
            this.resolve("");
    }

    take({ id, arguments: words, stop }) {
        if (stop) {
            this.commands.get(id).isClosed = true;
            return;
        }
        const answer = members => this.write(`${JSON.stringify({ id, ...members })}\n`);
        const command = start(new Process(["enogatectl", ...words], this.options));
        command.then((output = "") => answer({ error: "", output, status: 0 }),
                     ({ message, status = 1 }) => answer({ error: `${message}\n`, output: "", status }));
        this.commands.set(id, command);
    }
}

export const processes = [];
/**
 * What a process prints before it ends; null if it does not end by itself, and an Error if it fails. What happens when
 * a file is written, and what is read from it. The test sets them.
 */
export const machine = {
    outputOf: () => null, writeFile: async () => {}, readFile: async () => "SERIAL=/dev/enocean\nBASE=ff800000\n",
};

function start(process) {
    processes.push(process);
    const output = process instanceof Serve ? null : machine.outputOf(process.words);
    if (output !== null) {
        setImmediate(() => {
            if (output instanceof Error)
                return process.reject(output);
            process.write?.(output);
            process.resolve(output);
        });
    }
    return process;
}

const spawn = (words, options) => start(new (words[1] === "--serve" ? Serve : Process)(words, options));

/** The processes that were started with a command that begins with these words. */
export const started = (...words) =>
    processes.filter(process => words.every((word, index) => process.words[index] === word));

/** Lets everything happen that waits for nothing but processes and promises. */
export async function settle() {
    for (let number = 0; number < 20; number++)
        await new Promise(resolve => setImmediate(resolve));
}

/** Whether the user is an administrator. The test calls `changed` after a change. */
export const permission = {
    allowed: true,
    addEventListener: (_, listener) => { permission.changed = listener; },
};

/** The pages of Cockpit that the page has opened. */
export const jumps = [];
/** What somebody has done with the window: it has an address, and listeners of events. */
export const view = {
    listeners: new Map(),
    open: hash => {
        location.hash = hash;
        view.listeners.get("hashchange")();
    },
};

const translations = new Map();
const translation = (id, form) => translations.get(id)?.[form];
/** The messages of Cockpit, as its base1/cockpit.js translates them. */
const messages = {
    language: "en",
    locale: ({ "": { language, "plural-forms": formOf }, ...texts }) => {
        Object.assign(window.cockpit, { language, formOf });
        Object.entries(texts).forEach(([id, forms]) => translations.set(id, forms));
    },
    gettext: id => translation(id, 1) || id,
    ngettext: (id, many, count) => translation(id, 1 + Number(window.cockpit.formOf?.(count))) ||
        (count === 1 ? id : many),
    format: (message, ...values) => message.replace(/\$([0-9])/g, (_, index) => values[index] || values[index] === 0
        ? String(values[index]) : ""),
    noop: id => id,
    translate: () => {},
};

globalThis.window = {
    cockpit: {
        ...messages,
        spawn,
        file: (path, options) => ({
            read: () => machine.readFile(path, options),
            replace: (text, tag) => machine.writeFile(path, options, text, tag),
        }),
        permission: () => permission,
        jump: path => jumps.push(path),
    },
};
globalThis.document = {
    hidden: false,
    documentElement: new Element(),
    getElementById: byId,
    createElement: name => new Element(name),
    createElementNS: (_, name) => new Element(name),
    querySelectorAll: () => [],
};
/** A store of the browser. */
function storage() {
    const values = new Map();
    return { getItem: key => values.get(key) ?? null, setItem: (key, value) => values.set(key, value) };
}
globalThis.localStorage = storage();
globalThis.sessionStorage = storage();
globalThis.location = { hash: "" };
globalThis.addEventListener = (name, listener) => view.listeners.set(name, listener);
globalThis.matchMedia = () => ({ matches: false });
globalThis.scrollTo = () => {};
globalThis.requestAnimationFrame = frame => setTimeout(frame, 16);
globalThis.cancelAnimationFrame = clearTimeout;
