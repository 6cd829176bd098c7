// Makes and fills elements. Texts only become text nodes and attributes, so nothing that is received can become markup.

export const byId = id => document.getElementById(id);

/** An element with these properties and children; strings become text nodes. */
export function element(name, properties = {}, ...children) {
    const made = document.createElement(name);
    Object.assign(made, properties);
    made.append(...children);
    return made;
}

/** A button with this text. */
export function button(text, onClick) {
    const made = element("button", { type: "button" }, text);
    made.addEventListener("click", onClick);
    return made;
}

/** Sets the text of an element, if it is another one. */
export function setText(node, text) {
    if (node.textContent !== text)
        node.textContent = text;
}

/** Shows an element with this text, or hides it if the text is empty. */
export function showText(node, text) {
    node.hidden = text === "";
    setText(node, text);
}

/** The options of a list, each a value and a text. One without a value cannot be chosen. */
export function setOptions(select, options, selected) {
    select.replaceChildren(...options.map(([value, text]) =>
        element("option", { value, selected: value === selected, disabled: value === "" }, text)));
}

/** Calls this when Enter is pressed in a field, which would close its dialog otherwise. */
export function onEnter(field, act) {
    field.addEventListener("keydown", event => {
        if (event.key === "Enter") {
            event.preventDefault();
            act();
        }
    });
}

/** Lets the browser show why the value of a field is refused. Returns whether there is no such reason. */
export function acceptField(field, why) {
    field.setCustomValidity(why);
    return field.reportValidity();
}

/** Lets the browser save these bytes as a file with this name. */
export function saveFile(name, content) {
    const link = element("a", { download: name, href: URL.createObjectURL(new Blob([content])) });
    link.click();
    URL.revokeObjectURL(link.href);
}

// The pause between two repaints in ms.
const REPAINT_PAUSE = 250;

/**
 * Calls `paint` in the next frame, however often it is asked, and not again within a pause. A hidden page has no
 * frames, so it uses a timer.
 */
export class Painter {
    constructor(paint) {
        Object.assign(this, { paint, isWaiting: false, last: -Infinity, timer: null, frame: null });
    }

    /** The page has to be painted soon. */
    requestPaint() {
        if (this.isWaiting)
            return;
        this.isWaiting = true;
        const pause = Math.max(0, this.last + REPAINT_PAUSE - performance.now());
        this.timer = setTimeout(() => this.paintInNextFrame(), pause);
    }

    paintInNextFrame() {
        if (document.hidden)
            this.timer = setTimeout(() => this.paintNow(), REPAINT_PAUSE);
        else
            this.frame = requestAnimationFrame(() => this.paintNow());
    }

    /** Paints at once: somebody has clicked. A repaint that was asked for before is done with it. */
    paintNow() {
        clearTimeout(this.timer);
        cancelAnimationFrame(this.frame);
        this.isWaiting = false;
        this.last = performance.now();
        this.paint();
    }
}

/**
 * The rows of a list, each with a key. A row is made once and then filled again. While the pointer or the focus is
 * among them, no row moves or disappears: a click must mean the row that was there.
 */
export class Rows {
    /**
     * @param {Element} body
     * @param {function(string, Object): {element: Element, fill: function(Object): void}} make
     * @param {boolean} hasTargets - whether there is something to click in the rows
     */
    constructor(body, make, hasTargets = true) {
        Object.assign(this, { body, make, hasTargets, rows: new Map(), shown: [] });
    }

    isInUse() {
        if (!this.hasTargets)
            return false;
        // After a tap on a touch screen, `:hover` remains where the finger was.
        return this.body.matches(":hover") && !matchMedia("(pointer: coarse)").matches ||
            this.body.querySelector(":focus-visible") !== null;
    }

    /**
     * Shows these rows. A row that only remains because it is in use is marked as gone if `find` has no item for it.
     * @param {Array} entries - pairs of key and item
     * @param {function(string): ?Object} [find] - the item with a key, also if it is not in `entries`
     */
    fill(entries, find = null) {
        if (this.isInUse() && this.shown.length)
            entries = this.shownEntries(new Map(entries), find);
        this.shown = entries;
        const wanted = new Set(entries.map(([key]) => key));
        for (const [key, row] of this.rows) {
            if (!wanted.has(key)) {
                row.element.remove();
                this.rows.delete(key);
            }
        }
        let place = this.body.firstChild;
        for (const [key, item, isGone] of entries) {
            const row = this.rows.get(key) ?? this.make(key, item);
            this.rows.set(key, row);
            if (row.element === place)
                place = place.nextSibling;
            else
                this.body.insertBefore(row.element, place);
            row.element.classList.toggle("gone", isGone === true);
            row.fill(item);
        }
    }

    /** The rows that are shown, with their present items. */
    shownEntries(items, find) {
        return this.shown.map(([key, item]) => {
            const present = items.get(key) ?? (find ? find(key) : item);
            return [key, present ?? item, present === undefined];
        });
    }

    /** Removes all rows. */
    clear() {
        this.shown = [];
        this.fill([]);
    }
}

/** A row with a cell for each of these names, which are the classes of the cell. */
export function rowWithCells(...names) {
    const made = names.map(className => element("td", { className }));
    return [element("tr", {}, ...made), made];
}
