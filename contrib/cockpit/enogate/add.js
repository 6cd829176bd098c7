// The section that adds devices: the learn window, and the senders that are not learned.

import { _, format } from "./cockpit.js";
import { button, byId, Rows, rowWithCells, setText } from "./dom.js";
import { LearnDialog } from "./learn.js";
import { MAX_UNKNOWN_SENDERS } from "./model.js";
import { setSignal } from "./readings.js";
import { compareTexts, Sorting } from "./sorting.js";
import { LearnWindowCard } from "./teach.js";
import * as words from "./words.js";

const MAX_SHOWN_ROWS = 100;

/** How two senders are sorted. The sender of the last packet comes first: whoever presses a button sees it on top. */
export const COLUMNS = new Map([
    ["received", ([, a], [, b]) => b.number - a.number],
    ["signal", ([, a], [, b]) => (b.best ?? -Infinity) - (a.best ?? -Infinity) || 0],
    ["count", ([, a], [, b]) => b.count - a.count],
    ["id", ([a], [b]) => compareTexts(a, b)],
]);

/** The senders whose ID, kind or profile has this text. */
export const matchingSenders = (unknown, text) => [...unknown].filter(([id, { rorg, eep }]) =>
    words.matchesSearch(text, id, words.kindText(rorg), words.profileWithKind(eep)));

export class AddSection {
    constructor(page) {
        this.page = page;
        this.dialog = new LearnDialog(page);
        this.teach = new LearnWindowCard(page);
        this.rows = new Rows(byId("unknown-rows"), id => new SenderRow(id, this.dialog));
        this.sorting = new Sorting(COLUMNS, byId("unknown-sort"), [], () => page.painter.paintNow());
    }

    leave() {
        this.teach.rows.clear();
    }

    clear() {
        this.teach.clear();
    }

    /** Shows the senders. Returns how many the search hides, if it hides all of them. */
    paint() {
        const { model, query } = this.page;
        this.teach.paint();
        const find = id => model.devices.has(id) ? undefined : model.unknown.get(id);
        const found = this.sorting.sorted(matchingSenders(model.unknown, query));
        this.rows.fill(found.slice(0, MAX_SHOWN_ROWS), find);
        setText(byId("unknown-note"), this.note(model));
        return found.length ? 0 : model.unknown.size;
    }

    note({ hasPackets, unknown, unknownLeftOut }) {
        if (!hasPackets)
            return words.NO_PACKETS;
        const notes = [_("Press a button of your device: it comes to the top.")];
        if (unknown.size > MAX_SHOWN_ROWS)
            notes.push(format(_("$0 of $1 senders are shown."), MAX_SHOWN_ROWS, unknown.size));
        const more = _("There were more than $0 senders; only the last $0 are kept.");
        if (unknownLeftOut)
            notes.push(format(more, MAX_UNKNOWN_SENDERS));
        return notes.join(" ");
    }
}

class SenderRow {
    constructor(id, dialog) {
        const [row, [idCell, kind, why, count, signal, age, action]] =
            rowWithCells("id mono", "kind", "why", "count", "signal", "age", "action");
        Object.assign(this, { element: row, kind, why, count, signal, age, sender: null });
        row.dataset.id = id;
        setText(idCell, id);
        action.append(button(_("Learn …"), () => dialog.open(id, this.sender)));
    }

    fill(sender) {
        this.sender = sender;
        setText(this.kind, words.kindText(sender.rorg));
        setText(this.why, words.reasonText(sender.why));
        setText(this.count, `${sender.count} ×`);
        setSignal(this.signal, sender.best);
        setText(this.age, words.ageText(sender.received, Date.now()));
    }
}
