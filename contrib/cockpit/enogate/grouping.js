// Groups devices by the first word of their labels, such as the name of a room.

import { _ } from "./cockpit.js";

const NO_LABEL = _("Without a label");
const OTHERS = _("Other");
// Room 2.4 comes before room 2.14.
const collator = new Intl.Collator("en", { numeric: true, sensitivity: "base" });

/** The words of a label. Punctuation marks separate them, too: "Kitchen: window". */
const wordsOf = label => label.split(/[\s,:;/]+/).filter(Boolean);
const keyOf = label => (wordsOf(label)[0] ?? label).toLowerCase();

/**
 * The devices of a list with a heading before each group, whose key no device has. In a group they keep their order. A
 * label of a single word makes no group, unless another one of `all` devices has this word.
 */
export function withHeadings(entries, all) {
    const counts = new Map();
    for (const [, { label }] of all)
        counts.set(keyOf(label), 1 + (counts.get(keyOf(label)) ?? 0));
    const groups = new Map();
    for (const entry of entries) {
        const [word = entry[1].label, ...more] = wordsOf(entry[1].label);
        const isShared = more.length > 0 || counts.get(word.toLowerCase()) > 1;
        const [place, title] = !word ? [2, NO_LABEL] : isShared ? [0, word] : [1, OTHERS];
        const key = `group ${place} ${title.toLowerCase()}`;
        groups.set(key, groups.get(key) ?? { key, place, title, members: [] });
        groups.get(key).members.push(entry);
    }
    return [...groups.values()].sort((a, b) => a.place - b.place || collator.compare(a.title, b.title))
            .flatMap(({ key, title, members }) => [[key, { title, count: members.length }], ...members]);
}
