// The order of a list, which a field changes, and the headings of its columns if it has some.

export const compareTexts = (a, b) => a < b ? -1 : a > b ? 1 : 0;

export class Sorting {
    /**
     * @param {Map<string, function(Array, Array): number>} columns - how two entries are sorted by each column
     * @param {HTMLSelectElement} field - with the columns as its values
     * @param {Iterable<Element>} headings - each with the name of its column, and a button
     * @param {function(): void} onChange
     * @param {string[]} still - columns whose values change often: entries remain where they are
     */
    constructor(columns, field, headings, onChange, still = []) {
        Object.assign(this, { columns, field, headings: [...headings], onChange, still, column: null });
        field.addEventListener("change", () => this.sortBy(field.value));
        for (const heading of this.headings)
            heading.firstElementChild.addEventListener("click", () => this.sortBy(heading.dataset.column));
        this.setColumn(columns.keys().next().value, false);
    }

    /** Sorts by a column; a second time in the other direction. */
    sortBy(column) {
        this.setColumn(column, column === this.column && !this.isReverse);
        this.onChange();
    }

    setColumn(column, isReverse) {
        Object.assign(this, { column, isReverse, places: new Map() });
        this.field.value = column;
        for (const heading of this.headings) {
            const direction = isReverse ? "descending" : "ascending";
            heading.setAttribute("aria-sort", heading.dataset.column === column ? direction : "none");
        }
    }

    /** These entries in this order. The keys decide between items that are equal. */
    sorted(entries) {
        const { columns, column, isReverse, places } = this;
        const [order, sign] = [columns.get(column), isReverse ? -1 : 1];
        const hasSame = entries.length === places.size && entries.every(([key]) => places.has(key));
        const sorted = entries.sort((a, b) => hasSame ? places.get(a[0]) - places.get(b[0])
            : sign * order(a, b) || compareTexts(a[0], b[0]));
        if (this.still.includes(column))
            this.places = new Map(sorted.map(([key], place) => [key, place]));
        return sorted;
    }
}
