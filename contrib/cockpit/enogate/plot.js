// A small plot of the numbers of a reading.

const SVG = "http://www.w3.org/2000/svg";
export const WIDTH = 80;
export const HEIGHT = 18;
const MARGIN = 2;

/** The points of the line, as SVG writes them: the time goes to the right, the greatest number is on top. */
export function points(values) {
    const times = values.map(([time]) => time);
    const numbers = values.map(([, number]) => number);
    const x = scale(Math.min(...times), Math.max(...times), MARGIN, WIDTH - MARGIN);
    const y = scale(Math.min(...numbers), Math.max(...numbers), HEIGHT - MARGIN, MARGIN);
    return values.map(([time, number]) => `${x(time)},${y(number)}`).join(" ");
}

function scale(least, greatest, from, to) {
    const span = greatest - least;
    return number => Math.round(10 * (span > 0 ? from + (number - least) / span * (to - from) : (from + to) / 2)) / 10;
}

/** A plot that can be filled again. */
export class Plot {
    constructor() {
        this.element = document.createElementNS(SVG, "svg");
        this.line = document.createElementNS(SVG, "polyline");
        this.title = document.createElementNS(SVG, "title");
        this.element.setAttribute("viewBox", `0 0 ${WIDTH} ${HEIGHT}`);
        this.element.setAttribute("class", "plot");
        this.element.setAttribute("role", "img");
        this.element.append(this.title, this.line);
        this.last = null;
    }

    /** Draws these pairs of time and number. A plot needs two of them. */
    fill(values, text) {
        const last = values[values.length - 1];
        if (last === this.last)
            return;
        this.last = last;
        this.element.toggleAttribute("hidden", values.length < 2);
        this.line.setAttribute("points", points(values));
        this.title.textContent = text;
    }
}
