import assert from "node:assert/strict";
import { beforeEach, mock, test } from "node:test";

import { Painter } from "../../contrib/cockpit/enogate/dom.js";

let now = 0;
let frames = [];
const page = { hidden: false };
Object.defineProperty(globalThis, "performance", { value: { now: () => now }, configurable: true });
globalThis.document = page;
const requestFrame = frame => frames.push(frame);
globalThis.requestAnimationFrame = requestFrame;
globalThis.cancelAnimationFrame = number => { frames[number - 1] = () => {}; };

/** A painter, and when it has painted. */
function painter() {
    const times = [];
    return { made: new Painter(() => times.push(now)), times };
}

/** Lets so many ms pass. In each one, `act` is called, and there is a frame. */
function pass(milliseconds, act = () => {}) {
    for (const end = now + milliseconds; now < end;) {
        act();
        now++;
        mock.timers.tick(1);
        frames.splice(0).forEach(frame => frame());
    }
}

beforeEach(() => {
    now = 1000;
    frames = [];
    page.hidden = false;
    mock.timers.reset();
    mock.timers.enable({ apis: ["setTimeout"] });
});

test("a page that is always asked to repaint does so four times a second", () => {
    const { made, times } = painter();
    pass(10000, () => made.requestPaint());
    const pauses = times.slice(1).map((time, index) => time - times[index]);
    assert.equal(times[0], 1001);
    assert.ok(Math.min(...pauses) >= 250, pauses.join());
    assert.ok(Math.max(...pauses) <= 252, pauses.join());
});

test("after a quiet time it repaints in the next frame, once", () => {
    const { made, times } = painter();
    pass(1, () => [1, 2, 3].forEach(() => made.requestPaint()));
    pass(5000);
    pass(1, () => made.requestPaint());
    pass(5000);
    assert.deepEqual(times, [1001, 6002]);
});

test("a click repaints at once, and the next repaint waits", () => {
    const { made, times } = painter();
    pass(1, () => made.requestPaint());
    pass(9);
    made.paintNow();
    made.requestPaint();
    pass(1000);
    assert.deepEqual(times.slice(0, 2), [1001, 1010]);
    assert.equal(times.length, 3);
    assert.ok(times[2] >= 1260 && times[2] <= 1262, times.join());
});

test("clicks while a repaint is due do not make more repaints after them", () => {
    const { made, times } = painter();
    for (const isHidden of [false, true, false]) {
        page.hidden = isHidden;
        for (let click = 0; click < 20; click++) {
            pass(37, () => made.requestPaint());
            made.paintNow();
        }
        made.requestPaint();
        mock.timers.tick(250);
        made.paintNow();
    }
    const clicked = times.length;
    pass(1000);
    assert.equal(times.length, clicked);
    pass(10000, () => made.requestPaint());
    assert.ok(times.length - clicked <= 40, `${times.length - clicked} repaints in ten seconds`);
    const pauses = times.slice(clicked + 1).map((time, index) => time - times[clicked + index]);
    assert.ok(Math.min(...pauses) >= 250, pauses.join());
});

test("a hidden page, which has no frames, repaints", () => {
    const { made, times } = painter();
    page.hidden = true;
    globalThis.requestAnimationFrame = assert.fail;
    pass(2000, () => made.requestPaint());
    globalThis.requestAnimationFrame = requestFrame;
    assert.ok(times.length >= 3 && times.length <= 4, times.join());
});
