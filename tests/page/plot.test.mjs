import assert from "node:assert/strict";
import { test } from "node:test";

import { HEIGHT, points, WIDTH } from "../../contrib/cockpit/enogate/plot.js";

test("time goes to the right, and the greatest number is on top", () => {
    assert.equal(points([[0, 10], [1000, 20], [4000, 15]]), `2,16 21,2 78,9`);
});

test("equal numbers are in the middle, and so is a single time", () => {
    assert.equal(points([[0, 5], [1000, 5]]), `2,${HEIGHT / 2} 78,${HEIGHT / 2}`);
    assert.equal(points([[7, 5]]), `${WIDTH / 2},${HEIGHT / 2}`);
});
