import assert from "node:assert/strict";
import { beforeEach, mock, test } from "node:test";

import { processes, settle, started } from "./page.mjs";
import { LIST, OK } from "./samples.mjs";

const { Feed } = await import("../../contrib/cockpit/enogate/feed.js");

const PATH = "/var/log/enogate/hall.lines";
const LINES = ["enogatectl", "hall", "lines"];
const line = members => `${JSON.stringify(members)}\n`;
const OK_LINE = line(OK);
const last = () => processes.at(-1);
const write = text => last().write(text);

/** A feed whose lines may be read; `lines` and `states` are what it reports. */
async function feed() {
    const found = { lines: [], states: [] };
    found.feed = new Feed("hall", (members, now) => found.lines.push([members, now]),
                          (state, why) => found.states.push(why ? [state, why] : state));
    last().resolve();
    await settle();
    return found;
}

/** Two seconds later the feed tries again, and the file may be read. */
async function tryAgain() {
    await settle();
    mock.timers.tick(2000);
    last().resolve();
    await settle();
}

beforeEach(() => {
    processes.length = 0;
    mock.timers.reset();
    mock.timers.enable({ apis: ["setTimeout", "Date"], now: 1000 });
});

test("nothing opens the file but enogatectl, which follows no link and waits for no pipe", async () => {
    const { states } = await feed();
    assert.deepEqual(processes.map(({ words }) => words), [["test", "-r", PATH], LINES]);
    assert.deepEqual(processes.map(({ options }) => options.superuser), ["try", "try"]);
    assert.deepEqual(states, ["reading"]);
});

test("the lines before the empty one are earlier ones, however slowly they arrive", async () => {
    const { lines, states } = await feed();
    write(OK_LINE.slice(0, 5));
    mock.timers.tick(60000);
    write(`${OK_LINE.slice(5)}${line(LIST)}`);
    mock.timers.tick(500);
    assert.deepEqual(states, ["reading"]);
    write(`\n${OK_LINE}`);
    write(line(LIST));
    assert.deepEqual(states, ["reading", "live"]);
    assert.deepEqual(lines, [[OK, null], [LIST, null], [OK, 61500], [LIST, 61500]]);
});

test("a line may come in several pieces, and a malformed one is dropped", async () => {
    const { lines, states } = await feed();
    for (const piece of ["\n{\"type\":", "\"ok\"}", "\n{\"torn\nnull\n\n\n", line(LIST)])
        write(piece);
    assert.deepEqual([lines.map(([members]) => members), states], [[OK, LIST], ["reading", "live"]]);
});

test("a line without an end does not fill the memory", async () => {
    const found = await feed();
    for (let number = 0; number < 50; number++)
        write("x".repeat(100000));
    assert.ok(found.feed.rest.length <= 1 << 16);
    write(`\n${OK_LINE}`);
    assert.deepEqual(found.lines.map(([members]) => members), [OK]);
});

test("a file that cannot be read is tried again", async () => {
    const { states } = await feed();
    processes.length = 0;
    states.length = 0;
    new Feed("hall", () => {}, (state, why) => states.push([state, why]));
    last().reject({ exit_status: 1 });
    await settle();
    assert.equal(states[0][0], "lost");
    assert.match(states[0][1], /hall\.lines is missing, or you may not read it/);
    assert.equal(processes.length, 1);
    await tryAgain();
    assert.deepEqual([last().words, states[1][0]], [LINES, "reading"]);
    last().reject({ exit_status: 1, message: `enogatectl: the lines ${PATH} cannot be read: it is a symbolic link\n` });
    await settle();
    assert.deepEqual(states[2], ["lost", `the lines ${PATH} cannot be read: it is a symbolic link`]);
});

test("if enogatectl ends, only new lines are taken after that", async () => {
    const { lines, states } = await feed();
    write(`${OK_LINE}\n`);
    for (const [end, why] of [[() => last().reject({ message: "it is killed" }), "it is killed"],
                              [() => last().resolve(), "The lines cannot be followed: enogatectl has ended."]]) {
        states.length = lines.length = 0;
        end();
        await tryAgain();
        write(`${OK_LINE}${line(LIST)}`);
        write(`\n${line(LIST)}`);
        assert.deepEqual([states, lines], [[["lost", why], "live"], [[LIST, Date.now()]]]);
    }
});

test("if enogatectl ends before all earlier lines have come, they are read again", async () => {
    const { lines } = await feed();
    last().resolve();
    await tryAgain();
    write(`${OK_LINE}\n`);
    assert.deepEqual(lines, [[OK, null]]);
});

test("a feed that is stopped starts nothing more", async () => {
    const { feed: stopped, states } = await feed();
    stopped.stop();
    await settle();
    mock.timers.tick(10000);
    assert.ok(last().isClosed);
    assert.equal(processes.length, 2);
    assert.deepEqual(states, ["reading"]);
});

test("a feed that is stopped while the file is checked, or before the next try, starts nothing more", async () => {
    const found = new Feed("hall", () => {}, () => assert.fail());
    found.stop();
    await settle();
    mock.timers.tick(10000);
    assert.equal(processes.length, 1);
    const checked = new Feed("hall", () => {}, () => assert.fail());
    last().resolve();
    checked.stop();
    await settle();
    assert.equal(started("enogatectl").length, 0);
    const { feed: lost } = await feed();
    last().resolve();
    await settle();
    lost.stop();
    mock.timers.tick(10000);
    assert.equal(started("test").length, 3);
});
