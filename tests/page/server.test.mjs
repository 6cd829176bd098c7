import assert from "node:assert/strict";
import { beforeEach, test } from "node:test";

import { processes, settle, started } from "./page.mjs";
import { failureText } from "../../contrib/cockpit/enogate/orders.js";
import { HOSTILE } from "./samples.mjs";

const { CommandServer } = await import("../../contrib/cockpit/enogate/server.js");

const ENDED = /^enogatectl has ended, and may not have carried out the order: /;
const command = word => ["enogatectl", "hall", word];
const line = members => `${JSON.stringify({ error: "", output: "", status: 0, ...members })}\n`;
const all = () => started("enogatectl", "--serve");
const last = () => all().at(-1);
const requests = () => last().requests.trimEnd().split("\n").map(JSON.parse);

/** Runs a command for each of these words. `ends` has the output or the error of each command that has ended. */
function running(...words) {
    const server = new CommandServer("require");
    const ends = {};
    const run = word => {
        const ended = server.run(command(word));
        ended.then(output => { ends[word] = output; }, error => { ends[word] = error; });
        return ended;
    };
    return { ends, run, commands: words.map(run), server };
}

beforeEach(() => {
    processes.length = 0;
});

test("the process is started with the first command, once, and with the rights of its server", () => {
    const { run } = running();
    assert.equal(all().length, 0);
    run("list");
    run("base");
    assert.deepEqual(all().map(({ words, options }) => [words, options]),
                     [[["enogatectl", "--serve"], { superuser: "require", err: "message" }]]);
    assert.deepEqual(requests(), [{ id: 1, arguments: ["hall", "list"] }, { id: 2, arguments: ["hall", "base"] }]);
    new CommandServer(null).run(command("list"));
    assert.deepEqual(last().options, { superuser: null, err: "message" });
});

test("a request is one line of ASCII, and has each text as it is", () => {
    const server = new CommandServer("require");
    const words = [...HOSTILE, "Tür 😀"];
    server.run(["enogatectl", ...words]);
    assert.match(last().requests, /^[ -~]+\n$/);
    assert.deepEqual(requests(), [{ id: 1, arguments: words }]);
});

test("a command has an output, or an error that can be explained", async () => {
    const { ends } = running("list", "label", "learn");
    const [list, label, learn] = started("enogatectl", "hall");
    list.resolve("lines\n");
    label.reject({ message: "usage\nenogatectl: why", status: 2 });
    learn.reject({ message: "", status: 137 });
    await settle();
    assert.equal(ends.list, "lines\n");
    assert.deepEqual(ends.label, { exit_status: 2, message: "usage\nenogatectl: why", problem: null });
    assert.equal(failureText(ends.label), "why");
    assert.equal(failureText(ends.learn), "enogatectl exited with status 137");
});

test("answers come in any order", async () => {
    const { ends } = running("a", "b", "c");
    last().write(line({ id: 3, output: "3" }));
    await settle();
    assert.deepEqual(ends, { c: "3" });
    last().write(line({ id: 1, output: "1" }) + line({ id: 2, output: "2" }));
    await settle();
    assert.deepEqual(ends, { a: "1", b: "2", c: "3" });
});

test("an answer may come in several parts, and be long", async () => {
    const { ends } = running("list", "base");
    const output = `${"x".repeat(149)}\n`.repeat(1000);
    const text = line({ id: 1, output }) + line({ id: 2, output: "FF800000\n" });
    for (let start = 0; start < text.length; start += 4099) {
        await settle();
        assert.deepEqual(Object.keys(ends), []);
        last().write(text.slice(start, start + 4099));
    }
    await settle();
    assert.deepEqual(ends, { list: output, base: "FF800000\n" });
});

test("a line that is no answer is ignored, and so is a second answer", async () => {
    const { ends } = running("a", "b");
    const wrong = ["", "x", "{", "null", "1", "[]", "{}", '{"id":1}', '"id"',
                   '{"error":"","id":1,"output":"","status":"0"}', '{"error":"","id":1,"output":null,"status":0}',
                   '{"error":null,"id":1,"output":"","status":0}'];
    for (const id of [0, 3, "1", "__proto__", null])
        wrong.push(line({ id, output: "wrong" }).trim());
    last().write(`${wrong.join("\n")}\n${line({ id: 2, output: "2" })}`);
    last().write(line({ id: 2, output: "wrong" }));
    await settle();
    assert.deepEqual(ends, { b: "2" });
    last().write(line({ id: 1, output: "1" }));
    await settle();
    assert.deepEqual(ends, { a: "1", b: "2" });
});

for (const [error, text] of [
    [{ problem: "access-denied", message: "Not permitted" }, /^You have no administrative access: /],
    [{ problem: "not-found", message: "Not found" }, /^The command enogatectl is not installed: /],
    [{ problem: null, exit_status: 2, message: "usage\nenogatectl: not a request" }, /^not a request$/],
    [{ problem: null, exit_signal: "KILL", message: "" }, ENDED],
]) {
    test(`open commands fail if the process ends, and the next one starts it again: ${text}`, async () => {
        const { ends, run } = running("a", "b", "c");
        last().write(line({ id: 2, output: "2" }) + '{"error":');
        last().reject(error);
        await settle();
        assert.deepEqual([ends.b, failureText(ends.a)], ["2", failureText(ends.c)]);
        assert.match(failureText(ends.a), text);
        run("d");
        assert.equal(all().length, 2);
        assert.deepEqual(requests(), [{ id: 4, arguments: ["hall", "d"] }]);
        last().write(line({ id: 4, output: "4" }) + line({ id: 1, output: "wrong" }));
        await settle();
        assert.match(failureText(ends.a), text);
        assert.equal(ends.d, "4");
    });
}

test("a command that is requested while the process ends fails, too", async () => {
    const { ends, run } = running("a");
    last().reject({ problem: "terminated", message: "terminated" });
    run("b");
    await settle();
    assert.deepEqual([all().length, failureText(ends.a), failureText(ends.b)], [1, "terminated", "terminated"]);
});

test("a process that ends without an error fails the open commands", async () => {
    const { ends } = running("a");
    last().resolve("");
    await settle();
    assert.match(failureText(ends.a), ENDED);
});

test("a command that is stopped has ended once its answer comes", async () => {
    const { commands: [a, b], ends } = running("a", "b");
    b.close();
    a.close();
    assert.deepEqual(requests().slice(2), [{ id: 2, stop: true }, { id: 1, stop: true }]);
    await settle();
    assert.deepEqual(ends, {});
    const [first, second] = started("enogatectl", "hall");
    first.reject({ message: "", status: 143 });
    second.resolve("closed\n");
    await settle();
    assert.deepEqual([ends.a.problem, ends.b], ["cancelled", "closed\n"]);
});

test("a command that has ended is not stopped", async () => {
    const { commands: [a, b] } = running("a", "b");
    last().write(line({ id: 1 }));
    a.close();
    assert.equal(requests().length, 2);
    last().reject({ problem: "terminated" });
    await settle();
    b.close();
    assert.deepEqual([all().length, requests().length], [1, 2]);
});
