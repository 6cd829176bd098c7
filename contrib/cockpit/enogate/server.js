// The process that runs the commands for the orders of the page: `enogatectl --serve`. It starts with the first order,
// since Python takes longer to start than a gateway to answer, and ends when the page is left.

import { _, cockpit, format } from "./cockpit.js";
import { parseJson } from "./lines.js";

const COMMAND = ["enogatectl", "--serve"];
// The exit status of a command that was stopped.
const STOPPED_STATUS = 143;
const ENDED_ERROR = { message: _("enogatectl has ended, and may not have carried out the order: try again") };

/** JSON in which characters outside ASCII are escaped: a request with such a character is invalid. */
const asciiJson = json => json.replace(/[^ -~]/g, unit => `\\u${unit.charCodeAt().toString(16).padStart(4, "0")}`);

const isAnswer = value => Number.isInteger(value?.status) && typeof value.error === "string" &&
    typeof value.output === "string";

/** Why a command failed, in the form of the errors of cockpit.spawn. */
const failureOf = ({ error, status }) => ({
    exit_status: status,
    message: error.trim() || format(_("enogatectl exited with status $0"), status),
    problem: status === STOPPED_STATUS ? "cancelled" : null,
});

export class CommandServer {
    /** @param {?string} superuser - how the process becomes root, as cockpit.spawn has it; null if it does not */
    constructor(superuser) {
        Object.assign(this, { superuser, process: null, rest: "", lastId: 0 });
        /** @type {Map<number, {resolve: Function, reject: Function}>} the commands that have not ended, by their IDs */
        this.open = new Map();
    }

    /**
     * Runs a command, whose first word is `enogatectl`.
     * @param {string[]} command
     * @returns {Promise<string> & {close: function(): void}} its output, as of cockpit.spawn; `close` stops the command
     */
    run([, ...words]) {
        const id = ++this.lastId;
        const ended = new Promise((resolve, reject) => this.open.set(id, { resolve, reject }));
        this.process ??= this.start();
        this.send({ id, arguments: words });
        return Object.assign(ended, { close: () => this.stop(id) });
    }

    start() {
        const process = cockpit.spawn(COMMAND, { superuser: this.superuser, err: "message" });
        process.stream(text => this.takeOutput(text));
        // A process that was killed has no message.
        process.then(() => this.rejectAll(ENDED_ERROR), error => this.rejectAll(error.message ? error : ENDED_ERROR));
        return process;
    }

    /** Stops a command, unless it has ended. The answer comes when it has ended. */
    stop(id) {
        if (this.open.has(id))
            this.send({ id, stop: true });
    }

    /** Sends a request. The input stays open: at its end the process stops all commands. */
    send(request) {
        this.process.input(`${asciiJson(JSON.stringify(request))}\n`, true);
    }

    /** Takes the lines that this text completes. */
    takeOutput(text) {
        const lines = (this.rest + text).split("\n");
        this.rest = lines.pop();
        lines.map(parseJson).filter(isAnswer).forEach(answer => this.settle(answer));
    }

    /** Settles the command of an answer. A line that is not the answer of an open command is ignored. */
    settle(answer) {
        const command = this.open.get(answer.id);
        if (!command)
            return;
        this.open.delete(answer.id);
        if (answer.status === 0)
            command.resolve(answer.output);
        else
            command.reject(failureOf(answer));
    }

    /** The process has ended. The next command starts another one. */
    rejectAll(error) {
        const commands = this.open;
        Object.assign(this, { process: null, rest: "", open: new Map() });
        commands.forEach(({ reject }) => reject(error));
    }
}
