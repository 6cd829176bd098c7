// What enogatectl makes of the commands of the page.

import { execFileSync } from "node:child_process";

/** What enogatectl would write to the desk for these commands, each an array of words, or null if it refuses them. */
export function ordersOfCommands(commands) {
    const program = [
        "import contextlib, io, json, sys",
        "from enogate_ctl.command_line import parsed",
        "def order(words):",
        "    try:",
        "        with contextlib.redirect_stderr(io.StringIO()):",
        "            give = parsed(words[1:])",
        "        return [give.order, give.seconds, give.is_json]",
        "    except SystemExit:",
        "        return None",
        "print(json.dumps([order(words) for words in json.load(sys.stdin)]))",
    ].join("\n");
    const contrib = new URL("../../contrib", import.meta.url).pathname;
    const options = { input: JSON.stringify(commands), env: { ...process.env, PYTHONPATH: contrib } };
    return JSON.parse(execFileSync("python3", ["-B", "-c", program], options));
}
