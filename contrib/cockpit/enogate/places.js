// The names of the gateways of this machine, their files, and their settings.

import { _, format, N_ } from "./cockpit.js";
import { parseJson } from "./lines.js";
import { TABLES } from "./tables.js";

/** The command that prints the paths of the gateways. */
export const PATHS_COMMAND = ["enogatectl", "paths"];

/** The names of the gateways in its output; none if it failed. */
export const gatewayNamesIn = output => Object.keys(parseJson(output) ?? {}).sort();

/** Whether a gateway may have this name. */
export const isGatewayName = text => new RegExp(`^${TABLES.gatewayName}$`).test(text);

/** The command that prints the paths of the serial ports. It fails if there is no by-id, but prints the others. */
export const PORTS_COMMAND = [
    "find", "-L", "/dev", "/dev/serial/by-id", "-maxdepth", "1", "-type", "c", "-regextype", "posix-extended",
    "-regex", "/dev/(enocean.*|serial/by-id/.+|tty(USB|ACM|AMA)[0-9]+|serial0)",
];

/** The paths in its output that can be a setting. A stable name comes before the name of the same port that is not. */
export const portsIn = output => output.split("\n").filter(path => /^\/dev\/[\w/.:=@+-]+$/.test(path)).sort();

export const linesOf = name => `/var/log/enogate/${name}.lines`;
export const deskOf = name => `/run/enogate/${name}/desk`;
export const unitOf = name => `enogate@${name}.service`;

/** The files with the settings of a gateway. The second one overrides the first one. */
export const settingsFiles = name => ["/etc/default/enogate", `/etc/default/enogate-${name}`];

/** The settings in these files, as systemd reads them: a line NAME=VALUE for each, maybe with quotation marks. */
export function settingsIn(texts) {
    const settings = new Map();
    for (const line of texts.flatMap(text => (text || "").split("\n"))) {
        const [, name, value] = line.match(/^\s*([A-Za-z_][A-Za-z0-9_]*)=(.*)$/) || [];
        if (name)
            settings.set(name, value.trim().replace(/^(["'])(.*)\1$/, "$2"));
    }
    return settings;
}

/** The base ID in the settings, in upper case; empty if the gateway takes that of its radio module. */
export const baseOf = settings => (settings.get("BASE") || "").toUpperCase();

/**
 * Why actuators do not obey although the gateway works; null if there is no such reason. A base ID that was reported
 * before the page was opened does not count: it may be that of another stick.
 */
export function baseFault(name, settings, { base, baseTime }) {
    const set = baseOf(settings);
    if (!set || baseTime === null || base === set)
        return null;
    return { text: format(_("BASE is $0, but the base ID of the radio module is $1"), set, base), action: N_("Restart"),
             detail: format(_("Correct or remove BASE in $0, and restart the gateway."), settingsFiles(name)[1]) };
}

/** The command that prints how many MB are free for the lines and for the databases. */
export const SPACE_COMMAND = ["df", "--block-size=1M", "--output=avail", "/var/log/enogate", "/var/lib/enogate"];

/** The smallest number in its output; null if there is none. */
export function leastSpaceIn(output) {
    const numbers = output.match(/^ *\d+$/gm);
    return numbers && Math.min(...numbers.map(Number));
}

/** The command that asks systemd for the state of a service. */
export const serviceStateCommand = name =>
    ["systemctl", "show", "--property=ActiveState,SubState,InvocationID", unitOf(name)];

/** The properties that it prints. */
export function propertiesIn(output) {
    return Object.fromEntries(output.split("\n").map(line => line.match(/^([A-Za-z]+)=(.*)$/)).filter(Boolean)
            .map(([, name, value]) => [name, value]));
}

/**
 * The run of a gateway that can answer orders: another text after each start of the service. Null if it cannot answer.
 */
export function runIdOf(states, hasStick) {
    if (hasStick === false)
        return null;
    if (!states)
        return "unknown";
    return states.ActiveState === "active" ? `run ${states.InvocationID || ""}` : null;
}

/**
 * Why a gateway does not work, in a sentence and in a word, and the button that helps; null if it works.
 * @returns {?{text: string, detail: string, action: string, word: string}}
 */
export function gatewayFault(name, states, hasStick, serial) {
    const text = format(_("The gateway $0 is stopped"), name);
    if (states && states.ActiveState && states.ActiveState !== "active" && states.ActiveState !== "activating")
        return { text, detail: "", action: N_("Start"), word: _("stopped") };
    if (hasStick === false) {
        return { text: format(_("No stick at $0"), serial), action: N_("Journal"), word: _("no stick"),
                 detail: _("Plug it in. The gateway continues by itself.") };
    }
    return states?.SubState !== "auto-restart" ? null
        : { text: format(_("The gateway $0 is restarting"), name), detail: _("The journal has the reason."),
            action: N_("Journal"), word: _("restarting") };
}
