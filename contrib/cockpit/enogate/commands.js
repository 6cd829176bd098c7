// Runs the commands of the page through Cockpit.

import { _, cockpit, format } from "./cockpit.js";
import { recordedDevicesIn } from "./lines.js";
import * as orders from "./orders.js";
import * as places from "./places.js";
import { CommandServer } from "./server.js";

const READ_OPTIONS = { superuser: "try", err: "ignore" };
const ROOT_OPTIONS = { superuser: "require", err: "message" };

/** The output of a command that may fail. */
function outputOf(words) {
    let output = "";
    const process = cockpit.spawn(words, READ_OPTIONS).stream(data => { output += data; });
    return process.then(() => output, () => output);
}

/** The names of the gateways of this machine. */
export const gatewayNames = async () => places.gatewayNamesIn(await outputOf(places.PATHS_COMMAND));

const fileText = path => cockpit.file(path, { superuser: "try" }).read().then(text => text, () => null);

/** The settings of a gateway. */
export async function readSettings(name) {
    return places.settingsIn(await Promise.all(places.settingsFiles(name).map(fileText)));
}

/** The state of the service of a gateway, as systemd names it; null if systemd cannot be asked. */
export async function serviceState(name) {
    const states = places.propertiesIn(await outputOf(places.serviceStateCommand(name)));
    return states.ActiveState ? states : null;
}

/** How many MB are free for the lines and the databases; null if this is not known. */
export const freeSpace = async () => places.leastSpaceIn(await outputOf(places.SPACE_COMMAND));

/** The gateway to open first: the one that was open last, else the first one that runs, else the first one. */
export async function firstGateway(names, last) {
    if (names.includes(last))
        return last;
    const states = await Promise.all(names.map(serviceState));
    return names.find((_, index) => states[index]?.ActiveState === "active") ?? names[0];
}

/** Whether the stick is plugged in; null if this is not known. */
export const hasStick = serial => cockpit.spawn(["test", "-c", serial], READ_OPTIONS)
        .then(() => true, error => error.exit_status === 1 ? false : null);

/** The devices as the lines record them; none if this user may not read the lines. */
export const recordedDevices = async gateway => recordedDevicesIn(await outputOf(orders.recordedCommand(gateway)));

/** Whether this user may give orders to a gateway without becoming root. */
export const mayWriteDesk = name => cockpit.spawn(["test", "-w", places.deskOf(name)], { err: "ignore" })
        .then(() => true, () => false);

// One process gives orders with the rights of this user, and one as root.
const serversByUser = { user: new CommandServer(null), root: new CommandServer("require") };

/** Runs a command that gives orders, as `user` or `root`. The promise has a `close`, which ends the command. */
export const runCommand = (command, as) => serversByUser[as].run(command);

/** Starts the service of a gateway, or does what other words of systemctl mean, as root. */
export const controlService = (name, ...words) =>
    cockpit.spawn(["systemctl", ...words, places.unitOf(name)], ROOT_OPTIONS);

/** The serial ports of this machine. */
export const serialPorts = async () => places.portsIn(await outputOf(places.PORTS_COMMAND));

/** The files at these paths, each of which may be a link. */
export async function realPaths(paths) {
    const found = (await outputOf(["realpath", "-m", "--", ...paths])).split("\n");
    return paths.map((path, index) => found[index] || path);
}

/** The base ID of the radio module at a port. The promise is rejected if there is none. */
export const moduleBase = port => cockpit.spawn(["enogatectl", "base", port], ROOT_OPTIONS).then(text => text.trim());

/** Writes the settings of a new gateway, as root. "-" is the tag of a missing file: none is overwritten. */
export const writeSettings = (name, port) =>
    cockpit.file(places.settingsFiles(name)[1], { superuser: "require" }).replace(`SERIAL=${port}\n`, "-");

/** The bytes of a file, read as root. */
export const readFile = path => cockpit.file(path, { superuser: "require", binary: true }).read()
        .then(content => content ?? Promise.reject(Error(format(_("$0 is missing."), path))));

/** Opens the service of a gateway in Cockpit, with its journal. */
export const openService = name => cockpit.jump(`/system/services#/${encodeURIComponent(places.unitOf(name))}`);
