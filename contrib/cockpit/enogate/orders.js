// Orders as arguments of enogatectl. They are arrays, never the text of a shell.

import { _ } from "./cockpit.js";

export const LONGEST_LABEL = 32;
// The channel number that means all channels of an actuator.
export const ALL_CHANNELS = 30;

/** The command that gives an order. @param {Array<string|number>} order - its words */
export const orderCommand = (gateway, order) => ["enogatectl", "--json", gateway, "--", ...order.map(String)];

/** The command that prints the devices as the lines record them. It gives no order. */
export const recordedCommand = gateway => ["enogatectl", "--json", gateway, "devices"];

/** The command that prints the earlier lines, an empty line, and then each new line. */
export const linesCommand = gateway => ["enogatectl", gateway, "lines"];

/** The command that gives the profile and the label of a device to another one, and deletes the device. */
export const replaceCommand = (gateway, oldId, newId) => ["enogatectl", gateway, "replace", oldId, newId];

/** The command that opens the learn window, and closes it after this time or when it is ended. */
export const windowCommand = (gateway, order, seconds) =>
    ["enogatectl", "--for", String(seconds), gateway, "--", ...order];

/** The command that writes a backup of a gateway. */
export const backupCommand = gateway => ["enogatectl", gateway, "backup"];

/** The order that sets a label. The empty text removes it. */
export const labelOrder = (id, text) => text === "" ? ["label", id] : ["label", id, text];

/** Whether the gateway accepts a text as a label. The empty text removes it. */
export const isLabel = text => /^(?:[!-~](?:[ -~]{0,30}[!-~])?)?$/.test(text);

/** The number in a field that an order accepts, from 0 to the greatest one; null if there is none. */
export function wholeNumberIn(text, greatest) {
    const number = Number(text);
    return /^[0-9]{1,3}$/.test(text) && number <= greatest ? number : null;
}

/** The characters of an ID in a field, without marks between them. */
export const idCharacters = text => text.replace(/^\s*0x|[\s:.-]/gi, "").toUpperCase();

/** The ID in a field; null if there is none. */
export const idIn = text => idCharacters(text).match(/^[0-9A-F]{8}$/)?.[0] ?? null;

/**
 * Why a command failed, in a sentence.
 * @param {{message?: string, problem?: string}} error - as cockpit.spawn reports it
 */
export function failureText(error) {
    if (error.problem === "access-denied")
        return _("You have no administrative access: turn it on in Cockpit.");
    if (error.problem === "not-found")
        return _("The command enogatectl is not installed: install the package enogate.");
    const lines = String(error.message || error).trim().split("\n");
    return lines[lines.length - 1].replace(/^enogatectl: /, "");
}

/** Why a command failed; empty if it did not. */
export const reasonOf = process => process.then(() => "", failureText);
