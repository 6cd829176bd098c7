// Names and values of a gateway in words, for people.

import { _, cockpit, format } from "./cockpit.js";
import { asciiSpelling } from "./label.js";
import { TABLES } from "./tables.js";

/** The supported profiles: the kind of device, what an actuator can do, and its readings. */
export const PROFILES = new Map(TABLES.profiles.map(row => [row.eep, row]));

/** The profile of most switches. They do not send it, so it is offered first. */
export const USUAL_SWITCH = "F6-02-01";

const KINDS = new Map(TABLES.rorg);
const REASONS = new Map(TABLES.reason);
const EARLIER = _("earlier");
export const NO_PACKETS = _("No packet lines have arrived. If none arrives when you press a button of a device, set " +
    "EXPLAIN=--explain for this gateway, and restart it.");

/** The kind of the devices of a profile; empty if it is not supported. */
export const kindOfProfile = eep => PROFILES.has(eep) ? _(PROFILES.get(eep).kind) : "";

/** A profile and the kind of its devices. */
export const profileWithKind = eep => [eep, kindOfProfile(eep)].filter(Boolean).join(" ");

/** A profile as an option of a list, with its range if other profiles are for devices of the same kind. */
export function profileOption(eep) {
    const [first, last, unit] = PROFILES.get(eep).range ?? [];
    const range = unit && format(_("$0 to $1 $2"), decimalText(first), decimalText(last), unit);
    return [eep, [profileWithKind(eep), range].filter(Boolean).join(", ")];
}

/** Whether one of these texts contains the text that is searched for, or the spelling of it that a label can have. */
export const matchesSearch = (wanted, ...texts) => [wanted, asciiSpelling(wanted) || wanted]
        .some(text => texts.join(" ").toLowerCase().includes(text.toLowerCase()));

/** The label of a device for people. */
export const labelText = ({ label }) => label || _("(no label)");

/** The label of a device, if it has one, and its kind. */
export const labelAndKind = ({ label, eep }) => [label, kindOfProfile(eep) || eep].filter(Boolean).join(", ");

export const kindText = rorg => KINDS.has(rorg) ? _(KINDS.get(rorg)) : format(_("telegram $0"), rorg);
export const reasonText = why => REASONS.has(why) ? _(REASONS.get(why)) : why;
/** A result of teaching. A device may also be deleted by an order. */
export const resultText = text => text === "deleted" ? _("deleted") : reasonText(text);

/** A number with at most two decimals. */
export function decimalText(number) {
    return number.toLocaleString(cockpit.language, { maximumFractionDigits: 2, useGrouping: false });
}

/** How a reading of this profile is shown; undefined if this is not known. A word has the row of the number. */
function tableRowOf(eep, { name, unit }) {
    const rows = (PROFILES.get(eep)?.readings || []).filter(row => row.name === name);
    const row = rows.find(one => one.unit === (unit ?? ""));
    return row || unit ? row : rows.length === 1 ? rows[0] : undefined;
}

/** The value of a reading as text, and its unit. */
function valueOf(reading, row) {
    if (reading.num !== undefined)
        return [decimalText(reading.num / reading.den), row?.shownUnit ?? reading.unit];
    if (reading.word !== undefined)
        return [_(reading.word), ""];
    return [reading.raw !== undefined ? String(reading.raw) : _("out of range"), ""];
}

/** A reading as texts: its name, with its channel if the device has several, its value, and its unit or nothing. */
export function readingParts(eep, { reading: members, channel }) {
    const row = tableRowOf(eep, members);
    const [value, unit] = valueOf(members, row);
    const name = row ? _(row.said) : members.name;
    const isOfSeveral = channel !== null && hasChannels(eep);
    return { name: isOfSeveral ? format(_("channel $0: $1"), channel, name) : name, value, unit };
}

/** A reading as one text. */
export const readingText = (...item) => Object.values(readingParts(...item)).filter(Boolean).join(" ");

/** Whether people need not see a reading, if the device has others. */
function isDetail(eep, { reading: members }) {
    const row = tableRowOf(eep, members);
    return row !== undefined && (row.isDetail || row.normal.includes(members.word ?? String(members.raw)));
}

/** The readings of a device that are shown: all of them, if none is more than a detail. */
export function shownReadings(eep, readings) {
    const shown = readings.filter(one => !isDetail(eep, one));
    return shown.length ? shown : readings;
}

/** Whether a device of this profile has several channels. */
export const hasChannels = eep => PROFILES.get(eep)?.abilities?.channels.length > 1;

/** Readings of this profile as one text: those that a row shows. */
export const shownReadingsText = (eep, readings) =>
    shownReadings(eep, readings).map(one => readingText(eep, one)).join(", ");

/** The readings of a device as one text. */
export const stateText = ({ eep, readings }) => shownReadingsText(eep, [...readings.values()]);

export const signalText = dbm => dbm === null ? "" : `${dbm} dBm`;

const UNITS = [[86400, "d"], [3600, "h"], [60, "min"]];

/** A time in the greatest unit that it fills. */
export function durationText(seconds) {
    const [length, unit] = UNITS.find(([least]) => seconds >= least) ?? [1, "s"];
    return `${Math.floor(seconds / length)} ${unit}`;
}

/** How long ago something was; null is before the page was opened. */
export const ageText = (time, now) => time === null ? EARLIER
    : format(_("$0 ago"), durationText(Math.max(0, Math.floor((now - time) / 1000))));

/** A countdown in minutes and seconds. */
export const countdownText = seconds => `${Math.floor(seconds / 60)}:${String(seconds % 60).padStart(2, "0")}`;

/** The time of day; null is before the page was opened. */
export const timeText = time => time === null ? EARLIER : new Date(time).toLocaleTimeString("en-GB");

/** The mode of the learn window: a word, or "as" with a profile. */
export const modeText = mode => mode.startsWith("as ") ? format(_("as $0"), mode.slice(3)) : _(mode);

/** The state of a service in words. */
export function serviceText(states) {
    const words = { active: _("running"), inactive: _("stopped"), failed: _("failed"), deactivating: _("stopping"),
                    activating: states?.SubState === "auto-restart" ? _("restarting") : _("starting") };
    return words[states?.ActiveState] || _("unknown");
}
