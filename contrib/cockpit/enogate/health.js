// What is all right, and what needs attention. Nothing here touches the page.

import { orderStateOf, SILENT_HINT } from "./answers.js";
import { addressOf } from "./address.js";
import { _, format, N_, ngettext } from "./cockpit.js";
import { lastHeardTime, readingKey, wasHeard } from "./model.js";
import { baseFault, gatewayFault } from "./places.js";
import { TABLES } from "./tables.js";
import * as words from "./words.js";

// A signal gains a bar at each of these, in dBm. With one bar it is weak: telegrams get lost.
const BAR_LIMITS = [TABLES.weakSignal, -75, -65];
// Less space than this on the disk is little, in MB.
const LITTLE_SPACE = 100;
// More devices with the same problem become one line.
const MAX_NAMED_DEVICES = 3;

/** How many of four bars a signal has. */
export const signalBars = dbm => dbm === null ? 0 : 1 + BAR_LIMITS.filter(least => dbm >= least).length;

/** After how many ms without a telegram a device is silent: these minutes; null has three usual intervals. */
const silenceOf = ({ eep }, minutes) => minutes !== null ? minutes * 60000
    : (words.PROFILES.get(eep)?.silence ?? Infinity) * 1000;

/** Whether a device has sent nothing for this time, as far as the page can know. */
export const isQuiet = (device, opened, now, minutes) =>
    now - (lastHeardTime(device) ?? opened) > silenceOf(device, minutes);

/** The supply voltage that a device reported last, in volts; undefined if it has reported none. */
function supplyVoltage({ readings }) {
    const { num, den } = readings.get(readingKey({ name: TABLES.supplyVoltage }, null))?.reading ?? {};
    return num === undefined ? undefined : num / den;
}

/** Whether so many MB on the disk are little; null is not known. */
export const hasLittleSpace = space => space !== null && space < LITTLE_SPACE;

/** The devices, each with its ID, by what is known of them. `sent` has the last order to each device. */
export function devicesByState({ devices, opened }, sent, now, minutes) {
    const all = [...devices];
    const silent = all.filter(([, device]) => isQuiet(device, opened, now, minutes));
    const isSilent = new Set(silent.map(([id]) => id));
    return {
        all, silent,
        unheard: all.filter(([id, device]) => !wasHeard(device) && !isSilent.has(id)),
        heard: all.filter(([id, device]) => lastHeardTime(device) !== null && !isSilent.has(id)),
        weak: all.filter(([, { dbm }]) => signalBars(dbm) === 1),
        battery: all.filter(([, device]) => supplyVoltage(device) < TABLES.lowVoltage),
        misfit: all.filter(([, { misfit }]) => misfit),
        actuators: all.filter(([, { eep }]) => words.PROFILES.get(eep)?.abilities),
        unanswered: all.filter(([id, device]) => sent.has(id) && orderStateOf(sent.get(id), device, now) === "silent"),
    };
}

/** How many devices were heard, in a sentence. */
export function heardSentence({ all: { length: count }, heard, silent, unheard }, { areDevicesKnown }, minutes) {
    if (!count)
        return areDevicesKnown ? _("No device is learned yet.") : _("The devices are not known yet.");
    const unknown = count - heard.length - silent.length - unheard.length;
    const limit = minutes ?? Infinity;
    const time = limit < 60 ? `${words.decimalText(limit)} min` : `${words.decimalText(limit / 60)} h`;
    const [ofAll, ofSome, withUnknown] = Number.isFinite(limit)
        ? [ngettext("The device was heard in the last $2.", "All $1 devices were heard in the last $2.", count),
           _("$0 of $1 devices were heard in the last $2."),
           _("$0 of $1 devices were heard in the last $2; for $3 this is not known yet.")]
        : [ngettext("The device was heard.", "All $1 devices were heard.", count), _("$0 of $1 devices were heard."),
           _("$0 of $1 devices were heard; for $3 this is not known yet.")];
    const message = heard.length === count ? ofAll : unknown ? withUnknown : ofSome;
    const never = ngettext("$0 device was never heard.", "$0 devices were never heard.", unheard.length);
    return [format(message, heard.length, count, time, unknown), unheard.length && format(never, unheard.length)]
            .filter(Boolean).join(" ");
}

const nameOf = ([id, { label }]) => label || id;

/** A problem for each device, or one for all of them if there are many, with some names if there is no other detail. */
function deviceProblems(devices, part, detail, textOf, textOfMany) {
    const problem = { level: "warn", action: N_("Show") };
    if (devices.length <= MAX_NAMED_DEVICES) {
        return devices.map(entry => ({ ...problem, text: textOf(nameOf(entry), entry[1]), detail,
                                       target: addressOf("device", entry[0]) }));
    }
    const names = devices.slice(0, MAX_NAMED_DEVICES).map(nameOf).join(", ");
    return [{ ...problem, text: format(textOfMany(devices.length), devices.length), detail: detail || `${names} …`,
              target: addressOf("devices", part) }];
}

/** What is wrong with the gateway itself. */
function gatewayProblems({ name, why, states, hasStick, settings, model, space }) {
    const found = [];
    if (why)
        found.push({ level: "bad", text: _("The lines cannot be read"), detail: why, action: N_("Journal") });
    const wrong = gatewayFault(name, states, hasStick, settings.get("SERIAL")) ?? baseFault(name, settings, model);
    if (wrong)
        found.push({ level: "bad", ...wrong });
    if (hasLittleSpace(space)) {
        found.push({ level: "warn", text: format(_("Only $0 MB are free on the disk"), space),
                     detail: _("Delete files on this computer: on a full disk no device can be learned.") });
    }
    if (model.isWindowOpen) {
        found.push({ level: "info", text: _("The learn window is open"), action: N_("Close"),
                     detail: _("Devices of your neighbours can be learned, too.") });
    }
    return found;
}

/** Why no packet was seen: the gateway prints no packet lines, or it has heard nothing. */
function packetProblems({ settings, model }, groups) {
    if (model.hasPackets)
        return [];
    if (settings.size && !settings.get("EXPLAIN")) {
        return [{ level: "info", text: _("No packet line has arrived"), action: N_("Restart"),
                  detail: _("To find new devices, set EXPLAIN=--explain for this gateway, and restart it.") }];
    }
    return groups.all.some(([, device]) => lastHeardTime(device) !== null) ? []
        : [{ level: "info", text: _("Nothing was heard yet"),
             detail: _("Press a button of a device near the stick.") }];
}

/**
 * What needs attention, the worst first: each problem with its level (bad, warn or info), a text, more about it, the
 * button that helps (if there is one), and the address to which that leads, unless it does something.
 */
export function findProblems({ groups, now, ...facts }) {
    const { model } = facts;
    // A silent device is not listed twice, unless so many are weak that they are only counted.
    const weak = groups.weak.length > MAX_NAMED_DEVICES ? groups.weak
        : groups.weak.filter(entry => !groups.silent.some(([id]) => id === entry[0]));
    const heard = (name, device) => lastHeardTime(device) === null ? format(_("$0 has not been heard"), name)
        : format(_("$0 was last heard $1"), name, words.ageText(lastHeardTime(device), now));
    const found = gatewayProblems(facts);
    const isBroken = found.some(({ level }) => level === "bad");
    found.push(...deviceProblems(groups.unanswered, "actuators", SILENT_HINT,
                                 name => format(_("$0 did not answer an order"), name), count =>
        ngettext("$0 device did not answer an order", "$0 devices did not answer an order", count)),
               ...deviceProblems(groups.misfit, "misfit", _("Press Show, then Edit, and choose another profile."),
                                 name => format(_("The last telegram of $0 does not fit its profile"), name), count =>
        ngettext("The last telegram of $0 device does not fit its profile",
                 "The last telegrams of $0 devices do not fit their profiles", count)),
               ...deviceProblems(groups.battery, "battery", "", (name, device) =>
                   format(_("$0 has a low battery: $1 V"), name, words.decimalText(supplyVoltage(device))), count =>
                   ngettext("$0 device has a low battery", "$0 devices have a low battery", count)),
               ...deviceProblems(groups.silent, "silent", "", heard, count =>
                   ngettext("$0 device is silent", "$0 devices are silent", count)),
               ...deviceProblems(weak, "weak", "", (name, { dbm }) =>
                   format(_("$0 has a weak signal: $1"), name, words.signalText(dbm)), count =>
                   ngettext("$0 device has a weak signal", "$0 devices have a weak signal", count)));
    if (!groups.all.length && model.areDevicesKnown)
        found.push({ level: "info", text: _("No device is learned"), action: N_("Add"), target: addressOf("add") });
    return isBroken ? found : [...found, ...packetProblems(facts, groups)];
}

/** Whether all is well, as a level and a sentence. A device that was not heard yet may have failed. */
export function verdictOf(found, { all, heard }) {
    const urgent = found.filter(({ level }) => level !== "info");
    const many = ngettext("One thing needs attention", "$0 things need attention", urgent.length);
    if (urgent.length)
        return [urgent[0].level, format(many, urgent.length)];
    const isSure = all.length > 0 && heard.length === all.length;
    return isSure ? ["good", _("Everything is all right")] : ["info", _("No fault is known")];
}
