// Stores the contents of the lines of a gateway. Nothing here touches the page.

import { COUNTERS } from "./lines.js";

export const MAX_DEVICES = 1000;
export const MAX_UNKNOWN_SENDERS = 500;
export const MAX_PACKETS = 500;
export const MAX_TEACH_RESULTS = 200;
export const MAX_PLOT_POINTS = 60;

// The reasons of packets whose sender can be learned.
const LEARNABLE_REASONS = new Set([
    "unknown_sender", "window_closed", "other_mode", "no_profile", "unsupported", "full",
]);
// Readings with one of these names are in several units, each a value of its own.
const MULTI_UNIT_READINGS = new Set(["MR", "MV"]);

/**
 * @typedef {Object} Value          the last value of a reading
 * @property {Object} reading       as the line has it
 * @property {?number} channel      of an actuator with channels
 * @property {?number} received     the time in ms; null if it was before the page was opened
 * @property {number[][]} values    the numbers since the page was opened, each with its time
 *
 * @typedef {Object} Device
 * @property {string} eep
 * @property {string} label
 * @property {Map<string, Value>} readings
 * @property {?number} dbm
 * @property {?number} received     the time in ms; null if it was before the page was opened
 * @property {?number} recorded     the time of the last telegram before the page was opened, if it is recorded
 * @property {boolean} hasSent      whether the lines have a telegram
 * @property {?string} misfit       the RORG of the last telegram, if the profile does not fit it
 *
 * @typedef {Object} Sender         a sender that is not learned
 * @property {string} rorg
 * @property {?string} eep          which it has sent itself
 * @property {number} count
 * @property {?number} best         its strongest signal
 * @property {number} number        of the line of its last packet
 * @property {?number} received
 * @property {string} why
 */

/** The channel that a telegram of an actuator is about. */
function channelOf(readings) {
    const io = readings.find(({ name }) => name === "IO");
    return io && io.raw !== undefined ? io.raw : null;
}

/** Under which key a reading replaces an earlier one. */
export function readingKey({ name, unit }, channel) {
    const base = name.startsWith("ILL") ? "ILL" : name;
    return [base, MULTI_UNIT_READINGS.has(name) ? unit : "", channel ?? ""].join(" ");
}

/** Adds the readings of a telegram to a device. They have no place in the plot if their time is not known. */
function addReadings(device, readings, now) {
    const channel = channelOf(readings);
    for (const reading of readings) {
        const key = readingKey(reading, channel);
        const value = device.readings.get(key) || { values: [] };
        Object.assign(value, { reading, channel, received: now });
        if (now !== null && reading.num !== undefined) {
            value.values.push([now, reading.num / reading.den]);
            dropOldest(value.values, MAX_PLOT_POINTS);
        }
        device.readings.set(key, value);
    }
}

/** Removes the oldest elements of an array that grows at its end. */
function dropOldest(list, most) {
    if (list.length > most)
        list.splice(0, list.length - most);
}

/** Takes from a line of a telegram what holds for all telegrams of a device, also for those that are not decoded. */
function takeTelegram(device, { dbm, why, rorg }, now) {
    const misfit = ["wrong_kind", "wrong_length"].includes(why) ? rorg : null;
    Object.assign(device, { dbm: dbm ?? device.dbm, received: now, hasSent: true, misfit });
}

/** The time of the last telegram of a device in ms; null if it is not known. */
export const lastHeardTime = ({ received, recorded }) => received ?? recorded;

/** Whether a telegram of a device is known, with or without its time. */
export const wasHeard = device => lastHeardTime(device) !== null || device.readings.size > 0 || device.hasSent;

export class Model {
    /**
     * @param {number} opened - when the page was opened, in ms
     * @param {Map<string, ?number>} times - when devices were heard before, by their IDs
     */
    constructor(opened, times = new Map()) {
        /** @type {Map<string, Device>} */
        this.devices = new Map();
        /** @type {Map<string, Sender>} the sender of the last packet is the last one */
        this.unknown = new Map();
        Object.assign(this, { opened, times, devicesLeftOut: 0, unknownLeftOut: 0 });
        Object.assign(this, { packets: [], taught: [], lineCount: 0 });
        Object.assign(this, { counters: null, mode: null, base: null, baseTime: null, listing: null });
        Object.assign(this, { isListed: false, isRecorded: false, hasPackets: false });
    }

    /**
     * Takes the members of a line that `parseLine` has checked.
     * @param {Object} line
     * @param {?number} now - the time in ms; null for a line from before the page was opened
     */
    take(line, now) {
        this.lineCount++;
        const take = METHODS.get(line.type);
        take?.call(this, line, now);
    }

    /** Whether the learn window is open, as far as the lines say. */
    get isWindowOpen() {
        return this.mode !== null && this.mode !== "closed";
    }

    /** Whether all devices are known. */
    get areDevicesKnown() {
        return this.isListed || this.isRecorded;
    }

    /** The device with this ID, which is new if it is not known; undefined if there are too many. */
    device(id, eep) {
        let device = this.devices.get(id);
        if (!device && this.devices.size >= MAX_DEVICES) {
            this.devicesLeftOut++;
            return undefined;
        }
        if (!device || device.eep !== eep) {
            const before = device ? [] : this.packets.filter(({ line }) => line.id === id);
            device = { label: "", dbm: null, received: null, recorded: this.times.get(id) ?? null, hasSent: false,
                       ...device, eep, readings: new Map(), misfit: null };
            this.devices.set(id, device);
            before.forEach(({ line, time }) => takeTelegram(device, line, time));
        }
        this.unknown.delete(id);
        return device;
    }

    takeReading({ id, eep, dbm, readings }, now) {
        const device = this.device(id, eep);
        if (!device)
            return;
        // A switch has no state: each telegram replaces all of the one before.
        if (eep.startsWith("F6"))
            device.readings.clear();
        addReadings(device, readings, now);
        takeTelegram(device, { dbm }, now);
        // The line of a packet comes directly before that of its readings.
        const packet = this.packets.at(-1);
        if (packet?.number === this.lineCount - 1 && packet.line.id === id)
            packet.readings = readings.map(reading => ({ reading, channel: channelOf(readings) }));
    }

    takePacket(line, now) {
        this.hasPackets = true;
        this.packets.push({ number: this.lineCount, line, time: now });
        dropOldest(this.packets, MAX_PACKETS);
        const device = this.devices.get(line.id);
        if (device)
            takeTelegram(device, line, now);
        else if (LEARNABLE_REASONS.has(line.why))
            this.takeUnknown(line, now);
    }

    takeUnknown({ id, rorg, eep, dbm, why }, now) {
        const before = this.unknown.get(id);
        this.unknown.delete(id);
        const best = dbm === null ? before?.best ?? null : Math.max(dbm, before?.best ?? dbm);
        this.unknown.set(id, {
            rorg, why, best, eep: eep || before?.eep || null, count: (before?.count ?? 0) + 1, received: now,
            number: this.lineCount,
        });
        if (this.unknown.size > MAX_UNKNOWN_SENDERS) {
            this.unknown.delete(this.unknown.keys().next().value);
            this.unknownLeftOut++;
        }
    }

    takeTeachResult(line, now) {
        this.taught.push({ number: this.lineCount, line, time: now });
        dropOldest(this.taught, MAX_TEACH_RESULTS);
        if (line.result === "accepted" && line.eep !== null)
            Object.assign(this.device(line.id, line.eep) ?? {}, { misfit: null });
        else if (line.result === "deleted")
            this.devices.delete(line.id);
    }

    takeDevice(line) {
        this.listing ??= [];
        if (this.listing.length < MAX_DEVICES)
            this.listing.push(line);
    }

    takeEndOfList({ count }) {
        const listed = this.listing || [];
        this.listing = null;
        // The beginning of an old list may be missing. Such a list does not show what is gone.
        if (listed.length !== count)
            return;
        this.isListed = true;
        this.devicesLeftOut = 0;
        const learned = new Set(listed.map(({ id }) => id));
        for (const id of this.devices.keys()) {
            if (!learned.has(id))
                this.devices.delete(id);
        }
        for (const { id, eep, label } of listed)
            this.device(id, eep).label = label;
    }

    takeStatus({ mode, ...line }, now) {
        this.mode = mode;
        this.counters = { time: now, ...Object.fromEntries(COUNTERS.map(name => [name, line[name]])) };
    }

    /** Takes the devices that the lines record. A list that was read meanwhile is newer. */
    takeRecorded(devices) {
        this.isRecorded ||= devices.length > 0;
        for (const { id, eep, label, seen, dbm, readings } of devices) {
            const device = this.devices.get(id) ?? (this.isListed ? undefined : this.device(id, eep));
            if (device?.eep !== eep)
                continue;
            device.recorded = seen ?? device.recorded;
            if (!this.isListed)
                device.label = label;
            if (!device.readings.size) {
                addReadings(device, readings, null);
                device.dbm ??= dbm;
            }
        }
    }

    /** Only the answer to the order `base` has four bytes of data. */
    takeResponse({ code, data }, now) {
        const number = parseInt(data, 16);
        if (code === 0 && data.length === 8 && number >= 0xFF800000 && number <= 0xFFFFFF80 && number % 128 === 0)
            Object.assign(this, { base: data, baseTime: now });
    }
}

/** What takes the lines of each type. Lines of other types change nothing. */
const METHODS = new Map(Object.entries({
    reading: Model.prototype.takeReading, packet: Model.prototype.takePacket, teach: Model.prototype.takeTeachResult,
    device: Model.prototype.takeDevice, list: Model.prototype.takeEndOfList, status: Model.prototype.takeStatus,
    response: Model.prototype.takeResponse,
}));
