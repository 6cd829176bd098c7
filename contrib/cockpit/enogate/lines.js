// Checks the lines of a gateway. Malformed lines are dropped here, so all other modules may rely on the members.

/** The value of a text of JSON, or null if it is none. */
export function parseJson(text) {
    try {
        return JSON.parse(text);
    } catch {
        return null;
    }
}

const isText = (value, shape) => typeof value === "string" && shape.test(value);
const isId = value => isText(value, /^[0-9A-F]{8}$/);
const isEep = value => isText(value, /^[0-9A-F]{2}-[0-9A-F]{2}-[0-9A-F]{2}$/);
const isWord = value => isText(value, /^[a-z_]{1,32}$/);
const isByte = value => isText(value, /^[0-9A-F]{2}$/);
const isHexBytes = value => isText(value, /^(?:[0-9A-F]{2}){0,512}$/);
const isInteger = value => Number.isFinite(value) && Math.trunc(value) === value;
const isCount = value => isInteger(value) && value >= 0;
const isNullOr = (shape, value) => value === null || shape(value);
const isListOf = (shape, value) => Array.isArray(value) && value.every(shape);

export const COUNTERS = ["readings", "teach", "responses", "ignored", "refused"];

/** Whether a member of `readings` is one of the four forms in the guide. */
function isReading(reading) {
    if (typeof reading !== "object" || reading === null || !isText(reading.name, /^[A-Za-z0-9_]{1,16}$/))
        return false;
    if ("num" in reading) {
        return isInteger(reading.num) && isInteger(reading.den) && reading.den > 0 &&
            isText(reading.unit, /^[!-~]{1,8}$/);
    }
    if ("word" in reading)
        return isText(reading.word, /^[!-~]{1,32}$/);
    return isInteger("raw" in reading ? reading.raw : reading.out_of_range);
}

function isPacket(line) {
    if (!isWord(line.why))
        return false;
    if ("kind" in line)
        return isCount(line.kind) && isCount(line.size);
    return isId(line.id) && isNullOr(isEep, line.eep) && isNullOr(isId, line.dest) && isByte(line.rorg) &&
        isByte(line.status) && isHexBytes(line.payload) && isNullOr(isInteger, line.dbm);
}

const CHECK_BY_TYPE = new Map([
    ["ok", () => true],
    ["reading", line => isId(line.id) && isEep(line.eep) && isNullOr(isInteger, line.dbm) &&
        isListOf(isReading, line.readings)],
    ["packet", isPacket],
    ["teach", line => isId(line.id) && isNullOr(isEep, line.eep) && isWord(line.result)],
    ["device", line => isId(line.id) && isEep(line.eep) && isText(line.label, /^[ -~]{0,32}$/)],
    ["list", line => isCount(line.count)],
    ["status", line => isText(line.mode, /^[a-zA-Z0-9 -]{1,16}$/) && COUNTERS.every(name => isCount(line[name]))],
    ["response", line => isCount(line.code) && isHexBytes(line.data)],
    ["error", line => isWord(line.error)],
]);

/**
 * The members of a line, or null if it is not a line of a gateway: a full disk may have truncated it, or another
 * program may have written it.
 * @param {string} raw
 * @returns {?Object}
 */
export function parseLine(raw) {
    // A power failure may leave NUL bytes before a line.
    const line = parseJson(raw.slice(raw.lastIndexOf("\0") + 1));
    if (typeof line !== "object" || line === null || Array.isArray(line))
        return null;
    const isValid = CHECK_BY_TYPE.get(line.type);
    return isValid && isValid(line) ? line : null;
}

const isRecorded = line => line?.type === "device" && isNullOr(isCount, line.seen) && isNullOr(isInteger, line.dbm) &&
    isListOf(isReading, line.readings);

/**
 * The devices in the output of `enogatectl --json GATEWAY devices`, each with its last readings and signal, and the
 * time of its last telegram in ms, or null.
 * @param {string} output
 * @returns {Object[]}
 */
export function recordedDevicesIn(output) {
    return output.split("\n").map(parseLine).filter(isRecorded)
            .map(({ seen, ...device }) => ({ ...device, seen: seen === null ? null : 1000 * seen }));
}
