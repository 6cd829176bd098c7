// Lines of a gateway, as its guide shows them.

export const READING = {
    dbm: -45, eep: "A5-02-05", id: "01800ABC", type: "reading",
    readings: [{ den: 51, name: "TMP", num: 1024, unit: "C" }],
};
export const PACKET = {
    dbm: -45, dest: null, eep: null, id: "01800AC1", maker: null, payload: "50", rorg: "F6", status: "30",
    type: "packet", why: "unknown_sender",
};
export const OTHER_PACKET = { kind: 4, size: 12, type: "packet", why: "other_type" };
export const TAUGHT = { eep: "D5-00-01", id: "01800ABC", maker: null, result: "accepted", type: "teach" };
export const DEVICE = { eep: "D5-00-01", id: "01800ABC", label: "Front door", maker: null, type: "device" };
export const LIST = { count: 1, type: "list" };
export const STATUS = {
    ignored: 1, mode: "as F6-02-01", readings: 2, refused: 3, responses: 4, teach: 5, type: "status",
};
export const RESPONSE = { code: 0, data: "FFA1B280", name: "OK", type: "response" };
export const ERROR = { error: "unknown_device", type: "error" };
export const OK = { type: "ok" };
export const ALL = [READING, PACKET, OTHER_PACKET, TAUGHT, DEVICE, LIST, STATUS, RESPONSE, ERROR, OK];

/** Texts that must never become markup, an order, or a member of an object's prototype. */
export const HOSTILE = [
    "<script>document.title=1</script>", "<img src=x onerror=document.title=2>", "\"'`${}", "a\nb", "\u0000", "\u2028",
    "__proto__", "constructor", "toString", "hasOwnProperty", "", " ", "../../etc/passwd", "$(reboot)", "; reboot",
];
