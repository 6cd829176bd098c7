// What has become of the last order to a device. The gateway sends a packet only once, and does not know whether the
// device receives it: only a telegram of the device shows that.

import { _ } from "./cockpit.js";
import { ALL_CHANNELS } from "./orders.js";
import { TABLES } from "./tables.js";

/** What helps if a device did not answer. It may have answered before. */
export const SILENT_HINT = _("Does it have power? Press again. If it has never obeyed, it has to learn this gateway: " +
    "open the learn window in Add device, and press the learn button of the actuator.");

/** How long a device may take to report after an order, in ms. After a stop, a blind need not report anything. */
export const answerTimeout = ([verb]) => verb === "stop" ? Infinity : 1000 * TABLES.reportSeconds[verb];

/** An order that is given now. `done` is when the gateway had sent it, in ms, and `error` why it was not sent. */
export const startedOrder = (order, now) => ({ order, at: now, done: null, error: "" });

/** Whether this value can be the answer to an order. A blind has no channels. */
function isAnswerTo({ order: [, , channel], at }, { received, channel: from }) {
    const isOther = from !== null && ![String(from), String(ALL_CHANNELS)].includes(channel);
    return received !== null && received >= at && !isOther;
}

/**
 * What has become of an order to this device.
 * @returns {"sending"|"sent"|"answered"|"silent"|"failed"}
 */
export function orderStateOf(sent, device, now) {
    if (sent.error)
        return "failed";
    if ([...device.readings.values()].some(value => isAnswerTo(sent, value)))
        return "answered";
    if (sent.done === null)
        return "sending";
    return now - sent.done < answerTimeout(sent.order) ? "sent" : "silent";
}
