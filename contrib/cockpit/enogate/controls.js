// The buttons of an actuator, and what has become of the last order.

import { addressOf } from "./address.js";
import { orderStateOf, SILENT_HINT } from "./answers.js";
import { _, format } from "./cockpit.js";
import { button, element, setOptions, setText } from "./dom.js";
import { ALL_CHANNELS } from "./orders.js";

const STATE_TEXTS = new Map([
    ["sending", "…"], ["sent", _("sent …")], ["answered", _("✓ answered")], ["silent", _("no answer")],
]);

const buttonGroup = (...buttons) => element("span", { className: "group", role: "group" }, ...buttons);

export class Controls {
    /**
     * @param {{kind: string, channels: number[]}} abilities
     * @param {boolean} isFull - whether the device can also be asked, and a blind be moved to a position
     */
    constructor(id, { kind, channels }, isFull, page) {
        Object.assign(this, { id, page, isFull, slider: null, isEnabled: null });
        this.answer = element("span", { className: "answer", role: "status" });
        this.channel = this.channelSelect(channels);
        const made = kind === "blind" ? this.blindControls(isFull) : this.switchControls(kind, isFull);
        const more = channels.length > 1 ? [this.channel] : [];
        this.hint = element("span", { className: "minor", hidden: true }, SILENT_HINT, " ",
                            element("a", { href: addressOf("add") }, _("Add device")));
        this.link = element("a", { href: addressOf("device", id), title: SILENT_HINT }, STATE_TEXTS.get("silent"));
        this.element = element("div", { className: "controls" }, ...more, ...made, this.answer,
                               ...isFull ? [this.hint] : []);
        this.targets = [...this.element.querySelectorAll("button, input, select")];
    }

    channelSelect(numbers) {
        const made = element("select", { ariaLabel: _("Channel"), title: _("Channel") });
        setOptions(made, numbers.map(number =>
            [String(number), number === ALL_CHANNELS ? _("all") : format(_("ch $0"), number)]));
        return made;
    }

    /** A button that gives this order. */
    orderButton(text, order, title = "") {
        const made = button(text, () => this.page.giveToDevice(this.id, order()));
        return title ? Object.assign(made, { title, ariaLabel: title }) : made;
    }

    /** A slider that gives this order when it is released. */
    orderSlider(title, order) {
        this.slider = element("input", { type: "range", min: 0, max: 100, value: 50, ariaLabel: title, title });
        this.slider.addEventListener("input", () => setText(this.answer, `${this.slider.value} %`));
        this.slider.addEventListener("change", () => this.page.giveToDevice(this.id, order(Number(this.slider.value))));
        return this.slider;
    }

    blindControls(isFull) {
        const moves = buttonGroup(this.orderButton("▲", () => ["blind", this.id, 0], _("Up")),
                                  this.orderButton("■", () => ["stop", this.id], _("Stop")),
                                  this.orderButton("▼", () => ["blind", this.id, 100], _("Down")));
        const more = () => [this.orderSlider(_("Position in percent"), percent => ["blind", this.id, percent]),
                            this.orderButton(_("Ask for its state"), () => ["query", this.id, 0])];
        return isFull ? [moves, ...more()] : [moves];
    }

    switchControls(kind, isFull) {
        const channel = () => this.channel.value;
        const made = [buttonGroup(this.orderButton(_("On"), () => ["switch", this.id, channel(), "on"]),
                                  this.orderButton(_("Off"), () => ["switch", this.id, channel(), "off"]))];
        if (kind === "dimmer")
            made.push(this.orderSlider(_("Percent"), percent => ["dim", this.id, channel(), percent]));
        const meter = (text, what) => this.orderButton(text, () => ["meter", this.id, channel(), what]);
        const more = () => [this.orderButton(_("Ask for its state"), () => ["query", this.id, channel()]),
                            meter(_("Ask for its energy"), "energy"), meter(_("Ask for its power"), "power")];
        return isFull ? [...made, ...more()] : made;
    }

    fill(device, now) {
        const { canOrderNow } = this.page;
        if (canOrderNow !== this.isEnabled) {
            this.isEnabled = canOrderNow;
            this.targets.forEach(target => { target.disabled = !canOrderNow; });
        }
        this.fillSlider(device);
        const sent = this.page.sent.get(this.id);
        const state = sent ? orderStateOf(sent, device, now) : "";
        // The slider shows its value there while it is moved.
        if (this.answer.dataset.state !== state || state === "failed") {
            this.answer.dataset.state = state;
            this.hint.hidden = state !== "silent";
            setText(this.answer, sent?.error || STATE_TEXTS.get(state) || "");
            if (state === "silent" && !this.isFull)
                this.answer.replaceChildren(this.link);
        }
    }

    /** The slider is where the device has reported to be, unless somebody moves it. */
    fillSlider({ readings }) {
        const value = readings.get(`OV  ${this.channel.value}`) ?? readings.get("POS  ");
        if (this.slider && value?.reading.num !== undefined && !this.slider.matches(":active, :focus"))
            this.slider.value = value.reading.num / value.reading.den;
    }
}
