// The page: connects the sections to one gateway.

import { AddSection } from "./add.js";
import { addressOf, viewOf } from "./address.js";
import { startedOrder } from "./answers.js";
import { _, cockpit, format, ngettext } from "./cockpit.js";
import * as commands from "./commands.js";
import { DeviceSection } from "./device.js";
import { DevicesSection } from "./devices.js";
import { button, byId, Painter, setText, showText } from "./dom.js";
import { Feed } from "./feed.js";
import { GroupsSection } from "./groups.js";
import { devicesByState, isQuiet } from "./health.js";
import { parseJson } from "./lines.js";
import { lastHeardTime, Model } from "./model.js";
import { orderCommand, reasonOf } from "./orders.js";
import { OverviewSection } from "./overview.js";
import { PacketsSection } from "./packets.js";
import { baseFault, gatewayFault, runIdOf } from "./places.js";
import { Rights } from "./rights.js";
import { SetupDialog } from "./setup.js";
import * as words from "./words.js";

// In ms: how long after a teach line the devices are asked for, and how often the state of the service is.
const REFRESH_DELAY = 1000;
const CHECK_INTERVAL = 2000;
// How often the free space is looked at, in ms.
const SPACE_INTERVAL = 60000;
// For how long after its start, in ms, a gateway that does not answer is asked again. It may have no desk yet.
const START_TIME = 60000;
const NO_RIGHTS = _("You can look, but not change anything. Turn on administrative access in Cockpit, or ask an " +
    "administrator to add you to the group enogate.");
const NO_LINES = _("You can see nothing, since the lines cannot be read. Turn on administrative access in Cockpit.");
const FEED_TEXTS = { reading: _("reading"), live: _("live"), lost: _("lost") };
// The browser stores after how many hours a device is silent (empty: by its profile), and the gateway, also that of
// each window.
const [STORED_HOURS, STORED_GATEWAY] = ["enogate-silent-hours", "enogate-gateway"];
// Each window stores when the devices of its gateway were heard, for a reload: lines have no times.
const STORED_TIMES = "enogate-times";
// A reload takes less than this, in ms.
const RELOAD_TIME = 30000;
// The tab of a view that has none of its own.
const TAB_OF_VIEW = new Map([["device", "devices"], ["groups", "devices"]]);

/** After how many minutes a device is silent, by these hours: 0 is never, and null by its profile. */
const minutesIn = hours => hours === "" ? null : 60 * Number(hours) || Infinity;

/** Whether a click on a link opens it in this page, and not in another tab or window. */
const isPlainClick = event => !event.ctrlKey && !event.metaKey && !event.shiftKey;

/** When the devices of a gateway were heard before a reload, by their IDs; none if the page was not just reloaded. */
function timesBeforeReload(name) {
    const { gateway, left, times } = parseJson(sessionStorage.getItem(STORED_TIMES)) ?? {};
    return new Map(gateway === name && Date.now() - left < RELOAD_TIME ? times : []);
}

/** Removes what only a section that is shown needs. */
function leave(section) {
    section.rows?.clear();
    section.leave?.();
}

class Page {
    constructor() {
        Object.assign(this, { gateway: null, feed: null, query: "", section: "overview", part: "" });
        Object.assign(this, { gateways: [], searchTimer: null, space: null });
        this.rights = new Rights(() => this.rightsChanged());
        byId("devices-quiet").value = localStorage.getItem(STORED_HOURS) ?? "";
        this.minutes = minutesIn(byId("devices-quiet").value);
        this.resetGateway();
        this.painter = new Painter(() => this.paint());
        this.sections = {
            overview: new OverviewSection(this), devices: new DevicesSection(this), device: new DeviceSection(this),
            groups: new GroupsSection(this), add: new AddSection(this), packets: new PacketsSection(this),
        };
        this.setup = new SetupDialog(this);
    }

    /** Nothing is known about the gateway yet. */
    resetGateway() {
        this.model = new Model(Date.now());
        this.health = { states: null, hasStick: null };
        Object.assign(this, { run: null, runSince: 0, baseRun: null, mustAskAgain: false });
        this.settings = new Map();
        this.feedState = { state: "reading", why: "" };
        this.refreshTimer = null;
        /** @type {Map<string, Object>} the last order to each device */
        this.sent = new Map();
        this.rights.hasDesk = null;
        this.mayOrder = this.rights.mayOrder;
    }

    /** Whether an order can be given now. */
    get canOrderNow() {
        return this.mayOrder && this.run !== null;
    }

    isQuiet(device) {
        return isQuiet(device, this.model.opened, Date.now(), this.minutes);
    }

    async start() {
        byId("problem-close").addEventListener("click", () => this.showError(""));
        byId("trouble-help").addEventListener("click", ({ target }) => this.fixProblem(target.dataset.action, target));
        byId("search").addEventListener("input", () => this.search(byId("search").value));
        byId("hidden-clear").addEventListener("click", () => this.search(byId("search").value = ""));
        byId("devices-quiet").addEventListener("input", () => this.setHours(byId("devices-quiet").value));
        addEventListener("hashchange", () => this.openAddress(location.hash));
        addEventListener("pagehide", () => this.storeTimes());
        // A click on a tab shows its section at once: the event of the new address comes later.
        for (const tab of document.querySelectorAll("#sections a"))
            tab.addEventListener("click", event => isPlainClick(event) && this.openAddress(tab.hash));
        this.openView();
        // Ages and the countdown change by themselves.
        setInterval(() => this.painter.requestPaint(), 1000);
        setInterval(() => this.checkGateway(), CHECK_INTERVAL);
        setInterval(() => this.checkSpace(), SPACE_INTERVAL);
        this.checkSpace();
        await this.findGateways();
    }

    /** Stores when each device was heard. */
    storeTimes() {
        const times = [...this.model.devices].map(([id, device]) => [id, lastHeardTime(device)]);
        sessionStorage.setItem(STORED_TIMES, JSON.stringify({ gateway: this.gateway, left: Date.now(), times }));
    }

    /** Opens the section that an address names, if it is not open. */
    openAddress(address) {
        if (address === this.address)
            return;
        location.hash = address;
        this.openView();
    }

    /** Opens the section that the address of the page names. */
    openView() {
        this.address = location.hash;
        leave(this.sections[this.section]);
        Object.assign(this, viewOf(location.hash));
        for (const name of Object.keys(this.sections))
            byId(name).hidden = name !== this.section;
        const tab = TAB_OF_VIEW.get(this.section) ?? this.section;
        for (const link of document.querySelectorAll("#sections a"))
            link.setAttribute("aria-current", String(link.dataset.section === tab));
        scrollTo(0, 0);
        this.painter.paintNow();
    }

    /** One text is searched for in all lists. */
    search(text) {
        this.query = text;
        if (text && !["devices", "add", "packets"].includes(this.section))
            location.hash = addressOf("devices");
        this.painter.paintNow();
    }

    /** Sets after how many hours a device is silent; empty: by its profile. */
    setHours(text) {
        localStorage.setItem(STORED_HOURS, text);
        this.minutes = minutesIn(text);
        this.painter.paintNow();
    }

    /** Administrative access was turned on or off. */
    rightsChanged() {
        if (this.updateRights()) {
            this.askForDevicesAndBase();
            this.readRecordedDevices(this.gateway);
        }
        this.painter.paintNow();
    }

    /** Takes the present rights. Returns whether the user may give orders from now on. */
    updateRights() {
        const before = this.mayOrder;
        this.mayOrder = this.rights.mayOrder;
        return this.mayOrder && !before;
    }

    /** Makes a tab for each gateway, and opens one: that with this name, if it is given. Looks until there is one. */
    async findGateways(wanted = sessionStorage.getItem(STORED_GATEWAY) ?? localStorage.getItem(STORED_GATEWAY)) {
        clearTimeout(this.searchTimer);
        const names = await commands.gatewayNames();
        const first = await commands.firstGateway(names, wanted);
        this.gateways = names;
        byId("gateways").replaceChildren(...names.map(name => {
            const tab = button(name, () => this.openGateway(name));
            tab.setAttribute("role", "tab");
            tab.dataset.gateway = name;
            return tab;
        }));
        byId("no-gateway").hidden = names.length > 0;
        if (first)
            await this.openGateway(first);
        else
            this.searchTimer = setTimeout(() => this.findGateways(), CHECK_INTERVAL);
    }

    async openGateway(name) {
        if (this.feed)
            this.feed.stop();
        clearTimeout(this.refreshTimer);
        for (const section of Object.values(this.sections)) {
            leave(section);
            section.clear?.();
        }
        this.resetGateway();
        Object.assign(this, { gateway: name, model: new Model(Date.now(), timesBeforeReload(name)) });
        [sessionStorage, localStorage].forEach(store => store.setItem(STORED_GATEWAY, name));
        for (const tab of byId("gateways").children)
            tab.setAttribute("aria-selected", String(tab.dataset.gateway === name));
        this.feed = new Feed(name, (line, now) => this.take(line, now), (state, why) => {
            this.feedState = { state, why };
            this.askForBase();
            this.painter.requestPaint();
        });
        await Promise.all([this.checkGateway(), this.readRecordedDevices(name)]);
    }

    /** Reads what the lines record of the devices. Someone who may give no order has no other list of them. */
    async readRecordedDevices(name) {
        if (name === null)
            return;
        const devices = await commands.recordedDevices(name);
        if (name !== this.gateway)
            return;
        this.model.takeRecorded(devices);
        this.painter.requestPaint();
    }

    take(line, now) {
        this.model.take(line, now);
        this.sections.add.teach.takeLine(line, now);
        // A device that is learned may have a label already, and the learn window may have closed.
        if (now !== null && line.type === "teach")
            this.refreshTimer ??= setTimeout(() => this.refresh(), REFRESH_DELAY);
        this.painter.requestPaint();
    }

    /** Looks at the service, the stick and the desk. Asks the gateway for its devices after each start. */
    async checkGateway() {
        const name = this.gateway;
        if (name === null || document.hidden)
            return;
        const settings = await commands.readSettings(name);
        const serial = settings.get("SERIAL");
        const [states, hasStick, hasDesk] = await Promise.all([
            commands.serviceState(name), serial ? commands.hasStick(serial) : null, this.rights.checkDesk(name),
        ]);
        if (name !== this.gateway)
            return;
        const before = this.run;
        Object.assign(this, { settings, health: { states, hasStick }, run: runIdOf(states, hasStick) });
        this.rights.hasDesk = hasDesk;
        const mayOrderNow = this.updateRights();
        this.painter.requestPaint();
        // The stick may be another one.
        if (this.run !== before)
            [this.model.baseTime, this.runSince] = [null, Date.now()];
        if (this.run !== before || mayOrderNow || this.mustAskAgain)
            this.askForDevicesAndBase();
    }

    /** Looks how much space is left for the files of all gateways. */
    async checkSpace() {
        if (document.hidden)
            return;
        this.space = await commands.freeSpace();
        this.painter.requestPaint();
    }

    /** Runs a command that gives orders, without becoming root if the user may write the desk. */
    runCommand(command) {
        return commands.runCommand(command, this.rights.hasDesk ? "user" : "root");
    }

    /** Gives an order. The promise is rejected if the gateway refuses it or does not answer. */
    give(order) {
        return this.runCommand(orderCommand(this.gateway, order));
    }

    /** Gives an order by a button. An error is shown until it is closed, or until the next such order succeeds. */
    async giveByButton(order, pressed) {
        pressed.disabled = true;
        this.showError(await this.orderError(order));
        this.painter.paintNow();
    }

    /** Gives an order to a device, whose row shows what has become of it. */
    async giveToDevice(id, order) {
        const sent = startedOrder(order, Date.now());
        this.sent.set(id, sent);
        this.painter.paintNow();
        sent.error = await this.orderError(order);
        sent.done = Date.now();
        this.painter.paintNow();
    }

    /** Starts, restarts or stops the service. Returns why this failed; empty if it did not. */
    async controlService(verb, pressed) {
        pressed.disabled = true;
        const why = await reasonOf(commands.controlService(this.gateway, verb));
        this.showError(why);
        await this.checkGateway();
        return why;
    }

    /** Whether this user may use the button of a problem. */
    mayUseFix(action) {
        return action === "Journal" || (action === "Close" ? this.canOrderNow : this.rights.isAdmin);
    }

    /** Does what the button of a problem promises. */
    fixProblem(action, pressed) {
        if (action === "Journal")
            commands.openService(this.gateway);
        else if (action === "Close")
            this.sections.add.teach.close();
        else
            this.controlService(action === "Start" ? "start" : "restart", pressed);
    }

    /** Asks for the devices. The answer comes with the lines, and with it the counters and the learn window. */
    refresh() {
        clearTimeout(this.refreshTimer);
        this.refreshTimer = null;
        return this.giveInBackground(["list"]);
    }

    /**
     * Asks for all that the lines may not have, or have of an earlier stick. A gateway that starts is asked until it
     * answers: there is no file of lines before its first answer.
     */
    async askForDevicesAndBase() {
        this.mustAskAgain = false;
        if (this.run === null)
            return;
        const { model } = this;
        const error = await this.refresh();
        await this.askForBase();
        // Another gateway may have been opened meanwhile.
        if (model === this.model)
            this.mustAskAgain = error !== "" && Date.now() - this.runSince < START_TIME;
    }

    /**
     * Asks for the base ID, once for each start of the gateway, and only when the lines are followed: an answer among
     * the earlier lines would have no time.
     */
    async askForBase() {
        const { run } = this;
        if (run === null || run === this.baseRun || this.feedState.state !== "live" || !this.mayOrder)
            return;
        this.baseRun = run;
        if (await this.giveInBackground(["base"]) && this.baseRun === run)
            this.baseRun = null;
    }

    /** Gives an order that nobody has asked for. Returns its error, which is not shown: the gateway may be starting. */
    async giveInBackground(order) {
        return this.mayOrder && this.gateway !== null ? this.orderError(order) : "";
    }

    /** Why an order failed; empty if it did not. */
    orderError(order) {
        return reasonOf(this.give(order));
    }

    /** Shows an error until it is closed. */
    showError(text) {
        byId("problem").hidden = text === "";
        setText(byId("problem-text"), text);
    }

    paint() {
        const { model } = this;
        this.groups = devicesByState(model, this.sent, Date.now(), this.minutes);
        this.paintHead();
        setText(byId("device-count"), String(model.devices.size || ""));
        setText(byId("unknown-count"), `${model.unknown.size || ""}${model.unknownLeftOut ? "+" : ""}`);
        const count = this.sections[this.section].paint() ?? 0;
        const hidden = ngettext("$0 entry is hidden by the search.", "$0 entries are hidden by the search.", count);
        byId("hidden").hidden = !count;
        setText(byId("hidden-text"), format(hidden, count));
        [this.sections.add.dialog, this.sections.device.dialog, this.setup].forEach(dialog => dialog.paint());
    }

    /** Shows the state of the gateway above all sections. The Overview has a list of what is wrong. */
    paintHead() {
        const { model, health: { states, hasStick }, feedState, settings } = this;
        const left = this.sections.add.teach.secondsLeft();
        const open = left === null ? _("Learn window open")
            : format(_("Learn window open $0"), words.countdownText(left));
        showText(byId("window"), model.isWindowOpen ? open : "");
        showText(byId("read-only"), !this.rights.mayOnlyRead ? "" : feedState.state === "lost" ? NO_LINES : NO_RIGHTS);
        const stopped = gatewayFault(this.gateway, states, hasStick, settings.get("SERIAL"));
        const wrong = stopped ?? baseFault(this.gateway, settings, model);
        const texts = [feedState.why, wrong && `${wrong.text}. ${wrong.detail}`].filter(Boolean);
        byId("trouble").hidden = this.section === "overview" || !texts.length;
        setText(byId("trouble-text"), texts.join(" ").trim());
        byId("trouble-help").hidden = !wrong;
        byId("trouble-help").dataset.action = wrong?.action ?? "";
        setText(byId("trouble-help"), wrong ? _(wrong.action) : "");
        byId("trouble-help").disabled = !wrong || !this.mayUseFix(wrong.action);
        showText(byId("feed"), this.gateway === null ? "" : stopped?.word ?? FEED_TEXTS[feedState.state]);
        byId("feed").dataset.state = stopped ? "stopped" : feedState.state;
    }
}

document.documentElement.lang = cockpit.language;
cockpit.translate();
new Page().start();
