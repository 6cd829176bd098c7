// The dialog that sets up a gateway: its name, the serial port of its radio module, and its service.

import { _, format } from "./cockpit.js";
import * as commands from "./commands.js";
import { acceptField, byId, onEnter, setOptions, setText } from "./dom.js";
import { failureText } from "./orders.js";
import { isGatewayName } from "./places.js";

const USUAL_NAME = "hall";
const NAME_RULE = _("Use letters, digits, - and _, and do not begin with - or mqtt.");
const NAME_TAKEN = _("There is a gateway with this name already: choose another name.");
const NO_PORT = _("No free serial port was found. Plug in the stick, and open this dialog again.");
const NO_RIGHTS = _("Or you may not see it. To set up a gateway, turn on administrative access in Cockpit, or ask an " +
    "administrator of this machine.");

/** Which of these gateways uses which of these ports, also by another name of the port. */
async function usersOfPorts(ports, gateways) {
    const settings = await Promise.all(gateways.map(name => commands.readSettings(name)));
    const used = settings.map((found, index) => [found.get("SERIAL"), gateways[index]]).filter(([serial]) => serial);
    const files = await commands.realPaths([...ports, ...used.map(([serial]) => serial)]);
    const users = new Map(used.map(([, name], index) => [files[ports.length + index], name]));
    return new Map(ports.map((port, index) => [port, users.get(files[index])]));
}

export class SetupDialog {
    constructor(page) {
        Object.assign(this, { page, dialog: byId("setup"), name: byId("setup-name"), port: byId("setup-port") });
        // The gateway whose settings this dialog has written, which gateways use the ports, and what was begun last.
        Object.assign(this, { written: null, users: new Map(), action: null });
        this.port.addEventListener("change", () => this.run(async () => this.refusal));
        onEnter(this.name, () => this.setUp());
        byId("no-gateway-setup").addEventListener("click", () => this.open());
        byId("gateway-setup").addEventListener("click", () => this.open());
        byId("setup-look").addEventListener("click", () => this.run(() => this.lookForModule()));
        byId("setup-go").addEventListener("click", () => this.setUp());
    }

    /** Why the port is refused; empty if it is not. */
    get refusal() {
        const user = this.users.get(this.port.value);
        return user ? format(_("The gateway $0 uses this port."), user) : "";
    }

    open() {
        this.written = null;
        this.port.disabled = false;
        this.name.value = this.page.gateways.includes(USUAL_NAME) ? "" : USUAL_NAME;
        this.dialog.showModal();
        return this.run(async () => {
            const ports = await commands.serialPorts();
            this.users = await usersOfPorts(ports, this.page.gateways);
            const free = ports.find(path => !this.users.get(path)) ?? "";
            const note = user => user ? `, ${format(_("in use by $0"), user)}` : "";
            const options = ports.map(path =>
                [path, path.replace("/dev/serial/by-id/", "") + note(this.users.get(path))]);
            setOptions(this.port, free ? options : [["", "–"], ...options], free);
            return free ? "" : NO_PORT;
        });
    }

    /**
     * Does something, and shows what it returns, or why it failed. Meanwhile the buttons cannot be used. If the dialog
     * is opened again before that, nothing of it is shown.
     */
    async run(action) {
        this.action = action;
        const enable = isEnabled => ["look", "go"].forEach(name => { byId(`setup-${name}`).disabled = !isEnabled; });
        enable(false);
        setText(byId("setup-result"), "…");
        const textOf = error => error.problem === "change-conflict" ? NAME_TAKEN : failureText(error);
        const text = await action().catch(textOf);
        if (this.action === action) {
            setText(byId("setup-result"), text);
            enable(this.port.value && !this.refusal);
        }
    }

    async lookForModule() {
        return format(_("A radio module answers. Its base ID is $0."), await commands.moduleBase(this.port.value));
    }

    setUp() {
        const name = this.name.value.trim();
        const taken = this.page.gateways.includes(name) && name !== this.written ? NAME_TAKEN : "";
        if (acceptField(this.name, isGatewayName(name) ? taken : NAME_RULE) && !byId("setup-go").disabled)
            this.run(() => this.start(name));
    }

    /** Writes the settings, unless an earlier try has done so, and starts the service, now and at each boot. */
    async start(name) {
        if (name !== this.written)
            await commands.writeSettings(name, this.port.value);
        this.written = name;
        this.port.disabled = true;
        await commands.controlService(name, "enable", "--now");
        this.dialog.close();
        await this.page.findGateways(name);
        return "";
    }

    paint() {
        const { isAdmin } = this.page.rights;
        byId("no-gateway-setup").disabled = byId("gateway-setup").disabled = !isAdmin;
        setText(byId("no-gateway-hint"), isAdmin ? "" : NO_RIGHTS);
    }
}
