// What the user of the page may do: administrators everything, once they have turned on administrative access; and
// whoever may write the desk of a gateway gives orders to it, without becoming root.

import { mayWriteDesk } from "./commands.js";
import { cockpit } from "./cockpit.js";

export class Rights {
    /** @param {function(): void} onChange - called when administrative access was turned on or off */
    constructor(onChange) {
        this.permission = cockpit.permission({ admin: true });
        this.permission.addEventListener("changed", onChange);
        this.hasDesk = null;
    }

    get isAdmin() {
        return this.permission.allowed === true;
    }

    get mayOrder() {
        return this.isAdmin || this.hasDesk === true;
    }

    /** Whether it is known that this user may give no orders. */
    get mayOnlyRead() {
        return this.permission.allowed === false && this.hasDesk === false;
    }

    /** Whether this user may write the desk of a gateway. Nobody looks at it if the user may give orders anyway. */
    checkDesk(name) {
        return this.mayOrder ? this.hasDesk : mayWriteDesk(name);
    }
}
