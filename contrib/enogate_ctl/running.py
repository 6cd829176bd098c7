"""Whether the gateway of a unit runs. If it does not, no order is written to its desk: its next start would discard it.

Only what each user may see is looked at, so that root and a member of the group get the same sentence. A gateway that
somebody runs by hand at the desk of a unit counts, too."""
from __future__ import annotations

import os

from enogate_tools.gateways import Paths, why_unknown
from enogate_tools.system import Process, System

# What systemctl prints about a unit that does not run, and the sentence for it.
STOPPED_TEXTS = {"inactive": "{0} is stopped: sudo systemctl start {0}",
                 "failed": "{0} has failed: find out why with sudo journalctl -n 20 -u {0}"}
# How long a start of the gateway takes at most, in seconds. Until then, the desk may have been emptied already, and an
# order that is written to it is carried out.
MAX_START_SECONDS = 10.0


def why_not_running(paths: Paths, system: System) -> str:
    """A sentence that says why the gateway does not run, and what to do. Empty if it runs, or if this is not known: its
    processes may be hidden from this user, and it may be about to start."""
    if not paths.name or system.gateway_at(paths.desk):
        return ""
    if why := why_unknown(paths, system.root):
        return why
    folder = os.path.dirname(paths.desk)
    if start := system.main_process(folder):
        why = why_waiting(paths, system, start)
        # It may have started the gateway, or ended, meanwhile.
        return "" if system.gateway_at(paths.desk) or system.main_process(folder) != start else why
    desks = filter(None, (system.option_value(one, "--desk") for one in system.processes() if one.name == "enogate"))
    if any(not os.path.isabs(desk) or os.path.realpath(desk) == os.path.realpath(paths.desk) for desk in desks):
        # This gateway was started by hand with another name of the desk, perhaps in its directory.
        return ""
    return STOPPED_TEXTS.get(system.unit_state(paths.unit), "").format(paths.unit)


def why_waiting(paths: Paths, system: System, start: Process) -> str:
    """A sentence that says for what this main process of the unit waits; empty if the gateway may be about to start."""
    from enogate_tools.check import FAULT, NOT_STARTED, Check
    check = Check(paths.name, system)
    # With these two, the check opens no port.
    check.gateway, check.start = None, start
    # The setting may have been corrected after this start.
    check.settings["SERIAL"] = system.option_value(start, "--serial")
    try:
        fault = next(text for kind, text in check.check_port() if kind == FAULT)
    except OSError:
        # The stick was unplugged in this moment.
        return ""
    is_starting = fault == NOT_STARTED.format(paths.name) and system.age_of(start) < MAX_START_SECONDS
    return "" if is_starting else f"{paths.unit} waits: {fault}"
