"""Makes a script for `enogate replay` from the lines of a gateway that runs with --explain. The lines do not have
everything: an order is replaced by one with the same answer, and the data of packets without a telegram by zeros. If a
line shows a state to which no earlier line led (devices, labels, the learn window), the script sets it before."""
from __future__ import annotations

import contextlib
from collections.abc import Iterable, Sequence
from typing import Any

from enogate_ctl.recorded import json_line
from enogate_lines.contents import BadLine, COUNTERS, MAX_BYTE, OPTIONAL_TEXT_PATTERN, PROFILE_PATTERN, checked_count
from enogate_lines.contents import checked_number, checked_text, dbm_of, device_of, eep_of, maker_of, members_of
from enogate_tools import esp3
from enogate_tools.share import device_kind, texts_by_word

MAX_SCRIPT_BYTES, MAX_DEVICES, MAX_LINE_BYTES = 1 << 24, 1000, 99
RESULT_TEXTS = texts_by_word("result")
# The type of the line that follows a packet line with this reason, and the counter of the packet.
FOLLOWING_BY_REASON = {"read": ("reading", "readings"), "response": ("response", "responses"),
                       "refused": ("error", "refused"), **dict.fromkeys(RESULT_TEXTS, ("teach", "teach"))}
# An order with this error as its answer. ID is one that no device has.
FAULTY_ORDER_BY_ERROR = {"too_long": "x" * 201, "syntax": "?", "range": "remove FFFFFFFF",
                         "unknown_device": "remove ID",
                         "unsupported_profile": "learn as 00-00-00", "full": "add ID D5-00-01"}
NO_DEVICE = "", None, ""
Members = dict[str, Any]


class NotReplayed(Exception):
    """These lines are left out: they are incomplete, or their input cannot be replayed."""


class Script:
    """A script for the gateway with this base ID, and the lines that its replay has to write."""

    def __init__(self, base: str, unused_id: str):
        self.base, self.unused_id, self.orders = base, unused_id, list[str]()
        self.expected_lines, self.size = list[str](), 0
        # The state of the replay: profile, maker and label of each device, the mode, and the counters.
        self.devices: dict[str, tuple[str, int | None, str]] = {}
        self.mode, self.counts = "closed", dict.fromkeys(COUNTERS, 0)
        # What the gateway had counted before; how many inputs there are; how many lines are left out; and how often the
        # counters of the gateway did not fit its packets.
        self.counts_before: dict[str, int] = {}
        self.input_count = self.left_out_count = self.gap_count = 0

    def append(self, order: str, lines: Sequence[Members] = ({"type": "ok"},)) -> None:
        """Appends an order or a packet, and its answer."""
        self.orders.append(order)
        self.expected_lines += map(json_line, lines)
        self.size += len(order)

    def take(self, lines: list[Members]) -> None:
        """Appends the order or the packet with this answer, and before it what sets the state for it."""
        match lines[0]:
            case {"type": "packet", "why": reason} if reason != "refused" and self.size < MAX_SCRIPT_BYTES:
                order = self.packet_order(reason, lines[0], lines[-1])
            case {"type": "device" | "list"} if lines[-1]["count"] == len(lines) - 1:
                order = self.list_order(lines[:-1])
            case {"type": "teach", "result": "accepted", "maker": None, "id": device, "eep": eep}:
                self.learn(lines[0])
                order = f"add {device} {eep}"
            case {"type": "teach", "result": "deleted", "id": device}:
                self.set_device(device_of(lines[0]), eep_of(lines[0]), maker_of(lines[0]))
                del self.devices[device]
                order = f"remove {device}"
            case {"type": "status", "mode": mode, **counters}:
                self.set_mode(mode)
                new_counts = {name: checked_count(counters[name]) - self.counts[name] for name in COUNTERS}
                self.gap_count += self.counts_before not in ({}, new_counts)
                self.counts_before, order = new_counts, "status"
                lines[0].update(self.counts)
            case {"type": "ok"}:
                order = "base"
            case {"type": "error", "error": "wrong_profile"}:
                # Only blinds stop, and they have no switch.
                device, (eep, *_) = next(iter(self.devices.items()))
                order = f"switch {device} 0 on" if eep.startswith("D2-05") else f"stop {device}"
            case {"type": "error", "error": error} if error != "full" or self.is_full_for(self.unused_id):
                order = FAULTY_ORDER_BY_ERROR[error].replace("ID", self.unused_id)
            case _:
                raise NotReplayed
        self.append(order, lines)

    def packet_order(self, reason: str, packet_line: Members, report: Members) -> str:
        """The lines of the script with a packet. The report is the second line about it, or the only one."""
        if "rorg" in packet_line:
            packet_bytes = self.telegram(reason, packet_line, report)
        else:
            size = checked_number(packet_line["size"], 0, 0xFFFF)
            kind = checked_number(packet_line["kind"], 0, MAX_BYTE)
            data = bytes([report["code"]]) + bytes.fromhex(report["data"]) if reason == "response" else bytes(size)
            if len(data) != size:
                raise NotReplayed
            # A packet has data or optional data.
            packet_bytes = esp3.packet(kind, data, b"" if size else b"\0")
        self.counts[FOLLOWING_BY_REASON.get(reason, ("", "ignored"))[1]] += 1
        return "\n".join(f"S {packet_bytes[offset:offset + MAX_LINE_BYTES].hex().upper()}"
                         for offset in range(0, len(packet_bytes), MAX_LINE_BYTES))

    def telegram(self, reason: str, packet_line: Members, report: Members) -> bytes:
        """The packet of a telegram."""
        device, rorg, payload = device_of(packet_line), packet_line["rorg"], bytes.fromhex(packet_line["payload"])
        destination, mode = int(packet_line["dest"] or "FFFFFFFF", 16), mode_for(self.mode, reason, packet_line, report)
        packet_bytes = esp3.telegram(int(rorg, 16), payload, int(device, 16), int(packet_line["status"], 16),
                                     destination, dbm_of(packet_line))
        is_for_gateway = destination == esp3.BROADCAST_ID or destination & ~0x7F == int(self.base, 16)
        if device_of(report) != device or reason == "full" and not self.is_full_for(device) or (
                reason != "from_broadcast" and is_for_gateway == (reason == "for_others")):
            raise NotReplayed
        if reason in ("read", "wrong_kind", "wrong_length", "other_message"):
            self.set_device(device, eep_of(packet_line), maker_of(packet_line))
        elif reason == "unknown_sender" or reason == "accepted" and rorg in ("F6", "D2"):
            self.set_device(device)
        self.set_mode(mode)
        if reason == "accepted":
            self.learn(report)
            self.mode = "closed" if mode.startswith("as ") else mode
        elif reason == "deleted":
            self.devices.pop(device, None)
        return packet_bytes

    def list_order(self, lines: Sequence[Members]) -> str:
        """The order for the list of all devices."""
        listed_devices = {device_of(line): (eep_of(line), maker_of(line),
                                            checked_text(line["label"], OPTIONAL_TEXT_PATTERN)) for line in lines}
        for device in [device_id for device_id in self.devices if device_id not in listed_devices]:
            self.set_device(device)
        for device, eep_maker_label in listed_devices.items():
            self.set_device(device, *eep_maker_label[:2])
            if eep_maker_label != self.devices[device]:
                self.append(f"label {device} {eep_maker_label[2]}".rstrip())
                self.devices[device] = eep_maker_label
        return "list"

    def is_full_for(self, device: str) -> bool:
        """Whether so many other devices are learned that this one cannot be."""
        return len(self.devices.keys() - {device}) >= MAX_DEVICES

    def learn(self, line: Members) -> None:
        """The device of this teach line is learned, and keeps its label. If the replay has too many others, the line is
        missing with which one of them was deleted."""
        if self.is_full_for(device_of(line)):
            self.set_device(next(iter(self.devices)))
        self.devices[line["id"]] = eep_of(line), maker_of(line), self.devices.get(line["id"], NO_DEVICE)[2]

    def set_device(self, device: str, eep: str = "", maker: int | None = None) -> None:
        """Sets that this device is learned, or without a profile that it is not."""
        eep_and_maker = self.devices.get(device, NO_DEVICE)[:2]
        if eep and not device_kind(eep):
            raise NotReplayed
        lines: list[Members] = [{"eep": eep or eep_and_maker[0], "id": device,
                                 "maker": maker if eep else eep_and_maker[1], "result":
                                 "accepted" if eep else "deleted", "type": "teach"}]
        if maker is not None:
            # A UTE query that waits for no reply.
            payload = b"\x40\0" + maker.to_bytes(2, "little") + bytes.fromhex(eep.replace("-", ""))[::-1]
            lines.insert(0, {"dbm": None, "dest": None, "eep": eep, "id": device, "maker": maker, "payload":
                             payload.hex().upper(), "rorg": "D4", "status": "00", "type": "packet", "why": "accepted"})
        if eep_and_maker != (eep, maker):
            self.take(lines)

    def set_mode(self, mode: str) -> None:
        """Sets this mode of the learn window."""
        if mode != self.mode:
            checked_text(mode, f"closed|on|answer|as {PROFILE_PATTERN}")
            self.append(f"learn { {'closed': 'off', 'answer': 'on answer'}.get(mode, mode)}")
            self.mode = mode


def mode_for(mode: str, reason: str, packet_line: Members, report: Members) -> str:
    """A mode in which a telegram has these lines: the mode now, if this is possible."""
    rorg, modes = packet_line["rorg"], [mode]
    if reason == "window_closed" or reason == "unknown_sender" and mode[3:5] == rorg:
        modes = ["closed"]
    elif reason == "other_mode" and (not mode.startswith("as ") or mode[3:5] == rorg):
        modes = ["as F6-01-01"]
    elif reason in ("accepted", "full"):
        # The telegram has the profile, or is that of a contact; or the order `learn as` has it.
        has_eep = rorg == "D4" or rorg == "A5" and int(packet_line["payload"], 16) & 0x80
        is_own = report["eep"] == ("D5-00-01" if rorg == "D5" else packet_line["eep"] if has_eep else "")
        modes = ["on", "answer"] * is_own + [f"as {report['eep']}"] * (rorg != "D4")
    elif reason in RESULT_TEXTS:
        modes = ["on", "answer"]
    return mode if mode in modes else modes[0]


def parsed(line: bytes) -> tuple[Members, Sequence[str]]:
    """A line as a gateway writes it, or one without a type; and the types that the next line of its input may have."""
    members: Members = {"type": None}
    with contextlib.suppress(BadLine):
        parsed_members = members_of(line)
        if json_line(parsed_members).encode() == line and isinstance(parsed_members.get("why", ""), str):
            members = parsed_members
    reason = members.get("why")
    following_types = ("device", "list") if members["type"] == "device" else ()
    return members, FOLLOWING_BY_REASON[reason][:1] if reason in FOLLOWING_BY_REASON else following_types


def script_of(lines: Iterable[bytes], base: str, unused_id: str) -> Script:
    """The script for these lines. No device has the unused ID."""
    script, group, following_types = Script(base, unused_id), list[Members](), ()
    for line, types in map(parsed, lines):
        if group and line["type"] not in following_types:
            script.left_out_count += len(group)
            group = []
        group.append(line)
        if following_types := types:
            continue
        try:
            script.take(group)
            script.input_count += 1
        except (NotReplayed, LookupError, OverflowError, StopIteration, TypeError, ValueError):
            script.left_out_count += len(group)
        group = []
    script.left_out_count += len(group)
    return script
