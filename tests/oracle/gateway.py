"""The gateway, from the definitions: what it writes for each line of a script. It shares nothing with the program."""
import re

from oracle import reasons
from oracle.esp3 import BROADCAST_ID, packet, packets_in_stream, gateway_telegram_packet
from oracle.lines import OK_LINE, device_lines, error_line, json_line, teach_line
from oracle.orders import matching_orders, is_in_range, order_payload
from oracle.profiles import is_supported, telegram_readings
from oracle.teach_in import ACTIONS_BY_TELEGRAM_KIND, telegram_kind, teach_in_reply_payload

BASE_ID = 0xFF800000
MAX_DEVICES = 1000  # devices
MAX_LINE_BYTES = 200  # bytes of a line

# The names of the return codes of the radio module.
RETURN_CODES = dict(enumerate(["OK", "ERROR", "NOT_SUPPORTED", "WRONG_PARAM", "OPERATION_DENIED"]))

# The lengths of the payload of a telegram, by its RORG.
PAYLOAD_LENGTHS = {0xF6: [1], 0xD5: [1], 0xA5: [4], 0xD2: range(1, 15), 0xD4: [7]}

# A line that `--explain` adds begins so in a session.
EXPLANATION_MARK = "+ "


def without_explanations(text):
    return "".join(line for line in text.splitlines(True) if not line.startswith(EXPLANATION_MARK))


def radio_output_line(stream):
    return f"S {stream.hex()}\n"


class ReceivedTelegram:
    """The telegram of a packet. Optional data of fewer than seven bytes is ignored: the telegram is to all."""

    def __init__(self, data, optional, base):
        self.rorg, self.payload, self.status = data[0], data[1:-5], data[-1]
        self.sender = int.from_bytes(data[-5:-1], "big")
        self.base, self.destination, self.dbm = base, BROADCAST_ID, None
        if len(optional) >= 7:
            self.destination, self.dbm = int.from_bytes(optional[1:5], "big"), -optional[5]

    def is_for_gateway(self):
        return self.destination == BROADCAST_ID or self.base <= self.destination < self.base + 128


class Gateway:
    """The lines that the gateway with this base ID must write for each line of a script."""

    def __init__(self, base=BASE_ID):
        self.base, self.devices, self.labels, self.mode, self.partial_packet = base, {}, {}, "closed", b""
        self.counts = dict.fromkeys(("ignored", "readings", "refused", "responses", "teach"), 0)

    def answer(self, text):
        """The lines for one line, which is given without its end."""
        return without_explanations(self.answer_with_explanations(text))

    def answer_with_explanations(self, text):
        """The same as a session has it: each line that `--explain` adds is marked."""
        text = text.removesuffix("\r")
        if len(text.encode(errors="surrogateescape")) > MAX_LINE_BYTES:
            return error_line("too_long")
        if not re.fullmatch("S ([0-9A-Fa-f]{2})*", text):
            return self.answer_to_order(text)
        return "".join(self.answer_to_packet(*whole_packet)
                       for whole_packet in self.complete_packets(bytes.fromhex(text[2:])))

    def complete_packets(self, stream):
        """The packets that these bytes complete. Bytes that may begin another one are held."""
        self.partial_packet = yield from packets_in_stream(self.partial_packet + stream)

    def answer_to_order(self, text):
        rows = matching_orders(text)
        if not rows:
            return error_line("syntax")
        values, does, payload_form = rows[0]
        # the ID of all is no sender
        if not all(is_in_range(values) for values, _, _ in rows) or self.base + values.get("OFF", 0) == BROADCAST_ID:
            return error_line("range")
        sender, eep = values.get("ID"), values.get("EEP")
        if eep is not None and not is_supported(eep):
            return error_line("unsupported_profile")
        if does == "mode":
            self.mode = payload_form.replace("EEP", eep or "")
            return OK_LINE
        if does == "list":
            return self.device_list()
        if does == "status":
            return json_line({**self.counts, "mode": self.mode, "type": "status"})
        if does == "module":
            return radio_output_line(packet(5, order_payload(payload_form, values))) + OK_LINE
        if does == "all":
            return radio_output_line(
                gateway_telegram_packet(0xA5, order_payload(payload_form, values), self.base + values["OFF"])
            ) + OK_LINE
        if does == "add":
            if self.has_no_room_for(sender):
                return error_line("full")
            self.devices[sender] = (eep, None)
            return teach_line(sender, eep, None, "accepted")
        if sender not in self.devices:
            return error_line("unknown_device")
        if does == "label":
            self.labels[sender] = values.get("TEXT", "")
            return OK_LINE
        if does == "remove":
            return teach_line(sender, *self.forget_device(sender), "deleted")
        return self.answer_to_actuator_order(rows, sender)

    def answer_to_actuator_order(self, rows, sender):
        """The packet of the first row whose profile the device has."""
        eep = self.devices[sender][0]
        for values, profile, payload_form in rows:
            if eep.startswith(profile):
                return radio_output_line(
                    gateway_telegram_packet(0xD2, order_payload(payload_form, values), self.base, sender)
                ) + OK_LINE
        return error_line("wrong_profile")

    def device_list(self):
        return device_lines(self.devices, self.labels)

    def has_no_room_for(self, sender):
        return sender not in self.devices and len(self.devices) >= MAX_DEVICES

    def forget_device(self, sender):
        """The profile and the maker that were known, if any."""
        self.labels.pop(sender, None)
        return self.devices.pop(sender, None)

    def answer_to_packet(self, kind, data, optional):
        if kind == 1 and data and len(data) - 6 in PAYLOAD_LENGTHS.get(data[0], []):
            telegram = ReceivedTelegram(data, optional, self.base)
            mode, known_device = self.mode, self.devices.get(telegram.sender)
            count, answer, teach_result = self.handle_telegram(telegram)
            reason = reasons.telegram_reason(telegram, mode, known_device, teach_result)
            members = reasons.explanation_members(telegram, reason, known_device, teach_result)
        else:
            count, answer = "ignored", ""
            if kind == 2 and data:
                count, answer = "responses", self.response_line(data)
            reason, members = reasons.packet_reason(kind, data), {"kind": kind, "size": len(data)}
        self.counts[count] += 1
        assert reasons.COUNTER_BY_REASON[reason] == count, f"{data.hex()} is {reason}, and is counted otherwise"
        radio, desk = re.fullmatch(r"(S .*\n)?(.*\n)?", answer).groups("")
        return radio + EXPLANATION_MARK + json_line({**members, "type": "packet", "why": reason}) + desk

    def response_line(self, data):
        name = RETURN_CODES.get(data[0])
        return json_line({"code": data[0], "data": data[1:].hex().upper(), "name": name, "type": "response"})

    def handle_telegram(self, telegram):
        """The count that is incremented, what is written, and what the teach line has, if there is one."""
        if telegram.sender == BROADCAST_ID or not telegram.is_for_gateway():
            return "ignored", "", None
        known_device = self.devices.get(telegram.sender)
        kind, eep_and_maker = telegram_kind(telegram.rorg, telegram.payload, known_device is not None)
        if kind == "data" and known_device:
            readings = telegram_readings(known_device[0], telegram.rorg, telegram.payload, telegram.status)
            if readings is None:
                return "ignored", "", None
            reading = {"dbm": telegram.dbm, "eep": known_device[0], "id": f"{telegram.sender:08X}",
                       "readings": readings}
            return "readings", json_line({**reading, "type": "reading"}), None
        teach_result = self.teach_in_result(kind, eep_and_maker, telegram.sender)
        if teach_result is None:
            return "ignored", "", None
        answer = teach_in_reply_payload(kind, telegram.payload, self.mode, teach_result[2])
        radio = radio_output_line(
            gateway_telegram_packet(telegram.rorg, answer, self.base, telegram.sender)
        ) if answer else ""
        return "teach", radio + teach_line(telegram.sender, *teach_result), teach_result

    def teach_in_result(self, kind, eep_and_maker, sender):
        """The profile, the maker and the result that the teach line names, or None if the table is silent."""
        if self.mode == "closed":
            return None
        is_learn_as = self.mode.startswith("as ")
        action, _, word = ACTIONS_BY_TELEGRAM_KIND[kind][is_learn_as].partition(" ")
        if action == "silent":
            return None
        if action == "tell":
            return *eep_and_maker, word
        if action == "forget":
            self.forget_device(sender)
            return *eep_and_maker, "deleted"
        if action == "as" and self.mode[3:5] != word:
            return None
        eep = self.mode[3:] if action == "as" else eep_and_maker[0] if word == "own" else word
        maker = eep_and_maker[1]
        if not is_supported(eep):
            return eep, maker, "unsupported"
        if self.has_no_room_for(sender):
            return eep, maker, "full"
        self.devices[sender] = (eep, maker)
        if is_learn_as:
            self.mode = "closed"
        return eep, maker, "accepted"
