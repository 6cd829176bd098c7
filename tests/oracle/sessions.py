"""Sessions that the oracle makes: a script, and after each line what the gateway has to write for it."""
from oracle.esp3 import serial_script_lines, radio_optional_data, telegram_packet
from oracle.gateway import Gateway, without_explanations
from oracle.session import NO_LF_MARK, read_session, session_steps

# The orders that set the modes, by the names of the modes in the answer to `status`.
MODE_ORDERS = {"closed": "learn off", "on": "learn on", "answer": "learn on answer"}


def every_nth_item(items, offset, step):
    """The items whose place plus `number` is a multiple of `of`. Cases with `of` successive numbers have all items."""
    return [item for index, item in enumerate(items) if (index + offset) % step == 0]


class Session:
    def __init__(self):
        self.gateway, self.steps = Gateway(), []

    def session_text(self, explains):
        return "".join(line + (answer if explains else without_explanations(answer)) for line, answer in self.steps)

    def add_lines(self, *lines):
        for text in lines:
            self.steps.append((f"> {text}\n", self.gateway.answer_with_explanations(text)))

    def add_unended_line(self, text):
        """A line without LF: a CR at its end belongs to it."""
        self.steps.append((f"> {text}\n{NO_LF_MARK.decode()}", self.gateway.answer_with_explanations(text + "\r")))

    def add_telegram(self, text, sender, optional=radio_optional_data()):
        """A telegram: its RORG and payload, and its status if it is not 0, in hexadecimal."""
        rorg, payload, status = (bytes.fromhex(word) for word in (text + " 00").split(" ")[:3])
        self.add_lines(
            *serial_script_lines(telegram_packet(rorg[0], payload, sender, status[0], optional)).splitlines()
        )

    def add_devices(self, devices):
        """Learns these senders with these profiles, by an order for each that is needed."""
        for sender, eep in devices.items():
            if self.gateway.devices.get(sender) != (eep, None):
                self.add_lines(f"add {sender:08X} {eep}")

    def set_mode(self, mode, stranger=None):
        """Sets this mode, and forgets this sender, by the orders that are needed."""
        if self.gateway.mode != mode:
            self.add_lines(MODE_ORDERS.get(mode, "learn " + mode))
        self.remove_device(stranger)

    def remove_device(self, sender):
        if sender in self.gateway.devices:
            self.add_lines(f"remove {sender:08X}")

    def remove_all_devices(self):
        """Closes the learn window, and forgets all senders."""
        self.set_mode("closed")
        for sender in sorted(self.gateway.devices):
            self.remove_device(sender)
        self.add_lines("list")


def repeat_lines(session, session_text):
    """Adds the lines of a stored session, with the answers of the oracle."""
    for line, _ in session_steps(session_text):
        text = line.decode(errors="surrogateescape")
        if text.endswith("\n"):
            session.add_lines(text[:-1])
        else:
            session.add_unended_line(text)
    return session


def handwritten_session(name):
    """A session with the lines of one that is kept by hand, and the answers of the oracle."""
    return repeat_lines(Session(), read_session(name))
