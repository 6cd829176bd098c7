"""A stick with a radio module, as a test plays it: a pseudo-terminal, which is set as the guide sets a stick."""
from __future__ import annotations

import os
import select
import termios
import tty

# The bytes that the test itself sends to the stick. No packet has them.
MARK = b"all that was sent before"


class Stick:
    """A stick that is plugged in until `unplug` is called. A read of it that gets no byte returns after this many
    tenths of a second."""

    def __init__(self, tenths: int = 1):
        self.module, self.line = os.openpty()
        tty.setraw(self.line)
        settings = termios.tcgetattr(self.line)
        settings[4] = settings[5] = termios.B57600
        settings[6][termios.VMIN], settings[6][termios.VTIME] = 0, tenths
        termios.tcsetattr(self.line, termios.TCSANOW, settings)
        self.path = os.ttyname(self.line)
        self.sent = b""
        self.is_plugged_in = True

    def __enter__(self) -> Stick:
        return self

    def __exit__(self, *_: object) -> None:
        if self.is_plugged_in:
            self.unplug()
        os.close(self.line)

    def bring(self, packet_bytes: bytes) -> None:
        """The module receives these bytes."""
        os.write(self.module, packet_bytes)

    def unplug(self) -> None:
        os.close(self.module)
        self.is_plugged_in = False

    def collect(self, seconds: float) -> None:
        """Adds to `sent` what was sent to the stick. Waits so long for it."""
        if select.select([self.module], [], [], seconds)[0]:
            self.sent += os.read(self.module, 4096)

    def collect_all(self, seconds: float) -> None:
        """Adds to `sent` everything that was sent to the stick before. Bytes arrive in their order, within this many
        seconds."""
        os.write(self.line, MARK)
        while not self.sent.endswith(MARK):
            size_before = len(self.sent)
            self.collect(seconds)
            assert len(self.sent) > size_before, "the pseudo-terminal does not pass on what was sent"
        self.sent = self.sent.removesuffix(MARK)
