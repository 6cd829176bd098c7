"""Whether a running gateway works, by what the kernel counts. It reads its port and its desk ten times a second."""
from __future__ import annotations

from dataclasses import dataclass

# A fault is reported after so many looks, one a second: STUCK_LOOKS without a read call or a line, UNREAD_LOOKS with
# reads at which no order was read although some wait or the desk was truncated, or UNSENT_LOOKS at which the stick took
# no byte that waits, and brought none. The module answers within 0.5 s (ESP3), and a slow disk may delay a commit for a
# few seconds.
STUCK_LOOKS, UNREAD_LOOKS, UNSENT_LOOKS = 30, 30, 10
# No packet was complete at so many looks since a byte came, and bytes came at so many of these looks: the gateway may
# be waiting for up to 65,535 bytes after a damaged header.
PACKETLESS_LOOKS, MIN_BURSTS = 60, 5
# The shortest time between two restarts by the watchdog, in seconds: at first, at most, and how long after a restart
# the first one applies again.
FIRST_PAUSE, MAX_PAUSE, FORGOTTEN_AFTER = 60.0, 3600.0, 86400.0


@dataclass(frozen=True)
class Sample:
    """A gateway at one look. `calls` and `received` are None if the kernel does not count them."""
    # read calls since its start, and bytes that it has read in them, without its orders
    read_calls: int | None
    received_bytes: int | None
    # lines so far, and packet lines among them
    lines: int
    packet_count: int
    # the offset up to which it has read its desk, and how many bytes of orders follow; negative if the desk is shorter
    offset: int
    unread_bytes: int
    # bytes that wait in the kernel for the stick
    unsent_bytes: int


class Watch:
    """Looks at one run of a gateway at the stick with this path. Without --explain, a gateway may write nothing for all
    that it receives, so it is no fault if no packet is reported."""

    def __init__(self, path: str, explains: bool):
        self.path, self.explains = path, explains
        self.last_sample: Sample | None = None
        self.stuck_look_count = self.unread_look_count = self.unsent_look_count = 0
        # whether an order was read and no line was written since
        self.is_asked = False
        # the looks since the first byte after the last packet, and those at which bytes had come
        self.packetless_look_count = self.byte_burst_count = 0

    def fault_at(self, sample: Sample) -> str:
        """What is wrong at this look; empty if nothing is."""
        last_sample, self.last_sample = self.last_sample, sample
        if last_sample is None:
            return ""
        has_received = (sample.received_bytes is not None and last_sample.received_bytes is not None
                        and sample.received_bytes > last_sample.received_bytes)
        has_read = sample.read_calls is None or sample.read_calls != last_sample.read_calls
        self.stuck_look_count = 0 if has_read or sample.lines != last_sample.lines else self.stuck_look_count + 1
        # between two reads it carries out a part of its orders, which takes long if the disk is slow
        self.unread_look_count = (self.unread_look_count + has_read if sample.unread_bytes and last_sample.unread_bytes
                                  and sample.offset == last_sample.offset else 0)
        self.unsent_look_count = (self.unsent_look_count + 1 if sample.unsent_bytes and last_sample.unsent_bytes
                                  and not has_received else 0)
        self.count_looks_without_packet(has_received, sample, last_sample)
        if self.unsent_look_count >= UNSENT_LOOKS:
            return (f"the stick at {self.path} has taken no bytes for {UNSENT_LOOKS} s, {sample.unsent_bytes} are "
                    "waiting")
        if self.stuck_look_count >= STUCK_LOOKS:
            return (f"the gateway has read nothing for {STUCK_LOOKS} s: perhaps the stick at {self.path} takes no "
                    "bytes, or the disk does not answer")
        if self.unread_look_count >= UNREAD_LOOKS and sample.unread_bytes < 0:
            return f"the desk was truncated: the next {-sample.unread_bytes} bytes of orders would be lost"
        if self.unread_look_count >= UNREAD_LOOKS:
            return (f"{sample.unread_bytes} bytes of orders have not been read for {UNREAD_LOOKS} s: perhaps the "
                    "desk was replaced")
        if self.explains and self.packetless_look_count >= PACKETLESS_LOOKS and self.byte_burst_count >= MIN_BURSTS:
            return (f"bytes come from the stick at {self.path}, but no packet for {PACKETLESS_LOOKS} s: they are "
                    "damaged, or this is not the port of a radio module")
        return ""

    def count_looks_without_packet(self, has_received: bool, sample: Sample, last_sample: Sample) -> None:
        """Counts the looks since bytes came without a packet. While an order is carried out, the gateway may read the
        database."""
        is_asked = self.is_asked or sample.offset != last_sample.offset or sample.lines != last_sample.lines
        self.is_asked = is_asked and sample.lines == last_sample.lines
        if sample.packet_count > last_sample.packet_count:
            self.packetless_look_count = self.byte_burst_count = 0
        elif self.packetless_look_count or (has_received and not is_asked):
            self.packetless_look_count += 1
            self.byte_burst_count += has_received and not is_asked


class RestartPauses:
    """When the watchdog may restart the gateway again: a restart that does not help only loses telegrams and orders."""

    def __init__(self) -> None:
        self.pause, self.last_restart = FIRST_PAUSE, float("-inf")

    def take_restart(self, now: float) -> bool:
        """Whether to restart it at this time; if so, this counts as a restart."""
        if now < self.last_restart + self.pause:
            return False
        if self.last_restart == float("-inf") or now >= self.last_restart + FORGOTTEN_AFTER:
            self.pause = FIRST_PAUSE
        else:
            self.pause = min(2 * self.pause, MAX_PAUSE)
        self.last_restart = now
        return True
