"""The other end of QEMU's USB serial adapter: a radio module."""
import contextlib
import socket
import threading

from oracle.esp3 import packet, packets_in_stream, radio_optional_data, telegram_packet

BASE_ID = 0xFF800000
# Packet types of ESP3, the command for the base ID, and the VLD telegram that switches an output.
RADIO_TYPE, RESPONSE_TYPE, COMMAND_TYPE = 1, 2, 5
READ_BASE_COMMAND, SWITCH_OUTPUT_PREFIX = 8, b"\xd2\x01"


class SimulatedStick:
    """A stick that is plugged in while it is connected to this socket of QEMU. `sent` has the telegrams that it was
    given to send."""

    def __init__(self, path, base=BASE_ID):
        self.socket_path, self.base, self.sent_telegrams = path, base, []
        self.socket, self.unparsed_bytes = None, b""

    def plug(self):
        self.socket = socket.socket(socket.AF_UNIX)
        self.socket.connect(str(self.socket_path))
        threading.Thread(target=self.answer_packets, args=(self.socket,), daemon=True).start()

    def unplug(self):
        old_socket, self.socket = self.socket, None
        old_socket.shutdown(socket.SHUT_RDWR)
        old_socket.close()

    def answer_packets(self, line):
        """Answers each packet until the stick is unplugged."""
        self.unparsed_bytes = b""
        with contextlib.suppress(OSError):
            while chunk := line.recv(4096):
                for parsed_packet in self.complete_packets(self.unparsed_bytes + chunk):
                    self.answer_packet(*parsed_packet)

    def complete_packets(self, stream):
        """The packets in these bytes. What may begin another one is kept."""
        self.unparsed_bytes = yield from packets_in_stream(stream)

    def answer_packet(self, kind, packet_data, optional):
        """Answers a packet as the module does; an actuator that is switched reports its state."""
        if kind == COMMAND_TYPE and packet_data[0] == READ_BASE_COMMAND:
            self.send_to_machine(packet(RESPONSE_TYPE, b"\0" + self.base.to_bytes(4, "big")))
            return
        self.send_to_machine(packet(RESPONSE_TYPE, b"\0"))
        if kind == RADIO_TYPE:
            self.sent_telegrams.append(packet_data)
            if packet_data.startswith(SWITCH_OUTPUT_PREFIX):
                state = bytes([4, 0x60 | packet_data[2], 0x80 | packet_data[3]])
                self.send_to_machine(telegram_packet(
                    0xD2, state, int.from_bytes(optional[1:5], "big"), 0, radio_optional_data(1, self.base)
                ))

    def send_to_machine(self, packet_bytes):
        """The module receives these bytes. Without a stick they are lost."""
        line = self.socket
        if line:
            with contextlib.suppress(OSError):
                line.sendall(packet_bytes)
