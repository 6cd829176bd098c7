"""The bridge at a broker: connections with TLS, and what it does if there is no connection."""
from __future__ import annotations

import os
import socket
import subprocess
import unittest

from bridge_testcase import MAY_SKIP, TOPIC_ROOT, PYTHON, BridgeTest, missing_requirement
from broker import BRIDGE_LOGIN, PEOPLE_LOGIN, Certificates, free_ports
from programs import WITHIN, lines_of
from services import CONTRIB, ROOT

# An acceptance of the connection whose properties are longer than the packet, and one of subscriptions that ends early.
MALFORMED_PACKETS = (b"\x20\x03\x00\x00\x7f", b"\x90\x01\x00")


class EncryptedConnections(BridgeTest):
    """A broker that requires certificates at its second port, and certificates for it and for the bridge."""

    def setUp(self):
        super().setUp()
        certificates = Certificates(self.work)
        certificates.add_authority("ca")
        certificates.add("broker", "localhost", "ca")
        certificates.add("bridge", "bridge", "ca")
        self.broker.require_certificates(self.work)
        self.start_broker()

    def tls_settings(self, authority: str) -> dict[str, str]:
        """The settings for the second port, with a broker of this authority."""
        files = {"CA": authority, "CERT": "bridge.crt", "KEY": "bridge.key"}
        paths = {f"MQTT_{name}_FILE": str(self.work / file) for name, file in files.items()}
        return {"MQTT_PORT": str(self.broker.tls_port), "MQTT_TLS": "yes", **paths}

    def test_a_command_by_tls(self):
        self.bridge.desk.touch()
        self.start_bridge(**self.tls_settings("ca.crt"))
        self.broker.publish(f"{TOPIC_ROOT}/01800ABC/OV/0/set", "ON")
        self.assert_soon(lambda: [order_line
                                  for order_line in lines_of(self.bridge.desk) if order_line.startswith("switch")],
                         ["switch 01800ABC 0 on"])

    def test_a_broker_of_another_authority(self):
        Certificates(self.work).add_authority("other")
        self.bridge.start(**self.tls_settings("other.crt"))
        self.assert_retries(f"{self.broker.tls_port}: [SSL: CERTIFICATE_VERIFY_FAILED]", "alert unknown ca")

    def test_a_missing_certificate(self):
        settings = self.tls_settings("ca.crt") | {"MQTT_CERT_FILE": "", "MQTT_KEY_FILE": ""}
        self.bridge.start(**settings)
        self.assert_rejected("peer did not return a certificate")
        # the reason depends on whether the bridge reads the answer of the broker, or writes, after it was rejected
        self.assert_seen([line for line in self.bridge.journal()[1:] if "no connection to localhost" not in line], [])
        self.assert_logged(f"no connection to localhost:{self.broker.tls_port}: ")

    def test_malformed_packets(self):
        """The bridge logs them once, and connects again, but not at once."""
        with socket.create_server(("127.0.0.1", 0)) as server:
            server.settimeout(WITHIN)
            port = server.getsockname()[1]
            self.bridge.start(MQTT_PORT=str(port))
            for packet in MALFORMED_PACKETS:
                client = server.accept()[0]
                with client:
                    client.settimeout(WITHIN)
                    client.recv(1000)
                    client.sendall(packet)
                    self.assert_seen(client.recv(1000), b"")
            server.accept()[0].close()
        reason = f"enogate-mqtt: no connection to localhost:{port}: invalid packet from the broker ("
        journal = [line for line in self.bridge.journal() if "cannot open" not in line]
        count = len(MALFORMED_PACKETS)
        self.assert_seen([line[:len(reason)] for line in journal[:count]], [reason] * count)

    def test_a_wrong_password(self):
        wrong_password_file = self.work / "wrong.password"
        wrong_password_file.write_text(f"{PEOPLE_LOGIN[1]}\n")
        self.bridge.start(MQTT_PASSWORD_FILE=str(wrong_password_file))
        self.assert_retries(f"{self.broker.port}: rejected by the broker: Not authorized", "not authorised")

    def test_no_broker(self):
        port, = free_ports(1)
        self.bridge.start(MQTT_PORT=str(port))
        self.assert_logged(f"no connection to localhost:{port}: Connection refused")
        with socket.create_server(("127.0.0.1", port)) as server:
            server.settimeout(WITHIN)
            server.accept()[0].close()

    def assert_retries(self, reason: str, rejection: str) -> None:
        """The journal has this reason, only once, and the broker rejects the bridge again, with this text."""
        self.assert_logged(f"no connection to localhost:{reason}")
        self.assert_rejected(rejection)
        self.assert_seen(len([line for line in self.bridge.journal() if "no connection" in line]), 1)

    def assert_rejected(self, text: str) -> None:
        """The broker rejects the bridge twice, with this text in its journal."""
        self.assert_soon(lambda: [text for line in self.broker.journal() if text in line][:2], [text] * 2)


class RefusedPublications(BridgeTest):
    """A broker at which the bridge may read, but not publish."""

    def test_publications_that_are_refused(self):
        (self.work / "rights").write_text(
            f"user {PEOPLE_LOGIN[0]}\ntopic readwrite #\nuser {BRIDGE_LOGIN[0]}\ntopic read #\n")
        self.start_broker()
        self.bridge.start()
        refusal = f"the broker at localhost:{self.broker.port} accepts the connection, but refuses what is published: "
        self.assert_logged(f"{refusal}{TOPIC_ROOT}/status did not come back within 15 seconds")
        self.assert_seen([line for line in self.bridge.journal() if "connected to" in line], [])
        self.assert_seen(self.listener.messages(), [])


class SameClientName(BridgeTest):
    """A broker and a bridge."""

    def test_another_client_with_its_name(self):
        self.start_broker()
        self.start_bridge()
        self.broker.run_client("sub", "-i", "enogate-hall", "-t", "x", "-W", "1")
        client = "another client has the name enogate-hall"
        self.assert_soon(lambda: [client for line in self.bridge.journal() if client in line][:1], [client])


class RandomPackets(unittest.TestCase):
    """The connection of the bridge, without a broker."""

    @unittest.skipIf(MAY_SKIP and missing_requirement(), missing_requirement())
    def test_random_packets(self):
        path = f"{CONTRIB}:{os.environ.get('PAHO', '')}"
        run = subprocess.run([PYTHON, "-B", ROOT / "tests" / "bridge" / "fuzz_packets.py"], capture_output=True,
                             text=True, env={**os.environ, "PYTHONPATH": path})
        self.assertEqual(run.returncode, 0, run.stderr)
