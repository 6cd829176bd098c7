"""A broker that requires passwords, and on a second port TLS with certificates: mosquitto, with its stock clients."""
from __future__ import annotations

import os
import pathlib
import pwd
import re
import socket
import subprocess

from programs import Program, lines_of, wait_for

GUIDE = pathlib.Path(__file__).resolve().parents[2] / "docs" / "guide" / "mqtt.md"
PEOPLE_LOGIN = ("people", "people-secret")
BRIDGE_LOGIN = ("bridge", "bridge-secret")
# A subscription to this topic, as the last one, is answered after everything else that is retained.
END_TOPIC = "test/end"
PROBE_TOPIC = "test/probe"
NEW_KEY_OPTIONS = ["-newkey", "ec", "-pkeyopt", "ec_paramgen_curve:P-256", "-nodes"]


def free_ports(count: int) -> list[int]:
    """Ports of this computer that nobody uses."""
    sockets = [socket.create_server(("127.0.0.1", 0)) for _ in range(count)]
    ports = [free_socket.getsockname()[1] for free_socket in sockets]
    for free_socket in sockets:
        free_socket.close()
    return ports


class Certificates:
    """Certificates in a folder, as NAME.crt with the key NAME.key."""

    def __init__(self, folder: pathlib.Path):
        self.folder = folder

    def run_openssl(self, *words: str) -> None:
        subprocess.run(["openssl", *words], cwd=self.folder, check=True, capture_output=True)

    def add_authority(self, name: str) -> None:
        """A certificate that signs itself."""
        self.run_openssl("req", "-x509", *NEW_KEY_OPTIONS, "-days", "2", "-subj", f"/CN={name}",
                         "-keyout", f"{name}.key", "-out", f"{name}.crt")

    def add(self, name: str, host: str, authority: str) -> None:
        """A certificate for this host, which the authority signs."""
        self.run_openssl("req", *NEW_KEY_OPTIONS, "-keyout", f"{name}.key", "-out", f"{name}.csr",
                         "-subj", f"/CN={host}")
        (self.folder / f"{name}.ext").write_text(f"subjectAltName=DNS:{host}\n")
        self.run_openssl("x509", "-req", "-in", f"{name}.csr", "-CA", f"{authority}.crt", "-CAkey", f"{authority}.key",
                         "-CAcreateserial", "-days", "2", "-extfile", f"{name}.ext", "-out", f"{name}.crt")


def rules_of(page: pathlib.Path, user: str) -> str:
    """The rights of a user that a page of the guide lists."""
    rules_match = re.search(rf"^user {user}\n((?:topic .*\n)+)```$", page.read_text(), re.MULTILINE)
    assert rules_match, f"{page} lists no rights"
    return rules_match[1]


def access_rules() -> str:
    """The bridge has the rights that the guide lists, and no others."""
    return f"user {PEOPLE_LOGIN[0]}\ntopic readwrite #\nuser {BRIDGE_LOGIN[0]}\n{rules_of(GUIDE, 'enogate')}"


class Broker(Program):
    """The broker, with its files in a folder. It retains nothing across a restart."""

    def __init__(self, work: pathlib.Path):
        super().__init__(work / "broker.journal")
        self.work, self.config = work, work / "broker.conf"
        self.port, self.tls_port = free_ports(2)
        for user_number, (user, password) in enumerate((PEOPLE_LOGIN, BRIDGE_LOGIN)):
            words = ["mosquitto_passwd", *([] if user_number else ["-c"]), "-b", str(work / "users"), user, password]
            subprocess.run(words, check=True, capture_output=True)
        (work / "rights").write_text(access_rules())
        self.config.write_text(
            f"user {pwd.getpwuid(os.geteuid()).pw_name}\nper_listener_settings false\nallow_anonymous false\n"
            f"password_file {work}/users\nacl_file {work}/rights\npersistence false\nlistener {self.port} localhost\n")

    def require_certificates(self, folder: pathlib.Path) -> None:
        """At the second port, it requires certificates of the authority `ca`."""
        with self.config.open("a") as config:
            config.write(f"listener {self.tls_port} localhost\ncafile {folder}/ca.crt\ncertfile {folder}/broker.crt\n"
                         f"keyfile {folder}/broker.key\nrequire_certificate true\n")

    def start(self) -> None:
        self.run(["mosquitto", "-c", self.config])
        answer = wait_for(lambda: self.run_client("pub", "-r", "-t", END_TOPIC, "-m", "end"),
                          lambda run: run.returncode == 0)
        assert answer.returncode == 0, (answer, self.journal())

    def client_command(self, kind: str, *words: str) -> list[str]:
        """The command of a client of the user `people`."""
        return [f"mosquitto_{kind}", "-p", str(self.port), "-u", PEOPLE_LOGIN[0], "-P", PEOPLE_LOGIN[1], *words]

    def run_client(self, kind: str, *words: str, payload: bytes = b"") -> subprocess.CompletedProcess[bytes]:
        return subprocess.run(self.client_command(kind, *words), input=payload, capture_output=True)

    def publish(self, topic: str, payload: str | bytes, *words: str) -> None:
        """Publishes a message; `-r` retains it."""
        payload = payload.encode() if isinstance(payload, str) else payload
        self.run_client("pub", "-t", topic, "-s" if payload else "-n", *words, payload=payload).check_returncode()

    def has_client(self, name: str) -> bool:
        """Whether a client of this name is connected."""
        lines = [line for line in self.journal() if f" as {name} " in line or f" Client {name} " in line]
        return bool(lines) and f" as {name} " in lines[-1]

    def retained(self) -> dict[str, str]:
        """The messages that the broker retains, by topic."""
        filters = [word for topic in ("enogate/#", "homeassistant/#", END_TOPIC) for word in ("-t", topic)]
        words = self.client_command("sub", "--retained-only", "-W", "10", "-F", "%t %x", *filters)
        text_by_topic = {}
        with subprocess.Popen(words, stdout=subprocess.PIPE, text=True) as client:
            assert client.stdout is not None
            for line in client.stdout:
                topic, payload = topic_and_payload(line)
                if topic == END_TOPIC:
                    client.kill()
                    return text_by_topic
                text_by_topic[topic] = payload
        raise AssertionError(f"not everything that is retained was received: {text_by_topic}")


def topic_and_payload(line: str) -> tuple[str, str]:
    """The topic and the payload in a line of a subscriber, which has the payload in hexadecimal digits."""
    topic, _, digits = line.partition(" ")
    return topic, bytes.fromhex(digits).decode(errors="backslashreplace")


class Listener(Program):
    """The messages that are published while it listens, without those retained before."""

    def __init__(self, broker: Broker, work: pathlib.Path):
        super().__init__(work / "listener.journal")
        self.broker, self.path, self.forgotten_count = broker, work / "published", 0

    def start(self) -> None:
        """Starts to listen, and forgets earlier messages."""
        self.path.write_bytes(b"")
        self.run(self.broker.client_command("sub", "-R", "-t", "#", "-F", "%t %x"), out=self.path)
        assert wait_for(self.has_heard, bool), self.journal()
        self.forget()

    def has_heard(self) -> bool:
        self.broker.publish(PROBE_TOPIC, "")
        return bool(lines_of(self.path))

    def forget(self) -> None:
        """Forgets the messages that have come until now."""
        self.forgotten_count = len(lines_of(self.path))

    def messages(self) -> list[str]:
        """The messages, each as TOPIC PAYLOAD, in their sequence."""
        topics_and_payloads = map(topic_and_payload, lines_of(self.path)[self.forgotten_count:])
        return [" ".join(topic_and_text) for topic_and_text in topics_and_payloads if topic_and_text[0] != PROBE_TOPIC]
