"""The bridge at a broker: nothing is lost or published twice if the bridge or the broker is stopped or killed."""
from __future__ import annotations

import signal
import time

from bridge_testcase import OFFLINE, ONLINE, TOPIC_ROOT, RESPONSE, GatewayTest
from kinds import END_OF_LIST, KindsTest
from programs import lines_of, wait_for
from services import lines_of_type


class BridgeStops(KindsTest):
    """The bridge has published readings of a device of each kind."""

    def setUp(self):
        super().setUp()
        self.start_all()

    def restart_bridge(self) -> None:
        """Starts the bridge, and waits until it has published what it has to."""
        self.start_bridge()
        self.assert_lines(END_OF_LIST)
        self.wait_until_handled()

    def test_a_bridge_that_was_stopped_or_killed_publishes_what_changed_once(self):
        with self.subTest("stopped"):
            self.stop_and_restart()
        with self.subTest("killed"):
            self.kill_and_restart()
        with self.subTest("the broker publishes the last will of an earlier connection late"):
            self.listener.forget()
            self.broker.publish(f"{TOPIC_ROOT}/status", "offline", "-r")
            self.assert_published(ONLINE)

    def stop_and_restart(self) -> None:
        """Meanwhile lines are rotated. An earlier press is not published as an event."""
        self.bridge.end()
        with self.subTest("it says that it is away"):
            self.assert_published(OFFLINE)
        self.bring("01800A01", "D5 08")
        self.bring("01800A0D", "F6 30 30")
        rotated_path = self.gateway.lines()
        self.gateway.rotate()
        self.bring("01800A02", "A5 00000008")
        self.listener.forget()
        self.restart_bridge()
        with self.subTest("what changed"):
            self.assert_seen(self.published(), [
                f"{TOPIC_ROOT}/01800A01/CO open", f"{TOPIC_ROOT}/01800A02/TMP 40", f"{TOPIC_ROOT}/01800A0D/EB pressed",
                f"{TOPIC_ROOT}/01800A0D/R1 A0", f"{TOPIC_ROOT}/01800A0D/buttons ", ONLINE])
        with self.subTest("the lines of then, each once"):
            self.assert_seen(self.published_lines("reading"), [*rotated_path[-2:], self.gateway.lines()[0]])

    def kill_and_restart(self) -> None:
        """Meanwhile nothing changes."""
        self.assert_soon(lambda: f"{self.gateway.size() - self.bridge.saved_offset()} bytes of lines are not saved",
                         "0 bytes of lines are not saved")
        self.listener.forget()
        self.bridge.end(signal.SIGKILL)
        with self.subTest("its last will"):
            self.assert_published(OFFLINE)
            self.assert_seen(self.retained()[f"{TOPIC_ROOT}/status"], "offline")
        self.restart_bridge()
        with self.subTest("what is published"):
            self.assert_seen(self.published(), [OFFLINE, ONLINE])
        with self.subTest("the lines that are published"):
            self.assert_seen(self.published_lines("reading"), [])

    def test_after_a_power_failure_no_earlier_line_is_published(self):
        """The lines have lost their end, the state has not."""
        self.bring("01800A0D", "F6 30 30")
        self.assert_lines(self.gateway.lines()[-1])
        self.assert_soon(lambda: f"{self.gateway.size() - self.bridge.saved_offset()} bytes of lines are not saved",
                         "0 bytes of lines are not saved")
        self.bridge.end(signal.SIGKILL)
        self.gateway.end()
        self.gateway.zero_end(100)
        self.listener.forget()
        self.bridge.start(BOOT="another-boot")
        self.assert_published(ONLINE)
        self.assert_logged(f"{self.gateway.lines_path}: lines were lost, continuing at the end")
        self.gateway.start(self.stick)
        self.assert_lines(RESPONSE)
        self.bring("01800A0D", "F6 10 30")
        self.assert_published(f'{TOPIC_ROOT}/01800A0D/press {{"event_type":"AI"}}')
        self.wait_until_handled()
        with self.subTest("the lines that are published"):
            self.assert_seen(self.published_lines("reading"), lines_of_type(self.gateway.lines(), "reading")[-1:])
        with self.subTest("the presses"):
            self.assert_seen([message for message in self.listener.messages() if "/press " in message],
                             [f'{TOPIC_ROOT}/01800A0D/press {{"event_type":"AI"}}'])

    def test_a_broker_that_was_killed_gets_everything_again(self):
        """Meanwhile two devices send, and the bridge is started again. Its second start has no connection."""
        retained_before = self.retained()
        self.kill_broker()
        self.bring("01800A01", "D5 08")
        self.bring("01800A0D", "F6 10 30")
        line = self.gateway.lines()[-1]
        self.gateway.append("an invalid line, which shows that those before it were read\n")
        self.assert_logged("invalid line ignored: b'an invalid line, which shows")
        self.bridge.end()
        self.bridge.start()
        self.assert_no_connection()
        self.bridge.send(signal.SIGSTOP)
        self.start_broker()
        self.bridge.send(signal.SIGCONT)
        self.assert_published(ONLINE)
        self.assert_lines(line)
        self.wait_until_handled()
        with self.subTest("what is retained"):
            del retained_before[f"{TOPIC_ROOT}/01800A0D/buttons"]
            changed_states = {"01800A01/CO": "open", "01800A0D/EB": "pressed", "01800A0D/R1": "AI"}
            now = {f"{TOPIC_ROOT}/{subtopic}": text for subtopic, text in changed_states.items()}
            self.assert_seen(self.retained(), retained_before | now)
        with self.subTest("no press of then"):
            self.assert_seen([message for message in self.listener.messages() if "/press " in message], [])
        with self.subTest("the journal has the reason once"):
            self.assert_seen(len([line for line in self.bridge.journal() if "no connection" in line]), 1)

    def test_what_somebody_removes_comes_back(self):
        """By the command of the guide, but without stopping the bridge first."""
        retained_before = self.retained()
        words = ("--retained-only", "--remove-retained", "-W", "2", "-t", f"{TOPIC_ROOT}/#", "-t",
                 "homeassistant/+/enogate_hall/+/config")
        self.broker.run_client("sub", *words)
        self.assert_soon(lambda: self.retained().get(f"{TOPIC_ROOT}/status"), "online")
        self.assert_soon(lambda: sorted(retained_before.items() - self.retained().items()), [])

    def kill_broker(self) -> None:
        self.broker.end(signal.SIGKILL)
        self.listener.end()
        self.assert_no_connection()

    def assert_no_connection(self) -> None:
        self.assert_logged(f"no connection to localhost:{self.broker.port}: ")


class SilentGatewayOrModule(GatewayTest):
    """A gateway, and a bridge that is connected."""

    def assert_within_15_seconds(self, message: str) -> None:
        began = time.monotonic()
        wait_for(lambda: message in self.listener.messages(), bool)
        seconds = time.monotonic() - began
        self.assert_published(message)
        self.assertLess(seconds, 15)

    def test_a_module_and_a_gateway_that_stop(self):
        self.start_bridge()
        self.assert_published(f"{TOPIC_ROOT}/module online")
        with self.subTest("the module"):
            self.stick.send(signal.SIGSTOP)
            self.assert_within_15_seconds(f"{TOPIC_ROOT}/module offline")
            self.assert_seen(self.retained()[f"{TOPIC_ROOT}/gateway"], "online")
        with self.subTest("the module responds again"):
            self.listener.forget()
            self.stick.send(signal.SIGCONT)
            self.assert_published(f"{TOPIC_ROOT}/module online")
        with self.subTest("the gateway"):
            self.gateway.end(signal.SIGKILL)
            self.assert_within_15_seconds(f"{TOPIC_ROOT}/gateway offline")
            self.assert_logged("the gateway does not answer: orders are lost until it runs")


class LearnWindowEnd(GatewayTest):
    """A gateway, and a bridge that closes the learn window after five seconds."""

    def learn_orders(self) -> list[str]:
        return [order for order in lines_of(self.gateway.desk) if order.startswith("learn ")]

    def test_it_is_closed_after_its_time(self):
        """Also if it was opened by one of several orders in a message."""
        self.start_bridge(MQTT_LEARN_SECONDS="5")
        self.broker.publish(f"{TOPIC_ROOT}/orders", "learn on answer\nstatus")
        self.assert_published(f"{TOPIC_ROOT}/learn ON")
        self.assert_soon(self.learn_orders, ["learn on answer", "learn off"])
        self.assert_soon(lambda: self.retained()[f"{TOPIC_ROOT}/learn"], "OFF")

    def test_it_is_closed_after_the_bridge_was_killed(self):
        """The bridge is killed as soon as the order is at the desk."""
        self.start_bridge(MQTT_LEARN_SECONDS="5")
        self.broker.publish(f"{TOPIC_ROOT}/orders", "learn as F6-02-01\nstatus")
        self.assert_soon(self.learn_orders, ["learn as F6-02-01"])
        self.bridge.end(signal.SIGKILL)
        self.start_bridge(MQTT_LEARN_SECONDS="5")
        self.assert_soon(self.learn_orders, ["learn as F6-02-01", "learn off"])
        self.assert_soon(lambda: self.retained()[f"{TOPIC_ROOT}/learn"], "OFF")
        self.assert_seen('"mode":"closed"' in self.published_lines("status")[-1], True)
