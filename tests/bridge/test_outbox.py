"""The lines that the broker has not acknowledged."""
import unittest
from unittest import mock

from enogate_lines.follow import Position
from enogate_mqtt import outbox
from enogate_mqtt.outbox import Backlog, Outbox
from enogate_mqtt.topics import Message
from fakes import LogTest

END = Position(1, 99, b"")


class OutboxLines(LogTest):
    def setUp(self):
        super().setUp()
        self.box, self.published = Outbox(), []

    def publish(self, room=100):
        def send(entry):
            self.published.append(entry.line)
            return len(self.published)
        self.box.publish(send, lambda: len(self.published) < room)

    def test_lines_wait_for_room(self):
        self.fill("a", "b", "c")
        self.publish(2)
        self.assertEqual(self.published, ["a", "b"])
        self.box.drop_acknowledged(set())
        self.assertEqual([entry.line for entry in self.box.entries], ["c"])
        self.publish(3)
        self.assertEqual(self.published, ["a", "b", "c"])

    def fill(self, *lines):
        for line in lines:
            self.box.add(line, Position(1, len(line), b""))

    def test_lines_are_published_once_in_their_sequence(self):
        self.fill("a", "b")
        self.publish()
        self.fill("c")
        self.publish()
        self.assertEqual(self.published, ["a", "b", "c"])

    def test_acknowledged_lines_are_dropped_from_the_front(self):
        self.fill("a", "bb", "ccc")
        self.box.drop_acknowledged(set())
        self.assertEqual(len(self.box.entries), 3)
        self.publish()
        self.box.drop_acknowledged({1, 3})
        self.assertEqual([entry.line for entry in self.box.entries], ["a", "bb", "ccc"])
        self.box.drop_acknowledged({3})
        self.assertEqual([entry.line for entry in self.box.entries], ["ccc"])

    def test_the_place(self):
        self.assertEqual(self.box.acknowledged_position(END), END)
        self.fill("a", "bb")
        self.publish()
        self.assertEqual(self.box.acknowledged_position(END), Position(1, 1, b""))
        self.box.drop_acknowledged({2})
        self.assertEqual(self.box.acknowledged_position(END), Position(1, 2, b""))
        self.box.drop_acknowledged(set())
        self.assertEqual(self.box.acknowledged_position(END), END)

    def test_a_new_connection_gets_them_again(self):
        self.fill("a", "b")
        self.publish()
        self.box.drop_acknowledged({2})
        self.box.start_session()
        self.publish()
        self.assertEqual(self.published, ["a", "b", "b"])

    def test_times(self):
        """Late is what was read before there was this connection, or more than ten seconds ago."""
        self.box.add("a", END, 100.0, 1_800_000_000.9)
        self.box.add("b", END, 100.0)
        time = ("time", "1800000000"), ("late", "1")
        self.assertEqual([entry.properties(110.0) for entry in self.box.entries], [time[:1], ()])
        self.assertEqual([entry.properties(110.1) for entry in self.box.entries], [time, time[1:]])
        self.box.start_session()
        self.box.add("c", END, 100.0, 0.0)
        self.assertEqual([entry.properties(100.0) for entry in self.box.entries], [time, time[1:], (("time", "0"),)])

    def test_the_oldest_are_dropped(self):
        self.assertEqual(outbox.MAX_LINES, 10000)
        with mock.patch.object(outbox, "MAX_LINES", 3):
            self.fill("a", "b", "c", "d", "e")
            self.assertEqual([entry.line for entry in self.box.entries], ["c", "d", "e"])
            self.assert_logged("broker unavailable or too slow: 3 lines kept, dropping the oldest")
            self.box.start_session()
            self.fill("f")
            self.assert_logged("dropping the oldest", 2)


class BacklogMessages(LogTest):
    def test_the_sequence(self):
        """Events are first. Of each state only the newest is kept, at its place in the sequence."""
        backlog = Backlog()
        for topic, text, retained in (("a", "1", True), ("press", "x", False), ("b", "1", True), ("a", "2", True),
                                      ("press", "y", False), ("c", "", True)):
            backlog.add(Message(topic, text, retained))
        self.assertEqual(len(backlog), 5)
        messages = [backlog.pop_next() for _ in range(5)]
        self.assertEqual([(message.topic, message.payload) for message in messages],
                         [("press", "x"), ("press", "y"), ("a", "2"), ("b", "1"), ("c", "")])
        self.assertEqual(len(backlog), 0)

    def test_the_newest_events_are_kept(self):
        backlog = Backlog()
        for number in range(outbox.MAX_EVENTS + 5):
            backlog.add(Message("press", str(number), False))
        self.assertEqual((len(backlog), backlog.pop_next().payload, outbox.MAX_EVENTS), (1000, "5", 1000))


if __name__ == "__main__":
    unittest.main()
