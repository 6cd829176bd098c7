"""Comparing what the broker retains."""
import unittest

from enogate_mqtt import reconcile
from enogate_mqtt.reconcile import MAX_PARTS, MAX_UNKNOWN, QUIET_SECONDS, Part, Reconciler
from fakes import LogTest, Clock, FakeConnection


class ReconciledParts(unittest.TestCase):
    def test_filters(self):
        part = Part("x", ["enogate/hall/X/+", "enogate/hall/X/+/+", "a/b"])
        for topic, is_match in (("enogate/hall/X/TMP", True), ("enogate/hall/X/OV/0", True), ("a/b", True),
                                ("a/c", False),
                                ("enogate/hall/X", False), ("enogate/hall/X/OV/0/set", False),
                                ("enogate/hall/Y/TMP", False), ("enogateXhall/X/TMP", False), ("a/b/c", False)):
            with self.subTest(topic):
                self.assertEqual(part.has_topic(topic), is_match)

    def test_a_flood_is_not_stored(self):
        part = Part("x", ["a/+", "b"])
        for topic_number in range(MAX_UNKNOWN + 10):
            part.note_retained(f"a/{topic_number}", "x")
        part.note_retained("b", "y")
        self.assertEqual((len(part.retained), part.retained["b"]), (MAX_UNKNOWN + 1, "y"))
        part.note_retained("a/0", "new")
        self.assertEqual(part.retained["a/0"], "new")

    def test_a_topic_that_comes_often_is_no_flood(self):
        part = Part("x", ["a/+"])
        for topic_number in range(MAX_UNKNOWN + 10):
            part.note_retained("a/1", str(topic_number))
        part.note_retained("a/2", "y")
        self.assertEqual(part.retained, {"a/1": str(MAX_UNKNOWN + 9), "a/2": "y"})


class ReconcilerTurns(LogTest):
    def setUp(self):
        super().setUp()
        self.clock, self.connection, self.compared_parts = Clock(), FakeConnection({"x/1": "one", "x/2": "two",
                                                                                    "y/1": "three"}), []
        self.reconciler = Reconciler(self.clock, self.compared_parts.append)

    def turn(self, seconds=0.1):
        self.reconciler.turn(self.connection)
        self.connection.turn(0)
        received_messages, self.connection.received_messages = self.connection.received_messages, []
        for message in received_messages:
            self.reconciler.handle_retained(message.topic, message.payload.decode())
        self.clock.now += seconds

    def test_parts_are_compared(self):
        self.reconciler.add([Part("x", ["x/+"]), Part("y", ["y/1", "y/2"])])
        for _ in range(4):
            self.turn()
        self.assertEqual([(part.name, part.retained) for part in self.compared_parts],
                         [("x", {"x/1": "one", "x/2": "two"}), ("y", {"y/1": "three"})])
        self.assertTrue(self.reconciler.is_done)

    def test_few_parts_at_the_same_time(self):
        self.assertEqual(MAX_PARTS, 8)
        self.reconciler.add(Part(str(number), [f"{number}/+"]) for number in range(50))
        max_active_parts = 0
        while not self.reconciler.is_done:
            self.turn()
            max_active_parts = max(max_active_parts, len(self.reconciler.active_parts))
        self.assertEqual((max_active_parts, len(self.compared_parts)), (8, 50))

    def test_a_large_part_is_alone(self):
        self.reconciler.add([Part("a", ["a/+"]), Part("all", ["+/+"], is_large=True), Part("b", ["b/+"])])
        active_names = []
        while not self.reconciler.is_done:
            self.turn()
            active_names.append([part.name for part in self.reconciler.active_parts])
        self.assertEqual([names for number, names in enumerate(active_names) if names != active_names[number - 1]],
                         [["a"], ["all"], ["b"], []])

    def test_the_subscription_ends_before_the_comparison(self):
        self.reconciler.add([Part("x", ["x/+"])])
        self.turn()
        self.turn()
        self.assertEqual(self.compared_parts, [])
        self.turn()
        self.assertEqual(len(self.compared_parts), 1)

    def test_a_broker_that_answers_nothing(self):
        self.connection.answers_requests = False
        self.reconciler.add([Part("x", ["x/+"])])
        self.turn(0)
        self.turn(QUIET_SECONDS - 0.1)
        self.turn(0)
        self.assertEqual(self.reconciler.active_parts[0].is_cancelled, False)
        self.turn(0.2)
        self.turn(QUIET_SECONDS - 0.1)
        self.assertEqual(self.reconciler.active_parts[0].is_cancelled, True)
        self.turn(0.2)
        self.assertEqual(self.compared_parts, [])
        self.turn(0)
        self.assertEqual([part.retained for part in self.compared_parts], [{"x/1": "one", "x/2": "two"}])

    def test_messages_keep_a_part_waiting(self):
        self.connection.answers_requests = False
        self.reconciler.add([Part("x", ["x/+"])])
        self.turn(0)
        for _ in range(10):
            self.reconciler.handle_retained("x/3", "x")
            self.turn(QUIET_SECONDS - 1)
        self.assertFalse(self.reconciler.active_parts[0].is_cancelled)

    def test_a_part_after_a_long_silence(self):
        self.connection.answers_requests = False
        self.clock.now += 1000
        self.reconciler.add([Part("z", ["z/+"])])
        self.turn(QUIET_SECONDS - 0.1)
        self.turn()
        self.assertFalse(self.reconciler.active_parts[0].is_cancelled)

    def test_an_answer_for_one_part_keeps_another_one_waiting(self):
        self.connection.answers_requests = False
        self.reconciler.add([Part("x", ["x/+"]), Part("y", ["y/+"])])
        self.turn(0)
        self.connection.received_messages.clear()
        first_part, second_part = self.reconciler.active_parts
        for _ in range(2):
            # the answer to the request, and then that to its cancellation
            self.connection.unanswered_numbers.discard(first_part.request_number)
            self.turn(QUIET_SECONDS - 1)
        self.assertEqual((self.compared_parts, second_part.is_cancelled), ([first_part], False))
        self.turn(0)
        self.assertFalse(second_part.is_cancelled)

    def test_what_is_published_meanwhile_counts(self):
        self.reconciler.add([Part("x", ["x/+"])])
        self.turn()
        self.reconciler.note_published("x/1", "new")
        self.reconciler.note_published("y/1", "elsewhere")
        self.reconciler.handle_retained("x/1", "old")
        self.reconciler.handle_retained("x/2", "two")
        self.turn()
        self.turn()
        self.assertEqual(self.compared_parts[0].retained, {"x/1": "new", "x/2": "two"})

    def test_constants(self):
        self.assertEqual((reconcile.QUIET_SECONDS, reconcile.MAX_UNKNOWN), (5, 1000))


if __name__ == "__main__":
    unittest.main()
