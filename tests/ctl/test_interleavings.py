"""The rule that finds answers, on random interleavings of orders, packets, other programs, failures and restarts."""
from __future__ import annotations

import collections
import random
import unittest
from dataclasses import dataclass

from enogate_ctl.answers import PACKET_ERRORS, AnswerFinder, parse_line
from enogate_ctl.client import Client, Lines, PendingAnswer
from enogate_ctl.desk_file import NoAnswer
from enogate_ctl.fence import are_enough_fences, needed_fences
from enogate_tools.gateways import paths_of
from fakes import TimeLimitedTest
from model import EEPS, IDS, UNSUPPORTED, GatewayModel

CASE_COUNT = 24000


def random_order(source: random.Random) -> str:
    """An order, which may be refused."""
    name, eep = source.choice((*IDS, IDS[0].lower(), "FFFFFFFF")), source.choice((*EEPS, EEPS[0].lower(), UNSUPPORTED))
    return source.choice((
        f"add {name} {eep}", f"add {name} {eep}", f"remove {name}", f"remove {name}", f"label {name} Lamp 2",
        f"label {name}", "list", "base", f"switch {name} {source.choice((0, 31))} on", "learn on", "learn off",
        f"learn as {eep}", f"central {source.choice((5, 128))} on", "status"))


def random_orders(source: random.Random) -> list[str]:
    """Orders of an import, all of one kind, for different devices."""
    count, kind = source.randrange(2, 5), source.choice(("add", "label"))
    words = [*EEPS, UNSUPPORTED] if kind == "add" else ["Lamp", "Lamp 2"]
    return [f"{kind} {name} {source.choice(words)}" for name in source.sample(IDS, count)]


def orders_of_other_program(source: random.Random) -> list[str]:
    """What another program gives at once."""
    order = random_order(source)
    return source.choice(([order], [order], ["status"], [order, "status"], ["status", order], ["list", "status"],
                          ["status", order, "status"]))


@dataclass(frozen=True)
class Event:
    """Lines that are written together: of a packet, of an order of another program, or of an own one, or a restart."""
    who: str
    order: str
    lines: list[bytes]

    @property
    def is_status(self) -> bool:
        return self.order == "status" and b'"mode"' in self.lines[0]

    @property
    def is_failed_packet(self) -> bool:
        return self.who == "packet" and bool(self.lines) and is_shared(self.lines[-1])


class InterleavingCase:
    """An interleaving of packets and of the orders of the command with those of other programs."""

    def __init__(self, source: random.Random, failing: float, fences_fail: bool, has_pair: bool,
                 orders: list[str] | None = None):
        self.source, self.explains, self.order = source, source.random() < 0.5, random_order(source)
        self.orders = orders or [self.order]
        self.order = self.orders[0]
        self.model = GatewayModel(source, self.explains, failing, fences_fail)
        self.model.mode = source.choice(("closed", "on", "on"))
        for name in source.sample(IDS, source.randrange(len(IDS))):
            self.model.devices[name] = source.choice(EEPS), source.choice((None, 70))
        self.before = [text for _ in range(source.choice((0, 0, 1, 2))) for text in orders_of_other_program(source)]
        if has_pair:
            self.before += ["status"] * source.choice((2, 2, 2, 3, 4)) + [random_order(source)]
        if orders:
            # another program gives orders that look like a part of these
            self.before += [text for order in source.choices(orders, k=source.randrange(3))
                            for text in source.choice(([order], [order, "status"], ["status", "status", order]))]
        self.write()
        self.after = [text for _ in range(source.choice((0, 1, 2))) for text in orders_of_other_program(source)]
        self.events = list(self.play_events())
        # the command finds the end of the lines before its orders are handled
        own = [number for number, event in enumerate(self.events) if event.who in ("own", "restart")]
        self.seen = self.events[source.randrange(min(own) + 1):]

    def write(self) -> None:
        """The command writes its text. Before that, it may have seen only a part of what is on the desk."""
        self.finder = AnswerFinder(*self.orders)
        seen = len(self.before) if self.source.random() < 0.8 else self.source.randrange(len(self.before) + 1)
        texts = [b"".join(order.encode() + b"\n" for order in orders) for orders in (self.before[:seen], self.before)]
        self.finder.least = needed_fences(texts[0])
        self.finder.least_with_errors = needed_fences(texts[1], with_errors=True)
        self.own = self.finder.desk_text.decode().replace("\r", "").split("\n")[:-1]
        self.is_recognizable = (self.finder.is_status_order
                                or are_enough_fences(self.finder.least, texts[1], self.finder.desk_text))

    def play_events(self):
        """What a gateway does. At a restart the desk is emptied, and other programs go on."""
        orders = [("other", text) for text in self.before] + [("own", text) for text in self.own]
        if self.source.random() < 0.1:
            del orders[self.source.randrange(len(orders)):]
            orders += [("restart", ""), *(("other", text) for text in ("status", "status", random_order(self.source)))]
        for who, text in orders + [("other", text) for text in self.after]:
            for _ in range(self.source.choice((0, 0, 1, 2, 3))):
                yield Event("packet", "", self.model.packet())
            if who == "restart":
                self.model.start()
            yield Event(who, text, self.model.order(text) if text else [])

    @property
    def answer(self) -> list[bytes] | None:
        """The right answer, if there is one."""
        return self.answers[0] if self.answers else None

    @property
    def is_ambiguous(self) -> bool:
        """Whether the rule cannot decide this case, by the guide. In both cases another program has given
        `status` orders. Either one of these fails before the fences are answered, or a packet does without packet
        lines; or a fence has failed."""
        if any(event.who == "own" and event.order == "status" and not event.is_status for event in self.seen):
            return any(event.who == "other" and event.is_status for event in self.seen)
        status_count = own = 0
        for event in self.seen:
            own += event.who == "own"
            if own > self.finder.least or event.who == "restart" or self.order == "status":
                return False
            if event.is_status:
                status_count += 1
            elif event.who == "other" and not is_shared(event.lines[-1]):
                status_count = 0
            elif status_count >= self.finder.least > own and (event.order == "status" or (
                    event.is_failed_packet and not self.explains)):
                return True
        return False

    @property
    def may_be_late(self) -> bool:
        """Whether the rule may find no answer, by the guide. Without packet lines a packet fails between the
        fences of the command, and more fences would be needed because of the orders of another program."""
        own = 0
        for event in self.seen:
            own += event.who == "own"
            if event.is_failed_packet and 0 < own < self.finder.least < self.finder.least_with_errors:
                return not self.explains
        return False

    def random_pieces(self) -> list[list[Event]]:
        """What the command reads at a time."""
        random_pieces: list[list[Event]] = [[]]
        for event in self.seen:
            if self.source.random() < 0.4:
                random_pieces.append([])
            random_pieces[-1].append(event)
        return random_pieces

    @property
    def answers(self) -> list[list[bytes]]:
        """The right answers to several orders."""
        own = [event.lines for event in self.events if event.who == "own"]
        return own[0 if self.finder.is_status_order else self.finder.least::2][:len(self.orders)]

    def run(self) -> list[bytes] | str:
        """The answer that the command finds to its order, or why it finds none."""
        found = self.run_all()
        return found if isinstance(found, str) else found[0]

    def run_all(self) -> list[list[bytes]] | str:
        """The answers that the command finds, or why it finds none."""
        if not self.is_recognizable:
            return "unrecognizable"
        self.left, self.read_events, self.now = self.random_pieces(), [], 0.0
        client = Client(paths_of("hall"), 10.0, lambda: self.now, self.sleep)
        try:
            found = client.wait(self, self, self.finder, 10.0)
            return [[line.raw for line in answer.lines] for answer in found]
        except PendingAnswer:
            return "late"
        except NoAnswer:
            return "restarted"

    def sleep(self, _seconds: float) -> None:
        """After the last piece, time passes."""
        self.now += 0.0 if self.left else 99.0

    first_result = Lines.first_result

    def read(self) -> list[bytes]:
        """The next piece of the lines."""
        piece = self.left.pop(0) if self.left else []
        self.read_events += piece
        return [raw for event in piece for raw in event.lines]

    def check(self) -> None:
        """Fails after a restart, which empties the desk."""
        if any(event.who == "restart" for event in self.read_events):
            raise NoAnswer


def is_shared(raw: bytes) -> bool:
    """Whether this line is the error `memory` or `store`."""
    line = parse_line(raw)
    return line is not None and line.error in PACKET_ERRORS


class Interleavings(TimeLimitedTest):
    """The command finds the right answer, or none."""

    def results(self, count: int, seed: int, failing: float = 0.05, fences_fail: bool = False,
                has_pair: bool = False) -> collections.Counter:
        """How many of so many interleavings have which result. A wrong one is shown."""
        source, found = random.Random(seed), collections.Counter()
        self.wrong: list[tuple] = []
        for _ in range(count):
            case = InterleavingCase(source, failing, fences_fail, has_pair)
            result = case.run()
            found[self.result(case, result)] += 1
        return found

    def result(self, case: InterleavingCase, result: list[bytes] | str) -> str:
        """What became of the order of a case."""
        if isinstance(result, str):
            return "unsure" if result == "late" and case.may_be_late else result
        if result == case.answer or (case.order == "status" and b'"mode"' in result[0]):
            # any status line that is written after the order was given answers `status`
            return "right"
        if case.answer and is_shared(result[-1]) and is_shared(case.answer[-1]) and not case.explains:
            return "other error"
        device = case.order[7:].upper().encode()
        if case.answer and all(b'"deleted"' in lines[-1] and device in lines[-1] for lines in (result, case.answer)):
            return "other profile"
        if case.is_ambiguous:
            return "ambiguous"
        self.wrong.append((case.order, result, case.answer, [(event.who, event.lines) for event in case.seen]))
        return "wrong"

    def test_no_answer_is_wrong_or_late(self):
        """Except for the cases that the guide names."""
        found = self.results(CASE_COUNT, 1)
        self.assertEqual(self.wrong[:1], [])
        self.assertEqual(found["late"], 0)
        self.assertGreater(found["right"], 20000)
        self.assertLess(found["ambiguous"], 80)
        self.assertLess(found["unsure"], 10)
        self.assertLess(found["unrecognizable"], 300)
        self.assertLess(found["other error"] + found["other profile"], 200)

    def test_many_failures(self):
        found = self.results(4000, 2, failing=0.3)
        self.assertEqual((self.wrong[:1], found["late"]), ([], 0))
        self.assertGreater(found["right"], 3000)

    def test_another_program_with_pairs_of_status_orders(self):
        found = self.results(4000, 3, has_pair=True)
        self.assertEqual((self.wrong[:1], found["late"]), ([], 0))
        self.assertLess(found["ambiguous"], 20)
        self.assertLess(found["unsure"], 50)
        self.assertGreater(found["right"], 2800)

    def test_fences_that_fail(self):
        """Such an order may be late."""
        found = self.results(4000, 4, failing=0.1, fences_fail=True)
        self.assertEqual(self.wrong[:1], [])
        self.assertGreater(found["right"], 2500)
        self.assertGreater(found["late"], 100)


class SeveralOrders(TimeLimitedTest):
    """The command finds the right answers to several orders, or none. If one of them is an error that packets have too,
    it gives the orders again, one by one."""

    def results(self, count: int, seed: int, failing: float = 0.05, fences_fail: bool = False,
                has_pair: bool = False) -> collections.Counter:
        """How many of so many interleavings have which result. A wrong one is shown."""
        source, found = random.Random(seed), collections.Counter()
        self.wrong: list[tuple] = []
        for _ in range(count):
            orders = random_orders(source)
            case = InterleavingCase(source, failing, fences_fail, has_pair, orders)
            result = case.run_all()
            found[self.result(case, result)] += 1
        return found

    def result(self, case: InterleavingCase, result: list[list[bytes]] | str) -> str:
        """What became of the orders of a case."""
        if isinstance(result, str):
            return "unsure" if result == "late" and case.may_be_late else result
        if any(is_shared(lines[-1]) for lines in result):
            return "again"
        if result == case.answers:
            return "right"
        if case.is_ambiguous:
            return "ambiguous"
        self.wrong.append((case.orders, result, case.answers, [(event.who, event.lines) for event in case.seen]))
        return "wrong"

    def test_no_answer_is_wrong_or_late(self):
        """Another program would have to give as many orders that these answers fit, each between status orders."""
        found = self.results(6000, 5)
        self.assertEqual((self.wrong[:1], found["late"]), ([], 0))
        self.assertLess(found["ambiguous"], 3)
        self.assertLess(found["unsure"], 50)
        self.assertGreater(found["right"], 4200)
        self.assertGreater(found["again"], 100)

    def test_without_failures(self):
        found = self.results(2000, 6, failing=0)
        self.assertEqual((self.wrong[:1], found["late"], found["again"], found["ambiguous"]), ([], 0, 0, 0))
        self.assertGreater(found["right"], 1500)

    def test_many_failures_and_pairs_of_status_orders(self):
        found = self.results(2000, 7, failing=0.3, has_pair=True)
        self.assertEqual((self.wrong[:1], found["late"]), ([], 0))
        self.assertLess(found["ambiguous"], 10)
        self.assertLess(found["unsure"], 200)
        self.assertGreater(found["right"], 500)

    def test_fences_that_fail(self):
        """Such orders may be late."""
        found = self.results(2000, 8, failing=0.1, fences_fail=True)
        self.assertEqual(self.wrong[:1], [])
        self.assertLess(found["ambiguous"], 30)
        self.assertGreater(found["late"], 100)


if __name__ == "__main__":
    unittest.main()
