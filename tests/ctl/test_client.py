"""The desk: its lock, the single write, and the wait for the answer."""
import contextlib
import fcntl
import os
import pathlib
import select
import signal
import time
import unittest
from unittest import mock

from enogate_ctl import client as clients, main as program
from enogate_ctl.answers import AnswerFinder
from enogate_ctl.client import LOCK_SECONDS_AFTER_ANSWER, MAX_LOCK_SECONDS, LONG_PAUSE, PAUSE, Client, Lines, NoAnswer
from enogate_ctl.command_line import ExportDevices, FollowLines, GiveOrder, ImportDevices, ShowDevices
from enogate_ctl.desk_file import DeskFile
from enogate_tools.gateways import Paths
from enogate_ctl.stops import SIGNALS, Stopped, StopSignals
from enogate_tools import files
from fakes import OK, GatewayFilesTest, TimeLimitedTest, call_within, error, status, teach

RESTARTED_TEXT = ("the gateway was restarted, or its desk was truncated: find out with `list` or `status` whether the "
                  "order was carried out, and give it again if not")
LOCKED_TEXT = ("another order is still waiting for its answer: check the gateway with enogate-check; a restart of the "
               "gateway ends the wait")
ANSWER = (status(), status(), OK, status())
UNSAFE_ADVICE = ("it must be a regular file with one name, which belongs to the owner of its directory; delete it, and "
                 "restart the gateway")


class ClientTest(GatewayFilesTest):
    """A desk with this clock. A process that would be forked is counted."""

    def setUp(self):
        super().setUp()
        self.fork_count = 0

    def fork(self):
        self.fork_count += 1
        return 1

    def make_client(self, timeout=10.0):
        return Client(self.paths, timeout, self.clock, self.clock.sleep, self.fork)

    def assert_no_answer(self, text, order="learn on", timeout=10.0):
        """The order gets no answer, for this reason."""
        with self.assertRaises(NoAnswer) as found:
            self.make_client(timeout).ask(order)
        self.assertEqual(str(found.exception), text)

    def lock(self):
        """Another program locks the desk. Returns its open file."""
        other = os.open(self.desk, os.O_RDWR)
        self.addCleanup(lambda: other in self.opened and os.close(other))
        self.opened = {other}
        fcntl.flock(other, fcntl.LOCK_EX)
        return other


class OrderAnswers(ClientTest):
    def test_the_answer(self):
        self.write(*ANSWER[:3], "half")
        self.clock.acts[3] = lambda: self.write(*ANSWER)
        answer = self.make_client().ask("learn on")
        self.assertEqual(([line.members for line in answer.lines], answer.error), ([OK], None))
        self.assertEqual(self.desk.read_bytes(), b"status\nstatus\nlearn on\nstatus\r\n")
        self.assertEqual((self.clock.slept, self.fork_count), ([PAUSE] * 3, 0))

    def test_an_error(self):
        self.clock.acts[1] = lambda: self.write(status(), status(), error("unsupported_profile"), status())
        self.assertEqual(self.make_client().ask("learn as A5-99-99").error, "unsupported_profile")

    def test_it_is_appended_in_one_write(self):
        self.desk.write_text("list\n")
        with mock.patch("os.write", wraps=os.write) as write:
            self.clock.acts[1] = lambda: self.write(*ANSWER)
            self.make_client().ask("learn on")
        self.assertEqual([call.args[1] for call in write.call_args_list], [b"status\nstatus\nlearn on\nstatus\r\n"])
        self.assertEqual(self.desk.read_bytes(), b"list\nstatus\nstatus\nlearn on\nstatus\r\n")

    def test_the_desk_is_unlocked_and_files_are_closed(self):
        before = len(os.listdir("/proc/self/fd"))
        self.clock.acts[1] = lambda: self.write(*ANSWER)
        self.make_client().ask("learn on")
        self.assertEqual(len(os.listdir("/proc/self/fd")), before)
        fcntl.flock(self.lock(), fcntl.LOCK_UN)

    def test_it_is_locked_meanwhile(self):
        other = os.open(self.desk, os.O_RDWR)
        self.addCleanup(os.close, other)

        def look():
            for kind in (fcntl.LOCK_EX, fcntl.LOCK_SH):
                self.assertRaises(BlockingIOError, fcntl.flock, other, kind | fcntl.LOCK_NB)
            self.write(*ANSWER)
        self.clock.acts[1] = look
        self.make_client().ask("learn on")

    def test_a_locked_desk(self):
        other = self.lock()
        self.assert_no_answer(LOCKED_TEXT, timeout=0.05)
        self.assertEqual((len(self.clock.slept), self.desk.read_text(), self.fork_count), (5, "", 0))
        self.clock.slept.clear()
        self.clock.acts[2] = lambda: os.close(other) or self.opened.clear()
        self.clock.acts[4] = lambda: self.write(*ANSWER)
        self.make_client().ask("learn on")
        self.assertEqual(len(self.clock.slept), 4)

    def test_the_time_for_the_lock_and_for_the_answer_is_one(self):
        other = self.lock()
        self.clock.acts[3] = lambda: os.close(other) or self.opened.clear()
        self.assert_no_answer("the gateway did not answer within 0.05 s, and may still carry out the order: check the "
                              "gateway with enogate-check", timeout=0.05)
        self.assertEqual((len(self.clock.slept), self.fork_count), (5, 1))

    def test_an_answer_at_the_last_moment(self):
        self.clock.acts[5] = lambda: self.write(*ANSWER)
        self.make_client(0.05).ask("learn on")

    def test_a_stop_while_it_waits_for_the_lock(self):
        self.lock()
        self.assert_stop(0)

    def test_a_stop_while_it_waits_for_the_answer(self):
        self.assert_stop(1)

    def stops_at_the_first_line(self):
        """A signal comes while the command takes the first line that it reads."""
        for number in SIGNALS:
            self.addCleanup(signal.signal, number, signal.getsignal(number))
        StopSignals().install()
        take, signals = AnswerFinder.handle_line, [signal.SIGTERM]

        def stop(finder, line):
            while signals:
                signal.raise_signal(signals.pop())
            return take(finder, line)
        self.enterContext(mock.patch.object(AnswerFinder, "handle_line", stop))

    def test_a_stop_while_it_reads_the_answer(self):
        """No lock is kept: no answer can come any more."""
        self.stops_at_the_first_line()
        self.clock.acts[2] = lambda: self.write(*ANSWER)
        self.assertRaises(Stopped, self.make_client().ask, "learn on")
        self.assertEqual(self.fork_count, 0)

    def test_a_stop_while_it_reads_half_of_the_answer(self):
        """The process that keeps the lock finds the answer when the rest of it comes."""
        self.stops_at_the_first_line()
        self.clock.acts[2] = lambda: self.write(*ANSWER[:3])
        kept = []

        def keep(_desk, file, lines, finder):
            self.clock.acts[len(self.clock.slept) + 1] = lambda: self.write(*ANSWER[3:])
            begin = self.clock.now
            self.make_client().wait_for_last_answer(file, lines, finder)
            kept.append(self.clock.now - begin)
        with mock.patch.object(Client, "keep_lock", keep):
            self.assertRaises(Stopped, self.make_client().ask, "learn on")
        self.assertAlmostEqual(kept[0], LONG_PAUSE)

    def assert_stop(self, fork_count):
        """A signal stops the command. So many processes keep the lock."""
        def stop():
            raise Stopped(signal.SIGTERM)
        self.clock.acts[2] = stop
        self.assertRaises(Stopped, self.make_client().ask, "learn on")
        self.assertEqual(self.fork_count, fork_count)

    def test_a_restart(self):
        self.clock.acts[2] = lambda: self.desk.write_text("")
        self.assert_no_answer(RESTARTED_TEXT)
        self.assertEqual(self.fork_count, 0)

    def test_a_restart_that_is_noticed_late(self):
        """Other programs have written to the desk since, and the lines look like an answer."""
        def restart():
            self.desk.write_text("list\n" * 20)
            self.write(*ANSWER)
        self.clock.acts[1] = restart
        self.assert_no_answer(RESTARTED_TEXT)

    def test_a_desk_that_is_replaced_or_deleted(self):
        def replace():
            text = self.desk.read_text()
            self.desk.rename(self.folder / "old")
            self.desk.write_text(text)
        text = f"the desk {self.desk} was replaced or deleted: restart the gateway, and give the order again"
        for act in (replace, self.desk.unlink):
            self.clock = type(self.clock)()
            self.clock.acts[1] = act
            self.assert_no_answer(text)

    def test_rotation(self):
        def rotate():
            self.write(*ANSWER[:2])
            self.lines.rename(self.folder / "hall.lines.1")
            self.write(*ANSWER[2:])
        self.clock.acts[1] = rotate
        self.make_client().ask("learn on")

    def test_a_desk_that_is_longer_than_the_memory(self):
        real = os.pread

        def read(file, length, start):
            if length > 16 << 20:
                raise MemoryError
            return real(file, length, start)

        os.truncate(self.desk, 1 << 36)
        with mock.patch("os.pread", read):
            self.assert_no_answer(f"the desk {self.desk} has more than 16 MB: restart the gateway, which empties it")
        self.assertEqual((self.desk.stat().st_size, self.fork_count), (1 << 36, 0))

    def test_an_incomplete_line(self):
        with self.lines.open("a") as file:
            file.write("{" * 100)
        self.clock.acts[1] = lambda: self.write('{"type":"ok"}', *ANSWER)
        self.make_client().ask("learn on")

    def test_the_end_of_an_incomplete_line_is_not_a_fence(self):
        with self.lines.open("a") as file:
            file.write("{" * 100)
        refused = error("unsupported_profile")
        lines = (status(), status(), OK, status(), status(), refused, status())
        self.clock.acts[1] = lambda: self.write(*lines)
        self.assertEqual(self.make_client().ask("learn as A5-99-99").error, "unsupported_profile")

    def test_no_lines_yet(self):
        self.lines.unlink()
        self.clock.acts[1] = lambda: self.write(*ANSWER)
        self.make_client().ask("learn on")

    def test_lines_that_cannot_be_read(self):
        def refuse(path, *words, **keywords):
            if path == self.lines.name:
                raise PermissionError(13, "Permission denied")
            return mock.DEFAULT
        with mock.patch("os.open", side_effect=refuse, wraps=os.open):
            self.assert_no_answer(f"the lines {self.lines} cannot be read: Permission denied; become root, or a member "
                                  "of the group enogate (log in again afterwards)")
        self.assertEqual(self.desk.read_text(), "")


class OrdersOfOthers(ClientTest):
    """Orders that another program wrote without a lock, and that are not answered yet."""

    def setUp(self):
        super().setUp()
        self.others = "status\nstatus\nswitch 01800ABC 0 on\n"
        self.refused = error("unknown_device")

    def appended(self):
        """What the order has appended to the desk."""
        self.clock.acts[len(self.clock.slept) + 1] = lambda: self.write(*[status()] * 9, self.refused, status())
        before = self.desk.read_bytes()
        self.assertEqual(self.make_client().ask("label 01800ABD x").error, "unknown_device")
        return self.desk.read_bytes().removeprefix(before).count(b"status\n")

    def test_their_answer_is_not_taken(self):
        self.desk.write_text(self.others)
        self.clock.acts[1] = lambda: self.write(status(), status(), OK, status(), status(), status())
        self.clock.acts[2] = lambda: self.write(self.refused, status())
        self.assertEqual(self.make_client().ask("label 01800ABD x").error, "unknown_device")
        self.assertEqual(self.desk.read_bytes(),
                         self.others.encode() + b"status\nstatus\nstatus\nlabel 01800ABD x\nstatus\r\n")

    def test_one_of_them_fails(self):
        """The error could be that of a packet, so the status lines before and after it would look like one row."""
        self.desk.write_text("status\nlist\nstatus\nlabel 01800ABC x\n")
        self.clock.acts[1] = lambda: self.write(status(), error("store"), status(), OK, status(), status())
        self.clock.acts[2] = lambda: self.write(self.refused, status())
        self.assertEqual(self.make_client().ask("label 01800ABD x").error, "unknown_device")

    def test_after_the_next_order_they_do_not_count(self):
        self.desk.write_text(self.others)
        self.assertEqual([self.appended() for _ in range(3)], [3, 2, 2])

    def test_several_orders(self):
        self.desk.write_text(self.others)
        self.clock.acts[1] = lambda: self.write(status(), status(), OK, *[status()] * 3, self.refused, status(), OK,
                                                status())
        answers = self.make_client().ask_all(["label 01800ABD x", "label 01800ABE x"])
        self.assertEqual([answer.error for answer in answers], ["unknown_device", None])

    def test_each_answer_gives_time_for_the_next_one(self):
        orders = [f"label 01800A{number:02X} x" for number in range(5)]
        for seconds, is_late in ((9.5, False), (10.5, True)):
            client = self.make_client()
            pauses = round(seconds / PAUSE)
            self.clock.slept.clear()
            self.clock.acts = {1: lambda: self.write(status(), status())} | {
                1 + number * pauses: lambda: self.write(OK, status()) for number in range(1, 6)}
            if is_late:
                with self.assertRaises(NoAnswer):
                    client.ask_all(orders)
                self.assertAlmostEqual(sum(self.clock.slept), client.timeout, delta=PAUSE)
            else:
                self.assertEqual(len(client.ask_all(orders)), 5)
        self.assertEqual(self.fork_count, 1)

    def test_only_answers_give_time(self):
        """Status lines of other programs do not, nor do answers to their orders. One that looks like the first answer
        does so once."""
        orders = [f"label 01800A{number:02X} x" for number in range(5)]
        alike = (status(), status(), OK, status())
        taught = teach("01800ABC"), status(teach=1)
        for seconds, texts in ((10, [(status(),)]), (10, [(OK, OK, status())]), (10, [taught]),
                               (10.1, [alike, alike[:2]])):
            self.clock.slept.clear()
            self.clock.acts = {place: lambda place=place: self.write(*texts[place % len(texts)])
                               for place in range(10, 2000, 7)}
            with self.assertRaises(NoAnswer):
                self.make_client().ask_all(orders)
            self.assertAlmostEqual(sum(self.clock.slept), seconds, delta=PAUSE)

    def write_at_once(self, text):
        """Another program appends this just before the command."""
        def write(file, own):
            with self.desk.open("a") as other:
                other.write(text)
            return real(file, own)
        real = os.write
        return mock.patch("os.write", side_effect=write)

    def test_orders_that_are_written_at_the_same_moment(self):
        text = ("another program gave orders at the same moment, so no answer can be recognized: find out with `list` "
                "or `status` whether the order was carried out, and give it again if not")
        for other in (self.others, "list", "status"):
            with self.subTest(other), self.write_at_once(other):
                self.fork_count = 0
                self.assert_no_answer(text)
                self.assertEqual((self.clock.slept, self.fork_count), ([], 1))
        for other in ("status\n", "status\nlist\n"):
            with self.subTest(other), self.write_at_once(other):
                self.clock.acts[len(self.clock.slept) + 1] = lambda: self.write(*ANSWER)
                self.make_client().ask("learn on")

    def test_signals_are_held_until_the_desk_is_looked_at_again(self):
        """The process that keeps the lock would otherwise take a wrong answer for that of the order."""
        def look(*_words):
            self.assertIn(signal.SIGTERM, signal.pthread_sigmask(signal.SIG_BLOCK, []))
            return True
        self.clock.acts[1] = lambda: self.write(*ANSWER)
        with mock.patch.object(clients, "are_enough_fences", side_effect=look) as looked:
            self.make_client().ask("learn on")
        looked.assert_called_once()
        self.assertNotIn(signal.SIGTERM, signal.pthread_sigmask(signal.SIG_BLOCK, []))

    def test_the_order_status_takes_any_status_line(self):
        with self.write_at_once(self.others):
            self.clock.acts[1] = lambda: self.write(status())
            self.make_client().ask("status")

    def test_the_lock_is_kept_then(self):
        """Also if lines look like the answer."""
        kept = []

        def fork():
            return len(kept)

        def keep(_desk, file, lines, finder):
            self.clock.acts[len(self.clock.slept) + 1] = lambda: self.write(*[status()] * 9, *ANSWER)
            begin = self.clock.now
            self.make_client().wait_for_last_answer(file, lines, finder)
            kept.append(self.clock.now - begin)
        with self.write_at_once(self.others), mock.patch.object(Client, "keep_lock", keep):
            self.assertRaises(NoAnswer, self.make_client().ask, "learn on")
        self.assertAlmostEqual(kept[0], LOCK_SECONDS_AFTER_ANSWER, 0)

    def test_the_desk_is_read_after_the_lines_are_opened(self):
        """An order that comes between the two may be answered after the offset at which the lines were opened."""
        def opened(path):
            made = Lines(path)
            with self.desk.open("a") as other:
                other.write(self.others)
            return made
        with mock.patch.object(clients, "Lines", opened):
            self.assertEqual(self.appended() - 2, 3)


class KeptLocks(ClientTest):
    """The process that keeps the lock."""

    def keep(self, *orders):
        """How long the lock is kept, and why it ends."""
        file = DeskFile(self.paths.desk)
        self.addCleanup(file.close)
        finder = clients.AnswerFinder(*orders or ["learn on"])
        file.append(finder.desk_text)
        lines = Lines(self.paths.lines)
        try:
            self.make_client().wait_for_last_answer(file, lines, finder)
        except NoAnswer:
            return self.clock.now, "unusable"
        return self.clock.now, "returned"

    def test_until_the_answer_comes(self):
        self.clock.acts[30] = lambda: self.write(*ANSWER)
        self.assertEqual(self.keep(), (3.0000000000000013, "returned"))
        self.assertEqual(set(self.clock.slept), {LONG_PAUSE})

    def test_until_the_desk_is_emptied_or_replaced(self):
        self.clock.acts[7] = lambda: self.desk.write_text("")
        self.assertEqual(self.keep()[1], "unusable")
        self.assertEqual(len(self.clock.slept), 7)

    def test_until_some_time_after_the_gateway_answers_orders_again(self):
        """The first fence has failed."""
        for number in (50, 90):
            self.clock.acts[number] = lambda: self.write(error("memory"), error("range"))
        seconds, end = self.keep()
        self.assertAlmostEqual(seconds, 5 + LOCK_SECONDS_AFTER_ANSWER, 0)
        self.assertEqual((end, LOCK_SECONDS_AFTER_ANSWER), ("returned", 10))

    def test_each_answer_gives_time_for_the_next_one(self):
        self.clock.acts = {50: lambda: self.write(status(), status(), OK, status())} | {
            number: lambda: self.write(OK, status()) for number in (140, 230)}
        seconds, end = self.keep(*(f"label 01800A0{number} x" for number in range(3)))
        self.assertAlmostEqual(seconds, 23, 0)
        self.assertEqual(end, "returned")

    def test_packets_do_not_end_it(self):
        for number in range(1, 300, 10):
            self.clock.acts[number] = lambda: self.write(error("memory"))
        seconds, end = self.keep()
        self.assertAlmostEqual(seconds, MAX_LOCK_SECONDS, 0)
        self.assertEqual((end, MAX_LOCK_SECONDS), ("returned", 3600))

    def start_lock_keeper(self):
        """An order gets no answer. Returns the process that keeps the lock."""
        numbers = []

        def fork():
            numbers.append(os.fork())
            return numbers[0]
        with self.assertRaises(NoAnswer):
            Client(self.paths, 0.1, fork=fork).ask("learn on")
        return numbers[0]

    def test_a_signal_ends_the_process(self):
        """It is that of its own session: a signal to the terminal does not end it."""
        before = signal.signal(signal.SIGTERM, lambda *_: None)
        self.addCleanup(signal.signal, signal.SIGTERM, before)
        number = self.start_lock_keeper()
        self.addCleanup(lambda: number and os.kill(number, signal.SIGKILL))
        end = time.monotonic() + 10
        while os.getsid(number) != number and time.monotonic() < end:
            time.sleep(0.01)
        self.assertEqual(os.getsid(number), number)
        os.kill(number, signal.SIGTERM)
        while (found := os.waitpid(number, os.WNOHANG))[0] == 0 and time.monotonic() < end:
            time.sleep(0.01)
        self.assertEqual(found, (number, signal.SIGTERM))
        number = 0

    def test_the_process(self):
        """It keeps the lock, and has none of the pipes of the command."""
        read, write = os.pipe()
        self.addCleanup(os.close, read)
        self.addCleanup(self.desk.write_text, "")
        outs = [os.dup(number) for number in (0, 1, 2)]
        client = Client(self.paths, 0.1)
        try:
            for number in (1, 2):
                os.dup2(write, number)
            os.close(write)
            with self.assertRaises(NoAnswer):
                client.ask("learn on")
        finally:
            for number, out in enumerate(outs):
                os.dup2(out, number)
                os.close(out)
        self.assertEqual(select.select([read], [], [], 10)[0], [read], "the pipe has not ended")
        self.assertEqual(os.read(read, 1), b"")
        other = os.open(self.desk, os.O_RDWR)
        self.addCleanup(os.close, other)
        self.assertRaises(BlockingIOError, fcntl.flock, other, fcntl.LOCK_EX | fcntl.LOCK_NB)
        self.desk.write_text("")
        self.assertEqual(os.wait()[1], 0)
        fcntl.flock(other, fcntl.LOCK_EX | fcntl.LOCK_NB)


class UnusableFiles(ClientTest):
    """The file of a desk."""

    def test_no_desk(self):
        self.desk.unlink()
        self.assert_no_answer(f"there is no desk {self.desk}: correct the name of the gateway, or start it; its unit "
                              "makes the desk")

    def test_no_rights(self):
        with mock.patch("os.open", side_effect=PermissionError(13, "Permission denied")):
            self.assert_no_answer(f"the desk {self.desk} cannot be opened: Permission denied; become root, or a member "
                                  "of the group enogate (log in again afterwards)")

    def test_a_desk_that_is_a_pipe(self):
        self.desk.unlink()
        os.mkfifo(self.desk)
        before = len(os.listdir("/proc/self/fd"))
        self.assert_no_answer(f"the desk {self.desk} is not a file: this command cannot use terminals and pipes")
        self.assertEqual(len(os.listdir("/proc/self/fd")), before)

    def test_a_link_is_not_followed(self):
        """The user of the service may put one in place of the desk."""
        other = self.folder / "other"
        other.write_text("root\n")
        self.desk.unlink()
        self.desk.symlink_to(other)
        self.assert_no_answer(f"the desk {self.desk} is not used, because it is a symbolic link: {UNSAFE_ADVICE}")
        self.desk.unlink()
        self.desk.hardlink_to(other)
        self.assert_no_answer(f"the desk {self.desk} is not used, because it has a second name (a hard link): "
                              f"{UNSAFE_ADVICE}")
        self.assertEqual(other.read_text(), "root\n")

    def test_a_desk_of_another_user(self):
        before = len(os.listdir("/proc/self/fd"))
        with mock.patch.object(files, "owner_of", return_value=os.getuid() + 1), \
                mock.patch("os.geteuid", return_value=0):
            self.assert_no_answer(f"the desk {self.desk} is not used, because it does not belong to the owner of its "
                                  f"directory: {UNSAFE_ADVICE}")
        self.assertEqual((self.desk.read_text(), len(os.listdir("/proc/self/fd"))), ("", before))

    def test_a_desk_that_is_exchanged_meanwhile(self):
        """The open file is looked at, and not only its name."""
        self.exchange_for(pathlib.Path.hardlink_to, "is not used, because it has a second name (a hard link): "
                          f"{UNSAFE_ADVICE}")
        self.exchange_for(pathlib.Path.symlink_to, f"is not used, because it is a symbolic link: {UNSAFE_ADVICE}")

    def exchange_for(self, link, why):
        """Another name of a file is put in place of the desk just before the desk is opened."""
        other = self.folder / "other"
        other.write_text("root\n")
        second = self.folder / "second"
        link(second, other)
        self.desk.unlink()
        self.desk.touch()

        def exchange(name, *words, **keywords):
            if name == "desk":
                second.replace(self.desk)
            return real(name, *words, **keywords)
        real = os.open
        with mock.patch("os.open", side_effect=exchange):
            self.assert_no_answer(f"the desk {self.desk} {why}")
        self.assertEqual(other.read_text(), "root\n")

    def test_lines_that_are_no_file(self):
        """A pipe would hold up the command for good, and a link may lead to a file that only root may read."""
        before = len(os.listdir("/proc/self/fd"))
        self.lines.unlink()
        for make, why in ((os.mkfifo, "it is not a regular file"),
                          (lambda path: path.symlink_to(self.desk), "it is a symbolic link")):
            make(self.lines)
            text = f"the lines {self.lines} cannot be read: {why}"
            call_within(10, lambda: self.assert_no_answer(text))
            self.lines.unlink()
        self.assertEqual((self.desk.read_text(), len(os.listdir("/proc/self/fd"))), ("", before))

    def test_an_incomplete_line_is_ended(self):
        for text in ("lis", "list\n", ""):
            self.desk.write_text(text)
            file = DeskFile(self.paths.desk)
            file.append(b"status\n")
            file.check()
            file.close()
            self.assertEqual(self.desk.read_text(), (text + "\x15\n" if text == "lis" else text) + "status\n")

    def test_no_part_of_an_order_becomes_an_order(self):
        """The file system has so many bytes left, and more only for the next order, or the one after it."""
        text = b"status\nstatus\ndim 01800ABC 0 100\nstatus\r\n"
        for free in range(1, len(text)):
            for more in (1, 2, 5, 99):
                self.desk.write_bytes(b"list\n")
                for left, orders in ((free, text), (more, b"base\n"), (99, b"learn off\n")):
                    self.append(orders, left)
                with self.subTest(free=free, more=more):
                    *desk_lines, unended_line = self.desk.read_bytes().split(b"\n")
                    known = [*text.split(b"\n"), b"list", b"base", b"learn off"]
                    self.assertEqual([line for line in desk_lines if line not in known and b"\x15" not in line], [])
                    self.assertEqual((desk_lines[-1], unended_line), (b"learn off", b""))

    def append(self, orders, left):
        """Appends orders to a desk whose file system has so many bytes left."""
        def write(file, text):
            nonlocal left
            if not left:
                raise OSError(28, "No space left on device")
            written = real(file, text[:left])
            left -= written
            return written
        real, file = os.write, DeskFile(self.paths.desk)
        with mock.patch("os.write", write), contextlib.suppress(NoAnswer), contextlib.closing(file):
            file.append(orders)

    def test_a_part_is_ended_at_once_if_it_fits(self):
        real = os.write
        with mock.patch("os.write", lambda file, text: real(file, text[:17])):
            self.assert_no_answer(f"the desk {self.desk} could only be written in part, because its file system is "
                                  "full: restart the gateway, which empties the desk")
        self.assertEqual(self.desk.read_bytes(), b"status\nstatus\nlea\x15\n")

    def test_a_full_file_system(self):
        full = OSError(28, "No space left on device")
        with mock.patch("os.write", side_effect=full):
            self.assert_no_answer(f"the desk {self.desk} cannot be written: No space left on device")
        with mock.patch("os.write", side_effect=[17, full]):
            self.assert_no_answer(f"the desk {self.desk} could only be written in part, because its file system is "
                                  "full: restart the gateway, which empties the desk")

    def test_what_others_append_is_no_restart(self):
        self.desk.write_text("list\n")
        file = DeskFile(self.paths.desk)
        self.addCleanup(file.close)
        file.append(b"status\n")
        with self.desk.open("a") as other:
            other.write("list\n")
        file.check()
        self.desk.write_text("list\nstat")
        self.assertRaisesRegex(NoAnswer, "was restarted", file.check)

    def test_signals_are_held_while_it_is_written(self):
        def write(_file, text):
            blocked = signal.pthread_sigmask(signal.SIG_BLOCK, [])
            self.assertLessEqual({signal.SIGINT, signal.SIGTERM, signal.SIGHUP}, blocked)
            return len(text)
        file = DeskFile(self.paths.desk)
        self.addCleanup(file.close)
        with mock.patch("os.write", side_effect=write):
            file.append(b"status\n")
        self.assertNotIn(signal.SIGTERM, signal.pthread_sigmask(signal.SIG_BLOCK, []))


class OwnerRights(TimeLimitedTest):
    """As root, the command takes on the rights of the user of the service."""

    def rights_calls(self, *owners, user=0, entry=None):
        """The calls that take on rights, if the directories have these owners, each with the group 7. A directory
        without an owner is missing."""
        def status(folder):
            if owners[int(folder)] is None:
                raise FileNotFoundError
            return mock.Mock(st_uid=owners[int(folder)], st_gid=7)
        calls = mock.Mock()
        found = {"return_value": entry} if entry else {"side_effect": KeyError}
        with mock.patch.multiple(files.os, geteuid=lambda: user, stat=status, setgroups=calls.groups,
                                 setresgid=calls.group, setresuid=calls.user, getgrouplist=lambda *_: [8, 20]), \
                mock.patch.object(files.pwd, "getpwuid", **found):
            files.become_owner(*map(str, range(len(owners))))
        return [(call[0], call[1]) for call in calls.mock_calls]

    def test_the_owner_of_a_directory(self):
        entry = mock.Mock(pw_name="enogate", pw_gid=8)
        self.assertEqual(self.rights_calls(5, 6, entry=entry), [("groups", ([8, 20],)), ("group", (8, 8, 8)),
                                                                ("user", (5, 5, 5))])
        alone = [("groups", ([7],)), ("group", (7, 7, 7)), ("user", (6, 6, 6))]
        self.assertEqual([self.rights_calls(*owners) for owners in ((6, 5), (None, 6), (0, 6))], [alone] * 3)

    def test_no_other_user(self):
        for owners, user in (((0, 0), 0), ((None, None), 0), ((5, 5), 9)):
            self.assertEqual(self.rights_calls(*owners, user=user), [], owners)

    def test_each_command_at_a_gateway_takes_them_on(self):
        paths = Paths("/d/desk", "/l/hall.lines", "/b/hall.db")
        for command in (GiveOrder(paths, 1, False, "list", None), ExportDevices(paths, 1), ImportDevices(paths, 1),
                        ShowDevices(paths, False), FollowLines(paths, False)):
            with mock.patch.object(program.files, "become_owner", side_effect=OSError(1, "Not allowed")) as become, \
                    self.assertRaises(NoAnswer) as found:
                program.run(command, mock.Mock())
            become.assert_called_once_with("/d", "/l")
            self.assertEqual(str(found.exception), "the rights of the owner of /d cannot be taken on: Not allowed")


if __name__ == "__main__":
    unittest.main()
