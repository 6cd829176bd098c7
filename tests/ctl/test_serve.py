"""The commands that another program requests."""
import contextlib
import io
import json
import os
import pathlib
import signal
import socket
import subprocess
import sys
import threading
import unittest
from unittest import mock

from enogate_ctl import serve as program
from enogate_ctl.serve import BLOCK, MAX_REQUEST_BYTES, PRELOADED_MODULES, InvalidRequest, Server, exit_status
from enogate_ctl.stops import SIGNALS, Stopped, StopSignals
from fakes import GatewayFilesTest, TimeLimitedTest, status

CONTRIB = pathlib.Path(__file__).parents[2] / "contrib"


def request(number, *arguments):
    return json.dumps({"id": number, "arguments": arguments}).encode() + b"\n"


def stop(number):
    return json.dumps({"id": number, "stop": True}).encode() + b"\n"


class ServerCommands(TimeLimitedTest):
    """A server whose commands are functions of this test."""

    def setUp(self):
        super().setUp()
        answers, self.answers = os.pipe()
        self.answered = self.enterContext(os.fdopen(answers, "r"))
        self.addCleanup(os.close, self.answers)

    def answered_to(self, run, *texts):
        """The answers to requests. Each request is sent after the answer to the one before."""
        reads, writes = os.pipe()
        server, answers = Server(self.answers, run), []

        def give():
            for text in texts:
                os.write(writes, text)
                answers.append(json.loads(self.answered.readline()))
            os.close(writes)
        giver = threading.Thread(target=give)
        giver.start()
        server.serve(reads)
        giver.join()
        os.close(reads)
        self.assertEqual((server.running, server.sources), ({}, {}))
        return answers

    @staticmethod
    def wait_for(server, *numbers):
        """Waits for the ends of these commands."""
        while server.running.keys() & set(numbers):
            for source in program.wait_until_readable(server.sources):
                server.read_output(source)

    def test_an_answer(self):
        def run(arguments):
            print(*arguments, "é", flush=True)
            print("wrong", file=sys.stderr)
            os.write(1, b"\xff")
            return 7
        self.assertEqual(self.answered_to(run, request(3, "a", "b c")), [
            {"error": "wrong\n", "id": 3, "output": "a b c é\n\ufffd", "status": 7}])

    def test_the_form_of_an_answer(self):
        Server(self.answers, lambda _: 0).write_answer(7, '{"count":0}\n', "é", 0)
        self.assertEqual(self.answered.readline(),
                         '{"error":"\\u00e9","id":7,"output":"{\\"count\\":0}\\n","status":0}\n')

    def test_each_answer_is_a_line(self):
        def run(_arguments):
            print("a\nb\u2028" + "x" * 3 * BLOCK)
            return 0
        first, second = self.answered_to(run, request(1), request(2))
        self.assertEqual((first["id"], second["id"], len(first["output"])), (1, 2, 3 * BLOCK + 5))

    def test_an_exception(self):
        def run(_arguments):
            raise KeyError("gone")
        answer, = self.answered_to(run, request(1))
        self.assertEqual((answer["status"], answer["output"], answer["error"].splitlines()[-1]),
                         (1, "", "KeyError: 'gone'"))

    def test_a_signal_at_the_end_of_a_command(self):
        """No exception leaves the process: it would go on as the server, and end the other commands."""
        def run(_arguments):
            sys.stderr = mock.Mock(flush=mock.Mock(side_effect=Stopped(15)))
            return 7
        me = os.getpid()
        try:
            answer, = self.answered_to(run, request(1))
        finally:
            if os.getpid() != me:
                os._exit(1)
        self.assertEqual((answer["status"], answer["error"]), (7, ""))

    def test_a_command_that_cannot_be_started(self):
        server, before = Server(self.answers, lambda _: 0), os.listdir("/proc/self/fd")
        why = OSError(11, "Resource temporarily unavailable")
        for call, effect in (("fork", why), ("pipe", why), ("pipe", [os.pipe(), why])):
            with mock.patch.object(program.os, call, side_effect=effect):
                server.handle_requests(request(1))
            self.assertEqual(json.loads(self.answered.readline()), {
                "error": "enogatectl: the command cannot be started: Resource temporarily unavailable\n", "id": 1,
                "output": "", "status": 1})
        self.assertEqual((server.running, server.sources, os.listdir("/proc/self/fd")), ({}, {}, before))

    def test_nothing_to_read(self):
        def run(_arguments):
            return len(sys.stdin.read())
        self.assertEqual(self.answered_to(run, request(1))[0]["status"], 0)

    def test_what_is_done_before_the_first_command(self):
        """Otherwise each command would do it again."""
        done = []
        with mock.patch.object(program, "parsed", lambda words: done.append(words)), \
                mock.patch.object(program.importlib, "import_module", done.append), \
                mock.patch.object(Server, "start", lambda *_: done.append("start")):
            reads, writes = os.pipe()
            os.write(writes, request(1))
            os.close(writes)
            Server(self.answers, lambda _: 0).serve(reads)
            os.close(reads)
        self.assertEqual(done, [*program.PRELOADED_MODULES, ["--json", "hall", "--", "status"], "start"])

    def test_a_request_in_parts(self):
        text = request(1, "a") + request(2, "b")
        reads, writes = os.pipe()
        server = Server(self.answers, lambda arguments: ord(arguments[0]))
        for place in range(0, len(text), 9):
            server.handle_requests(text[place:place + 9])
        self.assertEqual(sorted(server.running), [1, 2])
        self.wait_for(server, 1, 2)
        found = [json.loads(self.answered.readline()) for _ in range(2)]
        self.assertEqual({answer["id"]: answer["status"] for answer in found}, {1: 97, 2: 98})
        os.close(reads)
        os.close(writes)

    def test_commands_run_at_once(self):
        """The second one ends the first one's wait."""
        reads, writes = os.pipe()

        def run(arguments):
            if arguments == ["wait"]:
                os.close(writes)
                return len(os.read(reads, 1))
            os.write(writes, b"x")
            return 7
        answers = []
        asked, asks = os.pipe()
        server = Server(self.answers, run)
        giver = threading.Thread(target=lambda: (os.write(asks, request(1, "wait") + request(2, "go")), answers.extend(
            json.loads(self.answered.readline()) for _ in range(2)), os.close(asks)))
        giver.start()
        server.serve(asked)
        giver.join()
        self.assertEqual({answer["id"]: answer["status"] for answer in answers}, {1: 1, 2: 7})
        for file in (reads, writes, asked):
            os.close(file)

    def test_a_command_is_stopped(self):
        def run(_arguments):
            signal.pause()
            return 0
        reads, writes = os.pipe()
        server = Server(self.answers, run)
        server.handle_requests(request(1) + request(2) + stop(9))
        server.handle_requests(stop(1))
        self.wait_for(server, 1)
        self.assertEqual(json.loads(self.answered.readline()), {"error": "", "id": 1, "output": "", "status": 143})
        self.assertEqual(list(server.running), [2])
        server.handle_requests(stop(1))
        server.end()
        self.assertEqual(json.loads(self.answered.readline())["status"], 143)
        os.close(reads)
        os.close(writes)

    def test_the_modules_are_imported_and_are_not_copied(self):
        """Otherwise each command would import them, and a garbage collection would copy them."""
        with mock.patch.object(program.importlib, "import_module") as load, mock.patch.object(program, "gc") as garbage:
            self.answered_to(lambda _: 0)
        self.assertEqual([call.args for call in load.mock_calls], [(name,) for name in PRELOADED_MODULES])
        garbage.freeze.assert_called_once_with()

    def test_a_command_has_the_signals_of_a_new_process(self):
        def run(_arguments):
            found = [signal.getsignal(number) for number in SIGNALS]
            return found == [signal.SIG_DFL] * 3 and not signal.pthread_sigmask(signal.SIG_BLOCK, [])
        before = [signal.signal(number, lambda *_: None) for number in SIGNALS]
        try:
            answer, = self.answered_to(run, request(1))
        finally:
            for number, handler in zip(SIGNALS, before):
                signal.signal(number, handler)
        self.assertEqual(answer["status"], 1)

    def test_a_command_has_no_files_of_others(self):
        def run(arguments):
            print(*sorted(os.listdir("/proc/self/fd"), key=int))
            if arguments:
                signal.pause()
            return 0
        server = Server(self.answers, run)
        mine = sorted(map(int, os.listdir("/proc/self/fd")))
        server.handle_requests(request(1, "wait") + request(2))
        self.wait_for(server, 2)
        # the last one is that of the directory, which is read
        found = list(map(int, json.loads(self.answered.readline())["output"].split()))[:-1]
        self.assertLessEqual(set(found), set(mine))
        server.end()

    def test_bad_requests(self):
        good = json.loads(request(1, "a"))
        changes = ({"id": "1"}, {"id": None}, {"id": 1.0}, {"id": True}, {"id": False}, {"arguments": "a"},
                   {"arguments": [1]}, {"arguments": {}}, {"stop": True}, {"more": 1})
        for text in (b"\n", b"x\n", b"[]\n", b"7\n", b"\xff\n", b'{"id": 1}\n', b'{"id": 1, "stop": false}\n',
                     b'{"id": 1, "stop": 1}\n', b'{"id": true, "stop": true}\n', b"[" * 60000 + b"\n",
                     *(json.dumps(good | change).encode() + b"\n" for change in changes)):
            server = Server(self.answers, lambda _: 0)
            with self.assertRaisesRegex(InvalidRequest, "^not a request: "):
                server.handle_requests(text)
            self.assertEqual(server.running, {}, text)
        too_long = b" " * (MAX_REQUEST_BYTES + 1)
        for text in (too_long, too_long + b"\n", too_long + b"\n{"):
            with self.assertRaisesRegex(InvalidRequest, "^a request has more than 65536 bytes$"):
                Server(self.answers, lambda _: 0).handle_requests(text)
        server = Server(self.answers, lambda _: 0)
        server.handle_requests(request(1)[:-1].ljust(MAX_REQUEST_BYTES) + b"\n" + b" " * MAX_REQUEST_BYTES)
        self.wait_for(server, 1)
        self.assertFalse(Server(self.answers, lambda _: 0).handle_requests(b""))
        with self.assertRaises(InvalidRequest) as why:
            Server(self.answers, lambda _: 0).handle_requests(b"x" * 61 + b"\n")
        self.assertEqual(str(why.exception), f"not a request: {b'x' * 60!r}")

    def test_a_number_is_used_once_at_a_time(self):
        server = Server(self.answers, lambda _: signal.pause())
        with self.assertRaisesRegex(InvalidRequest, "^the command 1 has not ended$"):
            server.handle_requests(request(1) + request(1))
        server.end()
        self.assertEqual(json.loads(self.answered.readline())["status"], 143)
        self.assertEqual([answer["id"] for answer in self.answered_to(lambda _: 0, request(1), request(1))], [1, 1])

    def test_nobody_reads_the_answers(self):
        reads, writes = os.pipe()
        os.close(reads)
        asked, asks = os.pipe()
        server = Server(writes, lambda _: 0)
        os.write(asks, request(1))
        server.serve(asked)
        self.assertEqual((server.is_read, server.running), (False, {}))
        for file in (writes, asked, asks):
            os.close(file)

    def test_a_socket_whose_other_end_is_closed_with_answers_in_it(self):
        theirs, ours = socket.socketpair()
        server = Server(ours.fileno(), lambda _: 0)
        server.write_answer(0, "", "", 0)
        theirs.close()
        server.serve(ours.fileno())
        ours.close()
        self.assertTrue(server.is_read)
        with mock.patch.object(program.os, "write", side_effect=ConnectionResetError):
            server.write_answer(1, "", "", 0)
        self.assertFalse(server.is_read)

    def test_a_program_that_ignores_the_ends_of_its_processes(self):
        before = signal.signal(signal.SIGCHLD, signal.SIG_IGN)
        self.addCleanup(signal.signal, signal.SIGCHLD, before)
        self.assertEqual(self.exit_status_of_server(lambda _: 7), 0)
        self.assertIn(json.loads(self.answered.readline())["status"], (7, 143))

    def test_a_signal_while_nobody_reads_the_last_answer(self):
        stops = StopSignals()

        def write(*_):
            stops.handle_signal(15)
            raise BrokenPipeError
        with mock.patch.object(program.os, "write", side_effect=write):
            self.assertEqual(self.exit_status_of_server(lambda _: 0, stops), 143)

    def exit_status_of_server(self, run, stops=None):
        """The exit status of a server that is asked for a command."""
        asked, asks = os.pipe()
        with os.fdopen(asks, "wb") as file:
            file.write(request(1))
        with mock.patch.object(program, "run", run):
            status = program.serve(asked, self.answers, stops or StopSignals())
        os.close(asked)
        return status

    def test_a_command_that_ends_itself(self):
        for code, wanted in ((None, 0), (0, 0), (7, 7)):
            with mock.patch.object(program, "parsed", side_effect=SystemExit(code)):
                self.assertEqual(program.run([]), wanted)

    def test_statuses(self):
        for found, code in ((0, 0), (2 << 8, 2), (15, 143), (9, 137)):
            self.assertEqual(exit_status(found), code)

    def test_ends(self):
        for event, wanted, text in ((None, 0, ""), (InvalidRequest("why\n"), 2, "enogatectl: why?\n"),
                                    (Stopped(15), 143, "")):
            stops, err = StopSignals(), io.StringIO()
            with mock.patch.object(Server, "serve", side_effect=event), contextlib.redirect_stderr(err), \
                    mock.patch.object(Server, "end") as end:
                self.assertEqual(program.serve(0, 1, stops), wanted)
            self.assertEqual((err.getvalue(), stops.are_ignored), (text, True))
            end.assert_called_with()

    def test_an_error_of_the_server_ends_all_commands(self):
        for event in (OSError("why"), InvalidRequest("why")):
            stops = StopSignals()
            with mock.patch.object(Server, "serve", side_effect=event), mock.patch.object(Server, "end") as end, \
                    mock.patch("builtins.print", side_effect=BrokenPipeError), \
                    self.assertRaises(OSError):
                program.serve(0, 1, stops)
            end.assert_called_once_with()
            self.assertTrue(stops.are_ignored)


class ServeProgram(GatewayFilesTest):
    """The program itself."""

    def setUp(self):
        super().setUp()
        self.process = subprocess.Popen([sys.executable, "-B", CONTRIB / "enogatectl", "--serve"], text=True,
                                        stdin=subprocess.PIPE, stdout=subprocess.PIPE, stderr=subprocess.PIPE)
        self.addCleanup(self.process.communicate)
        self.addCleanup(self.process.kill)

    def give(self, number, *arguments):
        self.process.stdin.write(request(number, *arguments).decode())
        self.process.stdin.flush()

    def answer(self):
        return json.loads(self.process.stdout.readline())

    def with_gateway_files(self, *words):
        return ("--desk", str(self.desk), "--lines", str(self.lines), "--timeout", "60", "hall", *words)

    def answer_on_desk(self, texts, answers):
        """The gateway answers, when these orders are on the desk."""
        while self.desk.read_bytes().decode() != texts:
            os.sched_yield()
        self.write(*answers)

    def test_an_order(self):
        self.give(1, *self.with_gateway_files("status"))
        self.answer_on_desk("status\n", [status()])
        answer = self.answer()
        self.assertEqual((answer["id"], answer["status"], answer["error"]), (1, 0, ""))
        self.assertTrue(answer["output"].startswith("learn window"))
        self.give(2, *self.with_gateway_files("--json", "--", "status"))
        self.answer_on_desk("status\nstatus\n", [status("on")])
        self.assertEqual(json.loads(self.answer()["output"])["mode"], "on")
        self.process.stdin.close()
        self.assertEqual((self.process.wait(60), self.process.stdout.read(), self.process.stderr.read()), (0, "", ""))
        self.process.stdin = None

    def test_statuses(self):
        self.give(1, "hall", "lines")
        self.give(2, "hall", "devices", "--import")
        self.give(3, "--serve")
        found = {answer["id"]: answer for answer in (self.answer() for _ in range(3))}
        for number in (1, 2, 3):
            self.assertEqual(found[number] | {"id": 0}, {
                "error": "enogatectl: this command cannot be requested\n", "id": 0, "output": "", "status": 2})
        self.give(7, *self.with_gateway_files("--", "replace", "01800ABD", "01800ABD"))
        answer = self.answer()
        self.assertEqual((answer["status"], answer["error"][:31]), (2, "enogatectl: the form is replace"))
        self.give(4, "hall", "nonsense")
        answer = self.answer()
        self.assertEqual((answer["status"], "'nonsense' is not an order" in answer["error"]), (2, True))
        self.give(5, "--version")
        self.assertEqual((self.answer()["status"]), 0)
        self.desk.unlink()
        self.give(6, *self.with_gateway_files("list"))
        answer = self.answer()
        self.assertEqual((answer["status"], answer["error"][:22]), (3, "enogatectl: there is n"))

    def test_the_end_of_the_input_closes_a_window(self):
        self.give(1, *self.with_gateway_files("--for", "600", "--", "learn", "on"))
        self.answer_on_desk("status\nstatus\nlearn on\nstatus\r\n", [status(), status(), {"type": "ok"}, status("on")])
        self.process.stdin.close()
        self.answer_on_desk("status\nstatus\nlearn on\nstatus\r\nstatus\nstatus\nlearn off\nstatus\r\n",
                            [status("on"), status("on"), {"type": "ok"}, status()])
        answer = self.answer()
        self.assertEqual((answer["status"], answer["output"].splitlines()[-1]), (0, "the learn window is closed"))
        self.assertEqual(self.process.wait(60), 0)
        self.process.stdin = None

    def test_a_signal_closes_a_window(self):
        self.give(1, *self.with_gateway_files("--for", "600", "--", "learn", "on"))
        self.answer_on_desk("status\nstatus\nlearn on\nstatus\r\n", [status(), status(), {"type": "ok"}, status("on")])
        self.process.terminate()
        self.answer_on_desk("status\nstatus\nlearn on\nstatus\r\nstatus\nstatus\nlearn off\nstatus\r\n",
                            [status("on"), status("on"), {"type": "ok"}, status()])
        self.assertEqual((self.process.wait(60), self.process.stdout.read()), (143, ""))

    def test_a_bad_request(self):
        self.process.stdin.write("status\n")
        self.process.stdin.flush()
        self.assertEqual((self.process.wait(60), self.process.stderr.read()),
                         (2, "enogatectl: not a request: b'status'\n"))


if __name__ == "__main__":
    unittest.main()
