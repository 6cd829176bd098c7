"""How often the built program allocates memory. A call that asks for memory, or for more of it, counts as one
allocation. Each query of the database allocates, so a run with no more allocations than another one has no more
queries."""
import collections
import random
import unittest

from runs import ACCEPTED_LINE, ADD_ORDER, OK_LINE, REFUSE_CALL_SOURCE, status_line
from testcase import LiveTest, ProgramTest, decoded_text

from oracle.esp3 import BROADCAST_ID, crc8, packet, serial_script_lines, radio_optional_data, telegram_packet

DEVICE_ID = 0x01800ABC
READING_PACKET_LINE = "S 55000707017AD50901800ABC0001FFFFFFFF2D001F\n"
TEACH_IN_1BS = serial_script_lines(telegram_packet(0xD5, b"\x00", DEVICE_ID))


def telegram_line(rorg, payload):
    """The line that brings a telegram of the device."""
    return serial_script_lines(telegram_packet(rorg, bytes.fromhex(payload), DEVICE_ID))


# Telegrams of 4BS and UTE that teach in or out, or seem to.
QUERY_4BS, UNSUPPORTED_QUERY_4BS = telegram_line(0xA5, "08284680"), telegram_line(0xA5, "50084680")
TEACH_IN_4BS_WITHOUT_EEP, REPLY_4BS = telegram_line(0xA5, "00000000"), telegram_line(0xA5, "082846F0")
UTE_QUERY, UTE_UNSUPPORTED_QUERY = telegram_line(0xD4, "A00146001201D2"), telegram_line(0xD4, "A00146000032D2")
UTE_DELETION, UTE_NOT_USED = telegram_line(0xD4, "900146001201D2"), telegram_line(0xD4, "B00146001201D2")
UTE_REPLY = telegram_line(0xD4, "910146001201D2")
ALL_UTE_TELEGRAMS = UTE_QUERY + UTE_UNSUPPORTED_QUERY + UTE_DELETION + UTE_NOT_USED + UTE_REPLY
ALL_TEACH_INS_EXCEPT_1BS = QUERY_4BS + UNSUPPORTED_QUERY_4BS + TEACH_IN_4BS_WITHOUT_EEP + REPLY_4BS + ALL_UTE_TELEGRAMS

WINDOW_ORDERS = {"on": "learn on\n", "answer": "learn on answer\n"}
LEARN_AS_4BS_ORDER = "learn as A5-02-05\n"
ADD_4BS_ORDER, ADD_VLD_ORDER, REMOVE_ORDER = "add 01800ABC A5-02-05\n", "add 01800ABC D2-01-12\n", "remove 01800ABC\n"


class AllocationsTest(ProgramTest):
    def count_allocations(self, script, *options):
        """How many allocations a run has, and what it prints."""
        return self.count_allocations_of_command(self.run_replay, *options, script=script)

    def count_allocations_of_command(self, serve, *options, **settings):
        """How many allocations a run of this service has, and what it prints."""
        count_file = self.work / "counted"
        count_file.unlink(missing_ok=True)
        env = self.preload_environment(REFUSE_CALL_SOURCE, REFUSE_KIND="growth", COUNT_CALLS=count_file)
        run = serve(*options, env=env, **settings)
        self.assertEqual((decoded_text(run.stderr), run.returncode), ("", 0))
        return int(count_file.read_text()), decoded_text(run.stdout)

    def assert_equal_allocations(self, script, other_script):
        """Runs on these two scripts have as many allocations. Returns what the second one prints."""
        other_growth_count, output = self.count_allocations(other_script)
        self.assertEqual(self.count_allocations(script)[0], other_growth_count)
        return output

    def allocations_by_packet(self, orders, line, *options):
        """How many allocations this packet has after these orders, and how many when it comes a second and a third
        time."""
        counts = [self.count_allocations(orders + repetitions * line, *options)[0] for repetitions in range(4)]
        return [count_after - count_before for count_before, count_after in zip(counts, counts[1:])]

    def allocations_of_reading(self):
        """How many allocations one line of output has."""
        return self.allocations_by_packet(ADD_ORDER, READING_PACKET_LINE)[0]

    def file_registry_options(self):
        """The options for a registry in a file, in which an earlier start stored the device."""
        options = ["--db", self.work / "asked.db"]
        self.assert_run(self.run_replay(*options, script=ADD_ORDER), ACCEPTED_LINE)
        return options


class DatabaseQueriesTest(AllocationsTest):
    """A sender is looked up in the database once."""

    def test_a_sender_that_is_not_learned_is_looked_up_once(self):
        self.assert_equal_allocations(READING_PACKET_LINE, 1000 * READING_PACKET_LINE)

    def test_a_sender_is_looked_up_once_after_the_window_is_opened(self):
        for window in ("on", "on answer", "as D5-00-01", "as F6-02-01"):
            with self.subTest(window=window):
                self.assert_equal_allocations(
                    f"learn {window}\n{READING_PACKET_LINE}", f"learn {window}\n{1000 * READING_PACKET_LINE}"
                )

    def test_each_packet_of_a_learned_device_takes_as_much_memory(self):
        count_of_line, *other_counts = self.allocations_by_packet(ADD_ORDER, READING_PACKET_LINE)
        self.assertGreater(count_of_line, 0)
        self.assertEqual(other_counts, [count_of_line, count_of_line])

    def test_only_the_first_packet_after_a_start_asks_the_database(self):
        """The packets after it need less memory than the query itself."""
        count_of_line = self.allocations_of_reading()
        first_count, *other_counts = self.allocations_by_packet("", READING_PACKET_LINE, *self.file_registry_options())
        self.assertEqual(other_counts, [count_of_line, count_of_line])
        self.assertGreater(first_count - count_of_line, count_of_line)


class RememberedSendersTest(AllocationsTest, LiveTest):
    """After 1,000 devices and 24 unknown senders have sent once, three rounds of them in turn have as many allocations
    as one device and one unknown sender that send as often. So no packet queries the database."""

    ADD_SCRIPT = "".join(f"add {sender:08X} D5-00-01\n" for sender in range(1000))

    def count_allocations_in_replay(self, orders, packets, *options):
        growth_count, output = self.count_allocations(orders + serial_script_lines(packets) + "status\n", *options)
        self.assertEqual(output.splitlines(keepends=True)[-1], status_line(96, 4000))
        return growth_count, output

    def count_allocations_in_live(self, orders, packets, *options):
        """The line has bytes 00 for the turns that read the orders."""
        self.desk.write_text(orders)
        self.line.write_bytes(bytes(-(-len(orders) // 256) * 256) + packets)
        turn_count = -(-self.line.stat().st_size // 256)
        growth_count, _ = self.count_allocations_of_command(self.run_live, *options, turn_count=turn_count)
        return growth_count, self.answers.read_text()

    def assert_senders_cached(self, serve, orders, *options):
        """These orders, or an earlier start, add the devices."""

        def served(senders):
            senders = [*range(1024), *senders, *senders, *senders]
            return serve(orders, b"".join(telegram_packet(0xD5, b"\x09", sender) for sender in senders), *options)

        (count_of_cached, _), (count_of_uncached, output) = served([7] * 1000 + [1000] * 24), served(range(1024))
        self.assertEqual(count_of_cached, count_of_uncached)
        self.assertEqual(output.count('"type":"reading"'), 4000)

    def test_senders_are_remembered_in_memory(self):
        for serve in (self.count_allocations_in_replay, self.count_allocations_in_live):
            with self.subTest(serve=serve.__name__):
                self.assert_senders_cached(serve, self.ADD_SCRIPT)

    def test_senders_are_remembered_with_a_registry_in_a_file(self):
        in_file = ["--db", self.work / "thousand.db"]
        self.run_replay(*in_file, script=self.ADD_SCRIPT)
        for serve in (self.count_allocations_in_replay, self.count_allocations_in_live):
            with self.subTest(serve=serve.__name__):
                self.assert_senders_cached(serve, "", *in_file)


class OutputLineAllocationsTest(AllocationsTest):
    """Packets that need only the memory of their line of output, and so do not query the database."""

    def allocation_sizes(self, script):
        """How many allocations of each size a run has; the sizes are in bytes."""
        record_file = self.work / "recorded"
        record_file.unlink(missing_ok=True)
        self.run_replay(script=script, env=self.preload_environment(
            "record_growths.c", RECORD_GROWTHS=record_file, RECORD_FROM=0))
        return collections.Counter(map(int, record_file.read_text().split()))

    def assert_lines_only(self, orders, line, *options):
        """After these orders the packet has as many allocations each time as a reading has."""
        self.assertEqual(self.allocations_by_packet(orders, line, *options), 3 * [self.allocations_of_reading()])

    def test_a_line_of_readings_begins_with_128_bytes_and_is_doubled(self):
        """The longest line is a reading of A5-08-03 at -255 dBm."""
        longest_packet_line = serial_script_lines(
            telegram_packet(0xA5, bytes.fromhex("65A7010B"), DEVICE_ID, 0, radio_optional_data(3, BROADCAST_ID, 255))
        )
        for orders, packet_line, length, buffers in (
            (ADD_ORDER, READING_PACKET_LINE, 105, [128]),
            ("add 01800ABC A5-08-03\n", longest_packet_line, 276, [128, 256, 512]),
        ):
            with self.subTest(length=length):
                output = decoded_text(self.run_replay(script=orders + packet_line).stdout)
                last_line = output.splitlines(keepends=True)[-1]
                sizes_of_one_packet, sizes_of_two_packets = (self.allocation_sizes(orders + repetitions * packet_line)
                                                             for repetitions in (1, 2))
                self.assertEqual((len(last_line), sorted((sizes_of_two_packets - sizes_of_one_packet).elements())),
                                 (length, buffers))

    def test_packets_of_a_device_that_was_taught_in_over_the_air(self):
        self.assert_lines_only(WINDOW_ORDERS["on"] + TEACH_IN_1BS, READING_PACKET_LINE)

    def test_teach_ins_that_are_refused(self):
        telegram_by_kind = {"unsupported": UNSUPPORTED_QUERY_4BS, "bare": TEACH_IN_4BS_WITHOUT_EEP}
        telegram_by_kind |= {"universal_unsupported": UTE_UNSUPPORTED_QUERY, "not_used": UTE_NOT_USED}
        registry_options = self.file_registry_options()
        for mode, window in WINDOW_ORDERS.items():
            for kind, line in telegram_by_kind.items():
                with self.subTest(mode=mode, kind=kind):
                    self.assert_lines_only(window, line, *registry_options)


class TeachInAllocationsTest(AllocationsTest):
    """A telegram that teaches a device in or out asks the database as often as an order that does the same."""

    def assert_allocates_like_add(self, add, script):
        """This script, which teaches a device in 50 times, has as many allocations as 50 orders that add it."""
        output = self.assert_equal_allocations(50 * add, script)
        self.assertEqual(output.count('"result":"accepted"'), 50)

    def test_50_contacts_have_the_growths_of_50_adds(self):
        self.assert_allocates_like_add(ADD_ORDER, WINDOW_ORDERS["on"] + 50 * TEACH_IN_1BS)

    def test_50_4bs_queries_have_the_growths_of_50_adds(self):
        for mode, window in WINDOW_ORDERS.items():
            with self.subTest(mode=mode):
                self.assert_allocates_like_add(ADD_4BS_ORDER, window + 50 * QUERY_4BS)

    def test_50_4bs_teach_ins_by_learn_as_have_the_growths_of_50_adds(self):
        for kind, line in {
            "query": QUERY_4BS, "unsupported": UNSUPPORTED_QUERY_4BS, "bare": TEACH_IN_4BS_WITHOUT_EEP
        }.items():
            with self.subTest(kind=kind):
                self.assert_allocates_like_add(ADD_4BS_ORDER, 50 * (LEARN_AS_4BS_ORDER + line))

    def test_50_ute_queries_have_the_growths_of_50_adds(self):
        for mode, window in WINDOW_ORDERS.items():
            with self.subTest(mode=mode):
                self.assert_allocates_like_add(ADD_VLD_ORDER, window + 50 * UTE_QUERY)

    def test_50_deletions_have_the_growths_of_50_removes(self):
        for mode, window in WINDOW_ORDERS.items():
            with self.subTest(mode=mode):
                output = self.assert_equal_allocations(
                    50 * (ADD_VLD_ORDER + REMOVE_ORDER), window + 50 * (UTE_QUERY + UTE_DELETION)
                )
                self.assertEqual(output.count('"result":"deleted"'), 50)

    def test_each_deletion_of_a_device_that_is_not_learned_asks_the_database(self):
        count_of_line = self.allocations_of_reading()
        counts = self.allocations_by_packet(WINDOW_ORDERS["on"], UTE_DELETION)
        self.assertEqual([count for count in counts if count <= count_of_line], [],
                         f"{counts}, and a line has {count_of_line}")

    def test_a_device_that_was_deleted_over_the_air_is_not_looked_up(self):
        deletions = WINDOW_ORDERS["answer"] + 50 * (UTE_QUERY + UTE_DELETION)
        self.assert_equal_allocations(deletions, deletions + 1000 * READING_PACKET_LINE)


def packet_with_wrong_crc(valid_packet):
    """A packet with a wrong CRC."""
    return valid_packet[:-1] + bytes([valid_packet[-1] ^ 1])


class InputsWithoutAllocationsTest(AllocationsTest):
    """Bytes and orders that need no memory after the start: about 100,000 bytes of each kind."""

    def assert_no_allocations(self, script, ignored_count, mode="closed"):
        """A run on this script has only the allocations of its start. If a packet follows, this many packets are
        ignored, and the mode is this one. The `learn` orders of the script are done.

        The packet comes after 01 and 65,791 zeros, so that a false header does not take it for its data."""
        self.assert_equal_allocations("", script)
        script_end = serial_script_lines(b"\x01" + bytes(65_791)
                                         + telegram_packet(0xD5, b"\x09", DEVICE_ID)) + "status\n"
        learn_answers = OK_LINE * sum(line.startswith("learn") for line in script.splitlines())
        self.assert_run(self.run_replay(script=script + script_end),
                        learn_answers + status_line(ignored_count, mode=mode))

    def test_random_bytes(self):
        self.assert_no_allocations(serial_script_lines(random.Random(1).randbytes(100_000)), 1)

    def test_sync_bytes(self):
        self.assert_no_allocations(serial_script_lines(b"\x55" * 100_000), 1)

    def test_false_headers(self):
        """None of these makes a packet. If a header announces a row of headers only, their CRC is not the 55 after
        them. Otherwise it announces headers and then 01 and zeros: that is an odd number of bits 1, and the bytes after
        the header of a packet have an even one, since the polynomial of the CRC has the factor x + 1."""
        header = packet(9, bytes(65535), bytes(255))[:6]
        self.assertNotEqual(crc8(header * 10_965), 0x55)
        self.assert_no_allocations(serial_script_lines(header * 16_667), 1)

    def test_packets_with_a_wrong_check(self):
        self.assert_no_allocations(
            serial_script_lines(packet_with_wrong_crc(telegram_packet(0xD5, b"\x09", DEVICE_ID)) * 5000), 1
        )

    def test_the_longest_packets_with_a_wrong_check(self):
        self.assert_no_allocations(
            serial_script_lines(packet_with_wrong_crc(packet(9, bytes(65535), bytes(255))) * 2), 1
        )

    def test_packets_of_another_type(self):
        self.assert_no_allocations(
            serial_script_lines(packet(9, telegram_packet(0xD5, b"\x09", DEVICE_ID)[6:20]) * 5000), 5001
        )

    def test_the_longest_packets_of_another_type(self):
        self.assert_no_allocations(serial_script_lines(packet(9, bytes(65535), bytes(255)) * 2), 3)

    def test_teach_ins_in_a_closed_window(self):
        self.assert_no_allocations(500 * (TEACH_IN_1BS + ALL_TEACH_INS_EXCEPT_1BS), 5001)

    def test_replies_in_an_open_window(self):
        for mode, window in WINDOW_ORDERS.items():
            with self.subTest(mode=mode):
                self.assert_no_allocations(window + 3000 * (REPLY_4BS + UTE_REPLY), 6001, mode)

    def test_4bs_and_ute_in_the_mode_of_a_contact(self):
        self.assert_no_allocations("learn as D5-00-01\n" + 500 * ALL_TEACH_INS_EXCEPT_1BS, 4501, "as D5-00-01")

    def test_1bs_and_replies_and_ute_in_the_mode_of_a_4bs_sensor(self):
        self.assert_no_allocations(
            LEARN_AS_4BS_ORDER + 700 * (TEACH_IN_1BS + REPLY_4BS + ALL_UTE_TELEGRAMS), 4901, "as A5-02-05"
        )

    def test_teach_ins_in_the_mode_of_a_profile_without_teach_in(self):
        for profile in ("F6-02-01", "D2-01-12"):
            with self.subTest(profile=profile):
                script = f"learn as {profile}\n" + 500 * (TEACH_IN_1BS + ALL_TEACH_INS_EXCEPT_1BS)
                self.assert_no_allocations(script, 5001, f"as {profile}")

    def test_learn_orders(self):
        self.assert_no_allocations(1000 * "learn on\nlearn on answer\nlearn as F6-02-01\nlearn off\n", 1)

    def test_orders_that_are_refused_before_the_database_is_asked(self):
        lines_and_errors = (
            ("later", "syntax"),
            (201 * " ", "too_long"),
            ("add FFFFFFFF D5-00-01", "range"),
            ("add 00000001 D5-00-02", "unsupported_profile"),
            ("learn as D5-00-02", "unsupported_profile"),
            ("learn", "syntax"),
            ("label 00000001  x", "syntax"),
            ("label FFFFFFFF x", "range"),
            ("label 00000001 " + 33 * "0", "range"),
        )
        script = 1000 * "".join(f"{line}\n" for line, _ in lines_and_errors)
        self.assert_equal_allocations("", script)
        self.assert_run(self.run_replay(script=script),
                        1000 * "".join(error_line(name) for _, name in lines_and_errors))


def error_line(name):
    return f'{{"error":"{name}","type":"error"}}\n'


class OrderAllocationsTest(AllocationsTest):
    """How many allocations a list, an `add`, a `remove` and a `label` have, as counted on this program with the kit
    that the README names. The numbers show a change, such as a second query of the database. They do not show that
    there is only one query."""

    TWO_ADDS = "add 00000001 D5-00-01\nadd 00000002 D5-00-01\n"
    LABEL_ORDER = "label 00000001 x\n"

    def assert_allocations(self, expected_count, script, line):
        """After this script the line has this many allocations."""
        count_before, count_after = (self.count_allocations(text)[0] for text in (script, script + line))
        self.assertEqual(count_after - count_before, expected_count)

    def test_a_third_add(self):
        self.assert_allocations(51, self.TWO_ADDS, "add 00000003 D5-00-01\n")

    def test_an_add_of_a_known_device(self):
        self.assert_allocations(32, self.TWO_ADDS, "add 00000001 D5-00-01\n")

    def test_an_add_of_a_device_with_a_label(self):
        self.assert_allocations(42, self.TWO_ADDS + self.LABEL_ORDER, "add 00000001 D5-00-01\n")

    def test_a_second_remove(self):
        self.assert_allocations(15, self.TWO_ADDS + "remove 00000001\n", "remove 00000002\n")

    def test_a_second_list_of_two_devices(self):
        self.assert_allocations(22, self.TWO_ADDS + "list\n", "list\n")

    def test_a_list_of_100_devices(self):
        """Their buffer is allocated at once."""
        adds = "".join(f"add {sender:08X} D5-00-01\n" for sender in range(100))
        self.assert_allocations(279, adds, "list\n")

    def test_a_label(self):
        self.assert_allocations(42, self.TWO_ADDS, self.LABEL_ORDER)

    def test_a_label_in_place_of_another(self):
        self.assert_allocations(41, self.TWO_ADDS + self.LABEL_ORDER, "label 00000001 y\n")

    def test_the_longest_label(self):
        self.assert_allocations(42, self.TWO_ADDS, "label 00000001 abcdefghijklmnopqrstuvwxyz 12345\n")

    def test_the_empty_label(self):
        self.assert_allocations(31, self.TWO_ADDS, "label 00000001\n")

    def test_a_label_of_a_device_that_is_not_learned(self):
        self.assert_allocations(15, self.TWO_ADDS, "label 00000003 x\n")

    def test_a_label_of_a_device_that_was_found_not_to_be_learned(self):
        self.assert_allocations(0, self.TWO_ADDS + "label 00000003 x\n", "label 00000003 x\n")


if __name__ == "__main__":
    unittest.main()
