"""Learns the devices of a sheet, and gives them their labels."""
from __future__ import annotations

from collections.abc import Callable, Iterable, Iterator

from enogate_lines.contents import Listed
from enogate_tools import share

from .answers import PACKET_ERRORS, Answer
from .client import PAUSE, Client
from .sheet import DeviceRow, InvalidRow, NumberedRow, Sheet

# How many rows are handled at once: their orders wait for a turn of the gateway together.
MAX_GROUP_ROWS = 100
# How many orders are given at once at first. Later, as many are given as take this time, in seconds.
INITIAL_BATCH_SIZE, MAX_BATCH_SECONDS = 16, 2.0
# How many devices a gateway can have.
MAX_DEVICES = 1000


def add_order(row: DeviceRow) -> str:
    """The order that learns the device."""
    return f"add {row.device} {row.eep}"


def label_order(row: DeviceRow) -> str:
    """The order for its label."""
    return f"label {row.device} {row.label}"


def row_groups(rows: Iterable[NumberedRow]) -> Iterator[list[NumberedRow]]:
    """The rows in groups, which are not too large, and have no device twice."""
    group: list[NumberedRow] = []
    devices: set[str] = set()
    for number, row in rows:
        device = row.device if isinstance(row, DeviceRow) else ""
        if len(group) == MAX_GROUP_ROWS or device in devices:
            yield group
            group, devices = [], set()
        group.append((number, row))
        devices |= {device} - {""}
    if group:
        yield group


class OrderBatches:
    """Gives the orders of an import. The desk is locked until all orders that were given at once are answered,
    and other commands wait meanwhile, so a slow gateway gets fewer orders at once."""

    def __init__(self, client: Client):
        self.client, self.most = client, INITIAL_BATCH_SIZE

    def give(self, orders: list[str]) -> list[str | None]:
        """The errors of these orders; None for each that succeeded."""
        answers: list[Answer] = []
        while len(answers) < len(orders):
            part = orders[len(answers):len(answers) + self.most]
            found = self.ask(part)
            if any(answer.error in PACKET_ERRORS for answer in found):
                # The error may be that of a telegram, and each answer that of another order.
                found = [self.ask([order])[0] for order in part]
            answers += found
        return [answer.error for answer in answers]

    def ask(self, orders: list[str]) -> list[Answer]:
        """The answers to these orders, which are given at once."""
        start = self.client.clock()
        answers = self.client.ask_all(orders)
        seconds = max(PAUSE, self.client.clock() - start)
        self.most = max(1, min(MAX_GROUP_ROWS, int(len(orders) * MAX_BATCH_SECONDS / seconds)))
        # Other commands look at the lock of the desk once in each pause.
        self.client.sleep(2 * PAUSE)
        return answers


class DryRun:
    """Gives no order. The devices that are learned, and those that would be learned, are counted."""

    def __init__(self, learned: Iterable[str]):
        self.learned = set(learned)

    def give(self, orders: list[str]) -> list[str | None]:
        """The errors that these orders would have, as far as the tables of the programs show them."""
        return list(map(self.error_of, orders))

    def error_of(self, order: str) -> str | None:
        verb, device, value = order.split(" ", 2)
        if verb == "add" and value not in share.kinds_by_profile():
            return "unsupported_profile"
        if len(self.learned | {device}) > MAX_DEVICES:
            return "full"
        self.learned.add(device)
        return None


class DeviceImporter:
    """Learns devices and gives them labels. `known` has the learned ones by their IDs, `give` gives orders at once and
    returns for each the name of an error or None, `report` prints a line. `would` is put before what was done."""

    def __init__(self, known: dict[str, Listed], give: Callable[[list[str]], list[str | None]],
                 report: Callable[[str], None], would: str = ""):
        self.known, self.give, self.report, self.would = known, give, report, would

    def run(self, text: str) -> bool:
        """Handles each row, whatever became of the others. Returns whether all succeeded. An empty input is a failure:
        the export that should have written it failed."""
        sheet = Sheet(text)
        results = [self.import_group(group, sheet) for group in row_groups(sheet.rows())]
        if not results:
            self.report("the input has no devices")
        return all(results) and text.strip() != ""

    def import_group(self, group: list[NumberedRow], sheet: Sheet) -> bool:
        """Handles a group of rows, and reports the results. Returns whether all succeeded. A device that is not learned
        gets no label."""
        rows = [row for _, row in group if isinstance(row, DeviceRow)]
        done: dict[str, list[str]] = {row.device: [] for row in rows}
        errors: dict[str, str] = {}
        for result, order_of in (("learned", self.missing_add_order), ("labelled", self.missing_label_order)):
            orders = {row.device: order for row in rows if row.device not in errors and (order := order_of(row))}
            for device, error in zip(orders, self.give(list(orders.values())) if orders else []):
                if error:
                    errors[device] = f"not {result}: {sheet.reason(error)}"
                else:
                    known = self.known.get(device) if result == "learned" else None
                    done[device].append(f"{result} (in place of {known.eep})" if known else result)
        return all([self.report_row(number, row, errors, done) for number, row in group])

    def report_row(self, number: int, row: DeviceRow | InvalidRow, errors: dict[str, str], done: dict[str, list[str]]
                   ) -> bool:
        """Notes and reports the result of a row. Returns whether it succeeded."""
        if isinstance(row, InvalidRow):
            self.report(f"row {number}: {row}")
            return False
        results = done[row.device]
        if row.device not in errors:
            label = row.label or (self.known[row.device].label if row.device in self.known else "")
            self.known[row.device] = Listed(row.device, row.eep, label, None)
        did = [f"{self.would}{' and '.join(results)}"] if results else []
        faults = [fault for fault in (errors.get(row.device), row.fault) if fault]
        self.report(f"row {number}: {row.device}: {'; '.join([*did, *faults]) or 'unchanged'}")
        return not faults

    def missing_add_order(self, row: DeviceRow) -> str | None:
        """The order that learns the device, if it needs one. A device that is learned with this profile is not learned
        again, which would remove its manufacturer ID."""
        known = self.known.get(row.device)
        return None if known and known.eep == row.eep else add_order(row)

    def missing_label_order(self, row: DeviceRow) -> str | None:
        """The order for its label, if it needs one. A row without a label leaves the label as it is."""
        known = self.known.get(row.device)
        return label_order(row) if row.label and row.label != (known.label if known else "") else None
