"""The state of the bridge across restarts, in an SQLite file: how far the lines were read, the devices with their last
readings, the topics whose retained messages are still to be deleted, and the end of the learn window, if it is open.
All is written in one transaction, so it is consistent even after a power failure."""
from __future__ import annotations

import contextlib
import json
import logging
import os
import re
import sqlite3
from collections.abc import Iterable

from enogate_lines.contents import NAME_PATTERN
from enogate_lines.follow import Position

from .devices import Device
from .state import VERSION, ForeignFile, check_version, position_of, uri_of

# So long the start waits for a file that another program has locked, in seconds.
LOCK_WAIT = 5.0
CREATE_TABLES = f"""
PRAGMA journal_mode = WAL;
PRAGMA synchronous = NORMAL;
BEGIN;
CREATE TABLE IF NOT EXISTS place (inode INTEGER, offset INTEGER, last BLOB, discovery TEXT, may_adopt INTEGER);
CREATE TABLE IF NOT EXISTS device (id TEXT PRIMARY KEY, eep TEXT, label TEXT, maker INTEGER, told TEXT);
CREATE TABLE IF NOT EXISTS identity (id TEXT PRIMARY KEY, identity TEXT);
CREATE TABLE IF NOT EXISTS removed (topic TEXT PRIMARY KEY);
CREATE TABLE IF NOT EXISTS learn (until REAL);
CREATE TABLE IF NOT EXISTS boot (id TEXT);
PRAGMA user_version = {VERSION};
COMMIT;
"""
# The identity of a device that differs from its ID: the ID of the device that it has replaced, perhaps with a number.
IDENTITY_PATTERN = re.compile("[0-9A-F]{8}(?:_[0-9]{1,9})?")
# The subtopic of a reading.
SUBTOPIC_PATTERN = re.compile(f"{NAME_PATTERN}(?:/[0-9]{{1,20}})?")


class Store:
    """The state file at this path. A file that is damaged, or of another version, is replaced. If it cannot be written,
    the bridge runs without it, and it is tried again at each save. `discovery` is the topic prefix of the discovery
    messages that were published last, `boot` identifies this boot of the computer."""

    create_tables = CREATE_TABLES

    def __init__(self, path: str, discovery: str, boot: str = ""):
        self.path, self.discovery, self.boot = path, discovery, boot
        # whether the last save failed, and whether the file lacks changes of this run
        self.is_failing = self.is_behind = False
        self.connection: sqlite3.Connection | None = None
        self.start_empty()
        if not self.open(LOCK_WAIT):
            self.is_behind = self.is_failing = True
            self.read_without_writing()

    def start_empty(self) -> None:
        """The state without a file."""
        self.devices: list[Device] = []
        self.removed_topics: set[str] = set()
        # whether the computer was not started since the position was saved
        self.position: Position | None = None
        self.is_same_boot = False
        # until the broker was asked for everything, it may know more than a new state file
        self.old_discovery, self.may_adopt = self.discovery, True
        # in seconds since 1970
        self.learn_until: float | None = None

    def open(self, wait: float) -> bool:
        """Opens the file, which is created if there is none, and reads it. Returns whether it succeeded."""
        try:
            self.open_or_replace(wait)
        except (sqlite3.Error, OSError) as error:
            if not self.is_failing:
                logging.error("%s: %s; continuing without saving the state", self.path, error)
            self.close()
            return False
        return True

    def open_or_replace(self, wait: float) -> None:
        try:
            self.prepare(wait)
        except (sqlite3.DatabaseError, ForeignFile, ValueError, TypeError) as error:
            # a file that cannot be opened or is locked is not damaged
            if isinstance(error, sqlite3.OperationalError) and "no such" not in str(error):
                raise
            logging.warning("%s: %s; replacing the file; its state is lost", self.path, error)
            self.close()
            for file_end in ("", "-wal", "-shm"):
                if os.path.exists(self.path + file_end):
                    os.remove(self.path + file_end)
            self.prepare(wait)

    def prepare(self, wait: float) -> None:
        self.connection = sqlite3.connect(self.path, timeout=wait)
        check_version(self.connection)
        self.connection.executescript(self.create_tables)
        self.read(self.connection)

    def read_without_writing(self) -> None:
        """Reads a file that cannot be written, if there is one. If not even a file beside it can be created, which
        SQLite needs to read the log of a bridge that was killed, this log is left out: the state is then older."""
        for option in ("mode=ro", "immutable=1"):
            try:
                uri = uri_of(self.path, option)
                with contextlib.closing(sqlite3.connect(uri, timeout=LOCK_WAIT, uri=True)) as connection:
                    check_version(connection)
                    self.read(connection)
                return
            except (sqlite3.Error, ForeignFile, ValueError, TypeError):
                self.start_empty()

    def close(self) -> None:
        if self.connection:
            self.connection.close()
            self.connection = None

    def read(self, connection: sqlite3.Connection) -> None:
        self.start_empty()
        identities = dict(connection.execute("SELECT id, identity FROM identity"))
        if not all(IDENTITY_PATTERN.fullmatch(identity) for identity in identities.values()):
            raise ForeignFile("identity of an unknown form")
        self.devices = [Device(name, eep, label, maker, readings_in(reported), identities.get(name, "")) for
                        name, eep, label, maker, reported
                        in connection.execute("SELECT id, eep, label, maker, told FROM device")]
        self.removed_topics = {topic for topic, in connection.execute("SELECT topic FROM removed")}
        row = connection.execute("SELECT inode, offset, last, discovery, may_adopt FROM place").fetchone()
        if row:
            self.position, self.old_discovery, self.may_adopt = position_of(*row[:3]), row[3], bool(row[4])
        row = connection.execute("SELECT id FROM boot").fetchone()
        self.is_same_boot = self.boot == (row[0] if row else "")
        row = connection.execute("SELECT until FROM learn").fetchone()
        if row and not isinstance(row[0], float):
            raise ForeignFile("learn window of an unknown form")
        self.learn_until = row[0] if row else None

    def save(self, position: Position, changed_names: Iterable[str], known_devices: dict[str, Device],
             removed_topics: set[str],
             may_adopt: bool = False, learn_until: float | None = None) -> bool:
        """Saves this position, the changed devices, the topics to be deleted, and the end of the learn window. Returns
        whether it succeeded. If the file was not open, it gets the whole state."""
        if self.connection is None and not self.open(0):
            return False
        assert self.connection is not None
        try:
            with self.connection:
                if self.is_behind:
                    self.connection.execute("DELETE FROM device")
                    changed_names = list(known_devices)
                self.connection.execute("DELETE FROM place")
                values = (position.inode, position.offset, position.last, self.discovery, may_adopt)
                self.connection.execute("INSERT INTO place VALUES (?, ?, ?, ?, ?)", values)
                self.connection.execute("DELETE FROM boot")
                self.connection.execute("INSERT INTO boot VALUES (?)", (self.boot,))
                self.connection.execute("DELETE FROM learn")
                if learn_until is not None:
                    self.connection.execute("INSERT INTO learn VALUES (?)", (learn_until,))
                for name in changed_names:
                    self.save_device(self.connection, name, known_devices.get(name))
                if removed_topics != self.removed_topics:
                    self.connection.execute("DELETE FROM removed")
                    self.connection.executemany("INSERT INTO removed VALUES (?)",
                                                [(topic,) for topic in removed_topics])
        except (sqlite3.Error, OverflowError) as error:
            if not self.is_failing:
                logging.error("cannot save the state: %s", error)
            self.is_failing = True
            return False
        if self.is_behind:
            logging.info("%s: the state is saved again", self.path)
        self.is_failing = self.is_behind = False
        self.removed_topics, self.may_adopt, self.learn_until = set(removed_topics), may_adopt, learn_until
        return True

    def save_device(self, connection: sqlite3.Connection, name: str, device: Device | None) -> None:
        """Saves a device, or that there is none of this ID."""
        connection.execute("DELETE FROM device WHERE id = ?", (name,))
        connection.execute("DELETE FROM identity WHERE id = ?", (name,))
        if device and device.identity != name:
            connection.execute("INSERT INTO identity VALUES (?, ?)", (name, device.identity))
        if device:
            values = (name, device.eep, device.label, device.maker, json.dumps(device.last_readings))
            connection.execute("INSERT INTO device VALUES (?, ?, ?, ?, ?)", values)


def readings_in(text: str) -> dict[str, str]:
    """The readings of a device, by their subtopics."""
    texts_by_subtopic = json.loads(text)
    if not isinstance(texts_by_subtopic,
                      dict) or not all(isinstance(reading_text, str) for reading_text in texts_by_subtopic.values()):
        raise ForeignFile("readings of an unknown form")
    for subtopic, reading_text in texts_by_subtopic.items():
        # an earlier version accepted lines with such readings, which cannot be published
        if not SUBTOPIC_PATTERN.fullmatch(subtopic) or any("\ud800" <= character <= "\udfff"
                                                           for character in reading_text):
            raise ForeignFile("readings that cannot be published")
    return texts_by_subtopic

