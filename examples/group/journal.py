"""A replica's journal, on disk: each message and each timeout that it takes, in their order, before it takes them; beside them what
it gave and did, and a running hash of all. Whoever has the file can audit it; there is no seed in it.

    header   the form's version, a hash of the configuration, the replica and its key
    row      what was taken: the bytes of a message, or NULL for a timeout
    output   what a row gave, and to whom: -1 for all other replicas
    done     what a row did to the state
    standing how many rows were taken, the running hash of them and of what they gave, and where the replica stood

The rows of one batch, and what the rows before gave, are one transaction, and it is on the disk (`synchronous=FULL`) before the first of
them is taken. A process that ends leaves rows that were not taken, or whose outputs aren't here: they are taken again."""
from __future__ import annotations

import fcntl
import hashlib
import os
import sqlite3
import struct
from collections.abc import Iterator
from dataclasses import dataclass
from pathlib import Path
from typing import NamedTuple

from bpf_host_replica import Executed, Installed, Message, Standing, To
from faults import DiskFault, Locked, LostMemory, ReplayFault
from messages import Part

VERSION = 1
NAME = "journal.sqlite"
BEGUN = "begun"
_TABLES = """
CREATE TABLE header (version INTEGER, configuration BLOB, replica INTEGER, key BLOB);
CREATE TABLE row (number INTEGER PRIMARY KEY, message BLOB);
CREATE TABLE output (row INTEGER, place INTEGER, receiver INTEGER, message BLOB, PRIMARY KEY (row, place)) WITHOUT ROWID;
CREATE TABLE done (row INTEGER, place INTEGER, number INTEGER, digest BLOB, result BLOB, PRIMARY KEY (row, place)) WITHOUT ROWID;
CREATE TABLE standing (taken INTEGER, sum BLOB, view INTEGER, active INTEGER, low INTEGER, executed INTEGER, leaves INTEGER,
halted INTEGER);
"""


@dataclass(frozen=True, slots=True)
class Header:
    """Whose journal it is."""

    configuration: bytes
    replica: int
    key: bytes


class Row(NamedTuple):
    """What is taken: a message, or None for a timeout; and what the message says, where it was read already."""

    number: int
    message: bytes | None
    part: Part | None = None


class Step(NamedTuple):
    """A row, and what it gave and did."""

    row: Row
    outputs: list[Message]
    done: list[Executed | Installed]
    standing: Standing


def sum_behind(
    before: bytes, taken: bytes | None, outputs: list[tuple[int, bytes]], done: list[tuple[int, bytes, bytes | None]]
) -> bytes:
    """The running hash behind a row, from the one before it."""
    text = hashlib.sha256(before + struct.pack(">qII", -1 if taken is None else len(taken), len(outputs), len(done)))
    text.update(taken or b"")
    for to, message in outputs:
        text.update(struct.pack(">qQ", to, len(message)) + message)
    for number, digest, result in done:
        text.update(struct.pack(">Qq", number, -1 if result is None else len(result)) + digest + (result or b""))
    return text.digest()


def receiver_of(message: Message) -> int:
    return -1 if message.to == To.ALL else message.id


def done_values(item: Executed | Installed) -> tuple[int, bytes, bytes | None]:
    return (item.number, item.digest, item.result if isinstance(item, Executed) else None)


class Lock:
    """The folder of a member is in one process at a time. The lock goes with its process, however that ends."""

    def __init__(self, folder: Path) -> None:
        self.path = folder / "lock"
        try:
            self._file = os.open(self.path, os.O_RDWR | os.O_CREAT, 0o600)
            fcntl.lockf(self._file, fcntl.LOCK_EX | fcntl.LOCK_NB)
        except BlockingIOError:
            raise Locked(f"{folder} is in another process (number {holder(folder)}): two of one seed would sign twice with a leaf.") from None
        except OSError as fault:
            raise DiskFault(f"{self.path} can't be locked: {fault.strerror}.") from None

    def release(self) -> None:
        os.close(self._file)


def holder(folder: Path) -> int:
    """The process that has a folder's lock; 0 where none has."""
    form = "hhqqi"
    try:
        file = os.open(folder / "lock", os.O_RDWR)
    except OSError:
        return 0
    try:
        asked = fcntl.fcntl(file, fcntl.F_GETLK, struct.pack(form, fcntl.F_WRLCK, os.SEEK_SET, 0, 0, 0))
    finally:
        os.close(file)
    kind, _, _, _, process = struct.unpack(form, asked[: struct.calcsize(form)])
    return 0 if kind == fcntl.F_UNLCK else process


def need_new(path: Path) -> None:
    """Raises `LostMemory` where a member has begun already, whose file isn't there or is empty."""
    if (path.parent / BEGUN).exists():
        raise LostMemory(f"{path} is gone, but {path.parent.name} has begun: with its seed alone it would sign twice with a leaf. A replica counts "
                         "among the faulty ones then, and the others go on without it; a client needs a new key. What is left is a new group.")


def note_begun(path: Path) -> None:
    """The file is on the disk: from now on the member has begun."""
    (path.parent / BEGUN).touch(0o600)
    for it in (path.parent / BEGUN, path.parent):
        file = os.open(it, os.O_RDONLY)
        os.fsync(file)
        os.close(file)


class Journal:
    """The journal of a replica that runs. Its folder is locked."""

    def __init__(self, folder: Path, header: Header) -> None:
        self.path = folder / NAME
        try:
            self._base = sqlite3.connect(self.path, isolation_level=None)
            self._base.execute("PRAGMA journal_mode=WAL")
            self._base.execute("PRAGMA synchronous=FULL")
            self._begin(header)
            self.rows: int = self._base.execute("SELECT coalesce(max(number), 0) FROM row").fetchone()[0]
            self.taken, self._sum_taken = self._base.execute("SELECT taken, sum FROM standing").fetchone()
        except sqlite3.Error as fault:
            raise DiskFault(f"{self.path} can't be opened: {fault}.") from None
        self.sum = bytes(32)
        if self.rows < self.taken:
            raise ReplayFault(f"{self.path} lacks rows that were taken: it was changed. Nothing was sent.")

    def _begin(self, header: Header) -> None:
        wanted = (VERSION, header.configuration, header.replica, header.key)
        if not self._base.execute("SELECT count(*) FROM sqlite_master").fetchone()[0]:
            need_new(self.path)
            self._base.execute("BEGIN IMMEDIATE")
            for statement in _TABLES.split(";"):
                self._base.execute(statement)
            self._base.execute("INSERT INTO header VALUES (?, ?, ?, ?)", wanted)
            self._base.execute("INSERT INTO standing VALUES (0, ?, 0, 1, 0, 0, -1, 0)", (bytes(32),))
            self._base.execute("COMMIT")
        note_begun(self.path)
        if self._base.execute("SELECT version, configuration, replica, key FROM header").fetchall() != [wanted]:
            raise ReplayFault(f"{self.path} is a journal of another version, configuration, replica or key. Nothing was sent.")

    def read(self) -> Iterator[Row]:
        """All rows, in order. Raises `ReplayFault` where one is missing."""
        for place, (number, message) in enumerate(self._base.execute("SELECT number, message FROM row ORDER BY number"), 1):
            if number != place:
                raise ReplayFault(f"{self.path} lacks row {place}: it was changed. Nothing was sent.")
            yield Row(number, message)

    def check(self, step: Step) -> bool:
        """A row that was taken again: raises `ReplayFault` where what the rows up to it gave isn't what stands here. Whether it stood
        here already."""
        if step.row.number > self.taken:
            return False
        self.sum = sum_behind(self.sum, step.row.message, _sent(step), _did(step))
        if step.row.number == self.taken and self.sum != self._sum_taken:
            raise ReplayFault(f"The rows of {self.path}, taken again, give something else than before: the file was changed, or the library "
                              "is another one. Nothing was sent.")
        return True

    def commit(self, rows: list[Row], steps: list[Step]) -> None:
        """Adds what is to be taken, behind the rows that are there, and what rows before gave, and returns once that is on the disk."""
        try:
            self._base.execute("BEGIN IMMEDIATE")
            self._base.executemany("INSERT INTO row VALUES (?, ?)", [(row.number, row.message) for row in rows])
            if steps:
                self._add(steps)
            self._base.execute("COMMIT")
        except (sqlite3.Error, OSError) as fault:
            raise DiskFault(f"{self.path} can't be written ({fault}): the process ends, and nothing of what it was about to take was "
                            "sent. Make room, and start it again.") from None
        self.rows += len(rows)

    def _add(self, steps: list[Step]) -> None:
        """Adds what rows gave and did, and where the replica stands behind the last of them."""
        outputs, done = [], []
        for step in steps:
            number, sent, did = step.row.number, _sent(step), _did(step)
            outputs += [(number, place, *it) for place, it in enumerate(sent)]
            done += [(number, place, *it) for place, it in enumerate(did)]
            self.sum = sum_behind(self.sum, step.row.message, sent, did)
        self.taken, stands = steps[-1].row.number, steps[-1].standing
        self._base.executemany("INSERT INTO output VALUES (?, ?, ?, ?)", outputs)
        self._base.executemany("INSERT INTO done VALUES (?, ?, ?, ?, ?)", done)
        values = (self.taken, self.sum, stands.view, stands.active, stands.low, stands.executed, stands.leaves, stands.halted or 0)
        self._base.execute("UPDATE standing SET taken=?, sum=?, view=?, active=?, low=?, executed=?, leaves=?, halted=?", values)

    def halt(self, status: int) -> None:
        """The replica has halted, at the row behind those that were taken."""
        try:
            self._base.execute("UPDATE standing SET halted = ?", (status,))
        except sqlite3.Error as fault:
            raise DiskFault(f"{self.path} can't be written: {fault}.") from None

    def close(self) -> None:
        self._base.close()


def _sent(step: Step) -> list[tuple[int, bytes]]:
    return [(receiver_of(message), message.bytes) for message in step.outputs]


def _did(step: Step) -> list[tuple[int, bytes, bytes | None]]:
    return [done_values(item) for item in step.done]
