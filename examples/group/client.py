"""A client's command: it writes down time, leaf and operation before it signs, sends the request to all replicas, again and again until
f + 1 have answered it, and writes down the reply. A command that ended before that left its request open: the next one asks it again
first, with the same bytes."""
from __future__ import annotations

import sqlite3
import time
from dataclasses import dataclass
from pathlib import Path

from bpf_host_replica import Accepted, Client, GroupError, Status
from configuration import Group, Member, other_secrets, read_group, read_secrets
from faults import ConfigurationFault, DiskFault, GroupFault, MemoryRanOut, NoLeaves, NoReply, ReplayFault
from journal import Lock, need_new, note_begun
from messages import CLIENT, Kind, Malformed, leaves_of, part_of
from transport import Callers

NAME = "session.sqlite"
MAX_BETWEEN_REPEATS = 8
INSTALL = {1: b"\x01", 2: b"\x04"}


@dataclass(frozen=True, slots=True)
class Asked:
    """A request, as it is written down."""

    time: int
    leaf: int
    operation: bytes


class Session:
    """What a client has asked, on disk. Its folder is locked."""

    def __init__(self, folder: Path, configuration: bytes, key: bytes) -> None:
        self.path = folder / NAME
        try:
            self._base = sqlite3.connect(self.path, isolation_level=None)
            self._base.execute("PRAGMA journal_mode=WAL")
            self._base.execute("PRAGMA synchronous=FULL")
            if not self._base.execute("SELECT count(*) FROM sqlite_master").fetchone()[0]:
                need_new(self.path)
            self._base.execute("CREATE TABLE IF NOT EXISTS header (configuration BLOB, key BLOB)")
            self._base.execute("INSERT INTO header SELECT ?, ? WHERE NOT EXISTS (SELECT * FROM header)", (configuration, key))
            self._base.execute(
                "CREATE TABLE IF NOT EXISTS request (time INTEGER PRIMARY KEY, leaf INTEGER, operation BLOB, number INTEGER, result BLOB)"
            )
            note_begun(self.path)
            header = self._base.execute("SELECT configuration, key FROM header").fetchall()
        except sqlite3.Error as fault:
            raise DiskFault(f"{self.path} can't be opened: {fault}.") from None
        if header != [(configuration, key)]:
            raise ReplayFault(f"{self.path} is a session of another configuration or key. Nothing was sent.")

    def open_request(self) -> Asked | None:
        """The last request, where no reply to it was accepted."""
        last = self._base.execute("SELECT time, leaf, operation, result FROM request ORDER BY time DESC LIMIT 1").fetchone()
        return Asked(*last[:3]) if last and last[3] is None else None

    def next(self, operation: bytes) -> Asked:
        """What the next request is to be."""
        last_time, last_leaf = self._base.execute("SELECT coalesce(max(time), 0), coalesce(max(leaf), -1) FROM request").fetchone()
        return Asked(last_time + 1, last_leaf + 1, operation)

    def commit(self, asked: Asked) -> None:
        """Writes a request down; it may be signed then."""
        self._write("INSERT INTO request VALUES (?, ?, ?, NULL, NULL)", (asked.time, asked.leaf, asked.operation))

    def answer(self, accepted: Accepted) -> None:
        self._write("UPDATE request SET number = ?, result = ? WHERE time = ?", (accepted.number, accepted.result, accepted.time))

    def _write(self, statement: str, values: tuple) -> None:
        try:
            self._base.execute(statement, values)
        except sqlite3.Error as fault:
            raise DiskFault(f"{self.path} can't be written ({fault}). Nothing was sent.") from None

    def close(self) -> None:
        self._base.close()


class Caller:
    """A client with its session and its connections."""

    def __init__(self, group: Group, me: Member) -> None:
        folder = group.folder_of(me)
        if not folder.is_dir():
            raise ConfigurationFault(f"{folder} isn't there: it is the folder with the secrets of {me.name}.")
        self.group, self.me = group, me
        self._lock = Lock(folder)
        self._secrets, self._config = read_secrets(group, me), group.configuration()
        self._session = Session(folder, group.digest(), me.key)
        self._client: Client | None = None
        self._connections = Callers(group, me, self._secrets.curve)

    def resume(self, seconds: float) -> Accepted | None:
        """Asks again what a command that ended has left open."""
        asked = self._session.open_request()
        return self._ask(asked, seconds) if asked else None

    def call(self, operation: bytes, seconds: float) -> Accepted:
        """Asks for an operation, and returns the accepted reply. Raises `NoReply` where none is within so many seconds."""
        asked = self._session.next(operation)
        if asked.leaf >= leaves_of(self.me.heights):
            raise NoLeaves(f"The key of {self.me.name} has no leaf left: it makes no request any more. What is left is a new group.")
        self._session.commit(asked)
        return self._ask(asked, seconds)

    def _ask(self, asked: Asked, seconds: float) -> Accepted:
        message = self._request(asked)
        accepted = self._repeat(asked, message, seconds)
        self._session.answer(accepted)
        return accepted

    def _request(self, asked: Asked) -> bytes:
        try:
            if self._client is None:
                self._client = Client(self._config, self.me.id, self._secrets.seed, asked.leaf, asked.time - 1)
            return self._client.request(asked.operation)
        except GroupError as fault:
            if fault.status in (Status.MEMORY, Status.REQUEST_MEMORY):
                raise MemoryRanOut("Memory ran out as a request was made. The next command asks it again.") from None
            if fault.status == Status.OTHER_KEY:
                raise other_secrets(self.group, self.me) from None
            raise GroupFault(f"{self.me.name} makes no request: {fault.status.name}.") from None

    def _repeat(self, asked: Asked, message: bytes, seconds: float) -> Accepted:
        """Sends a request until a reply is accepted: after an interval again, then after two, four and eight."""
        ends, between, heard = time.monotonic() + seconds, self.group.interval, set()
        while True:
            self._connections.send(message)
            again = time.monotonic() + between
            while (now := time.monotonic()) < min(again, ends):
                for replica, reply in self._connections.receive(min(again, ends) - now):
                    if _is_of(asked, reply) and (accepted := self._hear(reply)):
                        return accepted
                    heard.add(replica.id)
            if now >= ends:
                spoke = ", ".join(map(str, sorted(heard))) or "none"
                raise NoReply(f"{self.me.name} has no reply to its request of time {asked.time} within {seconds:g} s: it wants the same answer of "
                              f"f + 1 replicas. Replicas that sent it anything: {spoke}. The request stays open: the next command asks it again.")
            between = min(2 * between, MAX_BETWEEN_REPEATS * self.group.interval)

    def _hear(self, reply: bytes) -> Accepted | None:
        assert self._client is not None
        try:
            return self._client.hear(reply)
        except GroupError as fault:
            if fault.status == Status.MEMORY:
                raise MemoryRanOut("Memory ran out as a reply was opened. The next command asks again.") from None
            return None

    def close(self) -> None:
        self._connections.close()
        self._session.close()
        self._lock.release()


def _is_of(asked: Asked, reply: bytes) -> bool:
    """Whether bytes call themselves a reply to a request. Those that don't need not be opened: f + 1 replies are enough, and the others come late."""
    try:
        part = part_of(reply)
    except Malformed:
        return False
    return part.kind == Kind.REPLY and part.time == asked.time


def run_calls(folder: Path, id: int, operation: bytes, count: int, seconds: float) -> int:
    """The commands `group install` and `group call`: a line for each accepted reply."""
    group = read_group(folder)
    caller = Caller(group, group.member(CLIENT, id))
    try:
        if accepted := caller.resume(seconds):
            print(f"(left open) {_line(id, accepted)}", flush=True)
        for _ in range(count):
            print(_line(id, caller.call(operation, seconds)), flush=True)
    finally:
        caller.close()
    return 0


def _line(id: int, accepted: Accepted) -> str:
    return f"client {id} time {accepted.time} number {accepted.number} result {accepted.result.hex()}"


def call_operation(procedure: int, args: bytes) -> bytes:
    return b"\x02" + procedure.to_bytes(4, "big") + args


def install_operation(file: Path, profile: int) -> bytes:
    """The operation that installs code, whose hex digits stand in a file."""
    try:
        return INSTALL[profile] + bytes.fromhex("".join(file.read_text(encoding="ascii").split()))
    except OSError as fault:
        raise ConfigurationFault(f"{file} can't be read: {fault.strerror}.") from None
    except ValueError:
        raise ConfigurationFault(f"{file} isn't code as hex digits.") from None
