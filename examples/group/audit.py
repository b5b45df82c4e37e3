"""The journals of several parties side by side. Whether what they did agrees is their own word; who contradicts itself, or signs two messages
with one leaf, is proved by signatures, whoever's journal they stand in. No seed is needed."""
from __future__ import annotations

import hashlib
import itertools
import sqlite3
from collections.abc import Iterator
from dataclasses import dataclass, field
from pathlib import Path

from bpf_host_replica import Audit as Contradictions
from bpf_host_replica import Configuration, Executed, GroupError, Installed, Ledger
from configuration import FILE, Group, read_group
from faults import ConfigurationFault, DiskFault
from journal import NAME, VERSION, sum_behind
from messages import CLIENT, REPLICA, VOTES, Kind, Part, leaf_of, parts_of


NOTHING: tuple[int, list] = (0, [])
NUMBERS = 128  # whose messages, and what was done at them, the library takes side by side: it goes over all that came before
NULL_REQUEST = hashlib.sha256().digest()  # `null_digest` in pbft_model/specs/Setup.antt


def _by_row(entries: Iterator[tuple]) -> Iterator[tuple[int, list]]:
    """Entries that begin with a row's number, row by row, without it."""
    for row, group in itertools.groupby(entries, key=lambda entry: entry[0]):
        yield row, [entry[1:] for entry in group]


@dataclass(frozen=True, slots=True)
class Record:
    """A party's journal: what it says, and where it stands."""

    path: Path
    replica: int
    base: sqlite3.Connection

    def messages(self) -> Iterator[bytes]:
        """What it took, and what it gave."""
        for (message,) in self.base.execute("SELECT message FROM row WHERE message IS NOT NULL ORDER BY number"):
            yield message
        for (message,) in self.base.execute("SELECT message FROM output ORDER BY row, place"):
            yield message

    def done(self) -> Iterator[Executed | Installed]:
        """What it did, in order."""
        for number, digest, result in self.base.execute("SELECT number, digest, result FROM done ORDER BY row, place"):
            yield Installed(number, digest) if result is None else Executed(number, digest, result)

    def is_whole(self) -> bool:
        """Whether its running hash is that of what it gave and did."""
        taken, last = self.base.execute("SELECT taken, sum FROM standing").fetchone()
        outputs = _by_row(self.base.execute("SELECT row, receiver, message FROM output ORDER BY row, place"))
        done = _by_row(self.base.execute("SELECT row, number, digest, result FROM done ORDER BY row, place"))
        sums = bytes(32)
        given, did = next(outputs, NOTHING), next(done, NOTHING)
        rows = self.base.execute("SELECT number, message FROM row WHERE number <= ? ORDER BY number", (taken,))
        row = 0
        for row, message in rows:
            sums = sum_behind(sums, message, given[1] if given[0] == row else [], did[1] if did[0] == row else [])
            given = next(outputs, NOTHING) if given[0] == row else given
            did = next(done, NOTHING) if did[0] == row else did
        return row == taken and sums == last and given == did == NOTHING


@dataclass(slots=True)
class Findings:
    """What an audit has found: who is blamed, and where the parties' words differ."""

    blamed: list[str] = field(default_factory=list)
    differ: list[str] = field(default_factory=list)
    messages: int = 0
    unopened: int = 0
    reached: int = 0
    apart: int | None = None  # the least number at which replicas did different things, or one left a number out

    def tell_apart(self, number: int, what: str) -> None:
        """What was done at this number isn't as it is to be."""
        self.differ.append(what)
        self.apart = number if self.apart is None else min(self.apart, number)

    def agreement(self) -> str:
        """In words, how far the journals agree."""
        if not self.differ:
            return f"agree up to number {self.reached}"
        return "DON'T agree" if self.apart is None else f"DON'T agree, first at number {self.apart}"


def records_of(folders: list[Path]) -> tuple[Group, list[Record]]:
    """The journals in these folders, all of one group."""
    groups = [read_group(folder) for folder in folders]
    if len({group.digest() for group in groups}) != 1:
        raise ConfigurationFault(f"The folders have different groups: {FILE} differs.")
    group = groups[0]
    records = [_record(path, group) for folder in folders for path in sorted(folder.glob(f"replica-*/{NAME}"))]
    if not records:
        raise ConfigurationFault(f"There is no journal to audit: no file replica-N/{NAME} in these folders.")
    return group, records


def _record(path: Path, group: Group) -> Record:
    try:
        base = sqlite3.connect(f"file:{path}?mode=ro", uri=True, isolation_level=None)
        base.execute("BEGIN")
        version, configuration, replica, _ = base.execute("SELECT version, configuration, replica, key FROM header").fetchone()
    except (sqlite3.Error, TypeError) as fault:
        raise DiskFault(f"{path} can't be read: {fault}.") from None
    if (version, configuration) != (VERSION, group.digest()):
        raise ConfigurationFault(f"{path} is a journal of another version or configuration.")
    return Record(path, replica, base)


class Audit:
    """Goes over messages, each once, and keeps what each signer signed with a leaf; what he said, and what replicas did, the library
    keeps."""

    def __init__(self, group: Group) -> None:
        self._group, self._config = group, group.configuration()
        self._known: set[bytes] = set()
        self._heard: dict[int, tuple[Contradictions, list[Part]]] = {}
        self._done: dict[int, tuple[Ledger, list[int]]] = {}
        self._leaves: dict[tuple[int, int, int], Part] = {}
        self._blamed: set[tuple] = set()
        self.findings = Findings()

    def hear(self, message: bytes) -> None:
        if not self._is_new(message):
            return
        self.findings.messages += 1
        if not _opens(self._config, message):
            self.findings.unopened += 1
            return
        for part in parts_of(message):
            if part.whole == message or self._is_new(part.whole):
                self._compare(part)

    def _is_new(self, message: bytes) -> bool:
        digest = hashlib.sha256(message).digest()
        is_new = digest not in self._known
        self._known.add(digest)
        return is_new

    def _compare(self, part: Part) -> None:
        leaf = leaf_of(self._group.key_of(part.role, part.id), part.signature)
        other = self._leaves.setdefault((part.role, part.id, leaf), part)
        if other.text != part.text:
            self._blame((part.role, part.id, "leaf", leaf), f"signed two messages with leaf {leaf}: {said(other)}; and {said(part)}")
        if part.kind in (*VOTES, Kind.CHECKPOINT):
            self._hear(part)

    def _hear(self, part: Part) -> None:
        """Has the library look whether its signer contradicts himself."""
        contradictions, parts = self._heard.setdefault(part.number // NUMBERS, (Contradictions(self._config), []))
        heard = contradictions.hear(part.whole)
        parts.append(part)
        if heard.first is not None:
            topic = (part.role, part.id, part.kind, part.view, part.number)
            self._blame(topic, f"contradicts itself: {said(parts[heard.first])}; and {said(part)}")

    def _blame(self, topic: tuple, what: str) -> None:
        if topic not in self._blamed:
            self._blamed.add(topic)
            self.findings.blamed.append(f"{'replica' if topic[0] == REPLICA else 'client'} {topic[1]} {what}.")

    def compare_done(self, records: list[Record]) -> None:
        """What the definitions ask of whole records (byz_world/specs/Audits.antt; of deeds ledger_laws/specs/Audits.antt), of one thing that
        was done after another: no two say different things of a number, and executions rise by one."""
        for record in records:
            last = 0
            for done in record.done():
                self._note(record.replica, done, last)
                last = done.number
            self.findings.reached = max(self.findings.reached, last)

    def _note(self, replica: int, done: Executed | Installed, last: int) -> None:
        """Has the library look whether a replica did what others did, behind its last number."""
        ledger, replicas = self._done.setdefault(done.number // NUMBERS, (Ledger(), []))
        what = "executed" if isinstance(done, Executed) else "installed"
        ledger.begin(last)
        try:
            compared = ledger.note(done)
        except ValueError as fault:
            self.findings.tell_apart(done.number, f"replica {replica} {what} something at number {done.number} that has no digest: {fault}.")
            return
        replicas.append(replica)
        if compared.first is not None:
            other = replicas[compared.first]
            self.findings.tell_apart(done.number, f"replicas {other} and {replica} {what} different things at number {done.number}.")
        if not compared.follows:
            self.findings.tell_apart(done.number, f"replica {replica} executed number {done.number} behind number {last}.")


def said(part: Part) -> str:
    """A part in words."""
    name = part.kind.name.lower().replace("_", "-")
    if part.role == CLIENT:
        return f"{name} of time {part.time}, {part.request_digest.hex()[:8]}"
    digest = f" {'null' if part.digest == NULL_REQUEST else part.digest.hex()[:8]}" if part.digest else ""
    return f"{name} view {part.view} number {part.number}{digest}"


def _opens(config: Configuration, message: bytes) -> bool:
    try:
        config.open(message)
    except GroupError:
        return False
    return True


def run_audit(folders: list[Path]) -> int:
    """The command `group audit`: a line for each finding, and the status 1 where there is one."""
    group, records = records_of(folders)
    audit = Audit(group)
    found = audit.findings
    for record in records:
        if not record.is_whole():
            found.differ.append(f"{record.path} was changed: its running hash isn't that of what stands in it.")
        for message in record.messages():
            audit.hear(message)
    audit.compare_done(records)
    if found.unopened:
        found.differ.append(f"{found.unopened} messages of these journals are none of this configuration.")
    for line in found.blamed + found.differ:
        print(line)
    who = ", ".join(str(record.replica) for record in records)
    blamed = "nobody is blamed" if not found.blamed else f"{len(found.blamed)} times somebody is BLAMED"
    print(f"audit: the journals of replicas {who} {found.agreement()}; of {found.messages} messages, {blamed}.")
    return 1 if found.blamed or found.differ else 0
