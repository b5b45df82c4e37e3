"""A replica with its journal. What comes is opened, and what is new is put into a batch; once the journal has the batch on the disk, the
replica takes it, and only then is it told what is to be sent: so a process may end at any instant, and its replica comes back as one that
was slow."""
from __future__ import annotations

import enum
import hashlib
from collections.abc import Callable
from typing import NamedTuple, TypeVar

from bpf_host_replica import Configuration, Executed, GroupError, Message, Repeats, Replica, Standing, Status, Votes
from configuration import Group, Member
from faults import EndedForGood, GroupFault, LostMemory, MemoryRanOut, ReplayFault
from journal import Journal, Row, Step
from messages import REPLICA, VOTES, Kind, Part, kind_of, leaf_of, leaves_of, part_of, parts_of

Told = TypeVar("Told")
OF_A_NUMBER = (*VOTES, Kind.CHECKPOINT)
OF_A_VIEW = (Kind.VIEW_CHANGE, Kind.NEW_VIEW)


class Offer(enum.Enum):
    """What becomes of bytes that came."""

    TAKEN = "taken"  # at the next turn
    HELD = "held"  # an early vote
    PASSED_OVER = "passed over"  # known, or of no use any more
    REFUSED = "refused"  # no message of the configuration


def _digest(message: bytes) -> bytes:
    """By which a message is known that comes again: SHA-512, which takes half as long as SHA-256 without instructions of its own."""
    return hashlib.sha512(message).digest()


class Asked(NamedTuple):
    """A request that was taken, and the digest by which it is executed."""

    part: Part
    digest: bytes


class Keeper:
    """A replica of a group with its journal, which it takes again at first."""

    def __init__(self, group: Group, me: Member, config: Configuration, replica: Replica, journal: Journal) -> None:
        self.group, self.me, self.config, self.replica, self.journal = group, me, config, replica, journal
        self.standing: Standing = replica.standing()
        self.repeats = Repeats()
        self.highest: dict[int, tuple[int, bytes]] = {}  # the highest leaf of each other replica that was seen, and its message
        self.ended: GroupFault | None = None
        self._votes = Votes(config)
        self._keys = {replica.id: replica.key for replica in group.replicas}
        self._asked: dict[int, Asked] = {}  # of each client the last request that was taken and not executed since
        self._answered: dict[int, int] = {}  # of each client the time of its last request that was answered
        self._fetched = b""  # the digest of the last request that was asked for
        self._taken: dict[bytes, int | None] = {}  # votes and Checkpoints above the low mark, with their numbers; ViewChanges, NewViews
        self._lately: dict[bytes, float] = {}  # Requests, Fetches and Snapshots of the last interval, which may come again
        self._last_row = journal.rows  # the last number that was given to what is to be taken
        self._batch: list[Row] = []
        self._steps: list[Step] = []  # that aren't in the journal yet

    def replay(self) -> int:
        """Takes again what the journal has. How many rows those were."""
        for row in self.journal.read():
            low = self.standing.low
            step = self._step(row)
            if row.message is not None:
                part = part_of(row.message)
                self._mark(_digest(row.message), part, None)
                self._note_leaf(part)
            if not self.journal.check(step):
                self._steps.append(step)
            if low != self.standing.low:
                self.forget(0.0)
        return self.journal.rows

    # ---- what comes

    def offer(self, message: bytes, now: float) -> Offer:
        """Puts a message into the batch, if the configuration takes it and it is new."""
        digest = _digest(message)
        if digest in self._taken or now - self._lately.get(digest, -self.group.interval) < self.group.interval:
            return Offer.PASSED_OVER
        is_early = self._opened(self._votes.hold, message)
        if is_early is None:
            return Offer.REFUSED
        parts = parts_of(message)
        self.look(parts)
        if is_early:
            return Offer.HELD
        if self._is_useless(parts[0]):
            return Offer.PASSED_OVER
        self._mark(digest, parts[0], now)
        self._add(message, parts[0])
        return Offer.TAKEN

    def hear(self, message: bytes) -> None:
        """A peer has shown a message: it is opened, and its leaves are looked at. Other bytes are passed over."""
        if self._opened(self.config.open, message) is not None:
            self.look(parts_of(message))

    def _opened(self, call: Callable[[bytes], Told], message: bytes) -> Told | None:
        """What the library tells of a message; nothing of bytes that aren't one of the configuration."""
        try:
            return call(message)
        except GroupError as fault:
            if fault.status == Status.MEMORY:
                raise MemoryRanOut("Memory ran out as a message was opened. The process may be started again.") from None
            return None

    def look(self, parts: list[Part]) -> None:
        """Looks which leaves a message names that was opened, in any of its parts. Raises `LostMemory` where one of this replica is among them
        that its journal doesn't know."""
        for part in parts:
            if part.role == REPLICA and part.id == self.me.id and leaf_of(self.me.key, part.signature) >= self.next_leaf:
                raise LostMemory(
                    f"A message that replica {self.me.id} signed with leaf {leaf_of(self.me.key, part.signature)} came, but its journal ends "
                    f"before leaf {self.next_leaf}: the journal is not the last one. It would sign twice with a leaf, so it doesn't start. "
                    "It counts among the faulty ones: the others go on without it."
                )
        self._note_leaf(parts[0])

    def _note_leaf(self, part: Part) -> None:
        """Keeps the message of another replica's highest leaf."""
        if part.role == REPLICA and part.id != self.me.id:
            leaf = leaf_of(self._keys[part.id], part.signature)
            if leaf > self.highest.get(part.id, (-1, b""))[0]:
                self.highest[part.id] = (leaf, part.whole)

    def timeout(self) -> None:
        self._add(None, None)

    def _add(self, message: bytes | None, part: Part | None) -> None:
        self._last_row += 1
        self._batch.append(Row(self._last_row, message, part))

    @property
    def next_leaf(self) -> int:
        return leaves_of(self.me.heights) - self.standing.leaves

    def may_wait(self) -> bool:
        """Whether a request was taken that wasn't executed."""
        return bool(self._asked)

    def is_waiting(self) -> bool:
        """Whether the replica waits for one of them: a state that it took over may have answered it."""
        self._asked = {client: asked for client, asked in self._asked.items() if self._opened(self.replica.waits_for, asked.part.whole)}
        return self.may_wait()

    def _is_useless(self, part: Part) -> bool:
        """Whether it changes nothing: an own message, a Reply, or what a replica that stands so doesn't record (`is_admitted`,
        `add_checkpoint` in pbft_model/specs)."""
        if part.kind == Kind.REPLY or (part.role == REPLICA and part.id == self.me.id):
            return True
        if part.kind in OF_A_NUMBER and part.number <= self.standing.low:
            return True
        if part.kind in VOTES and part.view < self.standing.view:
            return True
        is_old = part.kind == Kind.REQUEST and part.time < self._answered.get(part.id, 0)
        return is_old and part.request_digest != self._fetched

    def _mark(self, digest: bytes, part: Part, now: float | None) -> None:
        """The message with this digest isn't to be taken again: for good, or until an interval from now is over."""
        if part.kind in OF_A_NUMBER:
            self._taken[digest] = part.number
        elif part.kind in OF_A_VIEW:
            self._taken[digest] = None
        elif now is not None:
            self._lately[digest] = now

    def forget(self, now: float) -> None:
        """Forgets what need not be known any more."""
        low, interval = self.standing.low, self.group.interval
        self._taken = {digest: number for digest, number in self._taken.items() if number is None or number > low}
        self._lately = {digest: at for digest, at in self._lately.items() if now - at < interval}

    # ---- what is taken

    @property
    def has_batch(self) -> bool:
        return bool(self._batch)

    def take(self) -> list[Message]:
        """Commits the batch, together with what the rows before gave, and only then has the replica take it. What is to be sent. The next
        batch begins with the votes that are on time now. Where the replica halts, `ended` says so."""
        batch, steps, given = self._batch, self._steps, []
        self._batch, self._steps = [], []
        self.journal.commit(batch, steps)
        for row in batch:
            try:
                step = self._step(row)
            except EndedForGood as fault:
                self.ended = fault
                break
            self._steps.append(step)
            given += step.outputs
        self._hand_in()
        return given

    def flush(self) -> None:
        """Writes down what the last rows gave, so that status and audit see it."""
        steps, self._steps = self._steps, []
        if steps:
            self.journal.commit([], steps)

    def _hand_in(self) -> None:
        while (message := self._votes.next()) is not None:
            part = part_of(message)
            self._mark(_digest(message), part, None)
            self._add(message, part)

    def _step(self, row: Row) -> Step:
        try:
            outputs = self.replica.timeout() if row.message is None else self.replica.take(row.message)
            step = Step(row, outputs, self.replica.done(), self.replica.standing())
            self.repeats.follow(self.replica, len(outputs))
        except GroupError as fault:
            raise self._ending(row, fault.status) from None
        self.standing = step.standing
        self._votes.move(step.standing)
        self._note(row, step)
        return step

    def _note(self, row: Row, step: Step) -> None:
        """Notes which requests wait, which were answered, and which was asked for."""
        if row.message is not None and kind_of(row.message) == Kind.REQUEST:
            taken = row.part or part_of(row.message)
            if taken.id not in self._asked or self._asked[taken.id].part.time <= taken.time:
                self._asked[taken.id] = Asked(taken, taken.request_digest)
        done = {item.digest for item in step.done if isinstance(item, Executed)}
        if done:
            self._asked = {client: asked for client, asked in self._asked.items() if asked.digest not in done}
        for output in step.outputs:
            if kind_of(output.bytes) == Kind.REPLY:
                part = part_of(output.bytes)
                self._answered[part.client] = max(part.time, self._answered.get(part.client, 0))
            elif kind_of(output.bytes) == Kind.FETCH:
                self._fetched = part_of(output.bytes).digest or self._fetched

    def _ending(self, row: Row, status: Status) -> GroupFault:
        """Why the process ends at a row."""
        if status in (Status.MEMORY, Status.OUT_OF_MEMORY):
            return MemoryRanOut(f"Memory ran out at row {row.number}. The process may be started again, and takes the row then.")
        if status in (Status.EXHAUSTED, Status.WORN, Status.ALREADY_HALTED):
            self.flush()
            self.journal.halt(status)
            why = "its key has too few leaves left" if status == Status.EXHAUSTED else "a view or a number is at its limit"
            return EndedForGood(f"Replica {self.me.id} has halted for good at row {row.number}: {why}. It halts there again each time: "
                                "what is left is a new group with new keys.")
        return ReplayFault(f"Row {row.number} of {self.journal.path} is no message of this configuration ({status.name}). Nothing was sent.")
