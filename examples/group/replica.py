"""The process of a replica: it opens what comes, commits, takes and sends, gives its replica timeouts, and sends again what may have
been lost."""
from __future__ import annotations

import math
import signal
import socket
import time
from collections import Counter
from pathlib import Path

import zmq

from bpf_host_replica import GroupError, Message, Replica, Status, To
from configuration import Group, Member, Secrets, other_secrets, read_group, read_secrets
from faults import ConfigurationFault, GroupFault, MemoryRanOut
from journal import Header, Journal, Lock
from keeper import Keeper, Offer
from log import Log
from messages import REPLICA
from transport import MAX_MESSAGE, MAX_QUEUE, Came, Inbox, Outbox, Tag

MAX_BATCH = 256
MAX_INTERVALS = 1024
MAX_BETWEEN_REPEATS = 64


class Doubling:
    """A timer that is due after an interval, then after two, four .. until it is set back."""

    def __init__(self, interval: float, most: int, now: float) -> None:
        self._interval, self._most = interval, most
        self.set_back(now)

    def set_back(self, now: float) -> None:
        self._intervals, self.at = 1, now + self._interval

    def is_due(self, now: float) -> bool:
        """Whether it is; then it waits for twice as long."""
        if now < self.at:
            return False
        self._intervals = min(2 * self._intervals, self._most)
        self.at = now + self._intervals * self._interval
        return True


class Process:
    """A replica's process, once its journal was taken again."""

    def __init__(self, keeper: Keeper, secrets: Secrets, log: Log) -> None:
        self.keeper, self.log = keeper, log
        group, me = keeper.group, keeper.me
        self._context, now = zmq.Context(), time.monotonic()
        self._inbox = Inbox(self._context, group, me, secrets.curve)
        self.outboxes = {peer.id: Outbox(self._context, me, secrets.curve, peer) for peer in group.replicas if peer != me}
        self._signals, self._signalled = socket.socketpair()  # a signal is heard by a byte, which ends a poll
        self._poller = zmq.Poller()
        for it in (self._inbox.socket, self._signals):
            self._poller.register(it, zmq.POLLIN)
        self._impatience = Doubling(group.interval, MAX_INTERVALS, now)
        self._repeating = Doubling(group.interval, MAX_BETWEEN_REPEATS, now)
        self._asked_until = now + group.interval  # its peers, as it starts
        self._answered: set[int] = set()  # the peers that have told this replica's highest leaf
        self._helped: dict[int, float] = {}  # when a peer that has started was sent all again
        self._backlog: list[Came] | None = []  # what came before all were asked; none from then on
        self._room = MAX_QUEUE
        self._refused: Counter[str] = Counter()
        self._seen = keeper.standing
        self._is_told_to_end = False

    def run(self) -> None:
        """Runs until it is told to end. Raises what ends it before."""
        self._signalled.setblocking(False)
        signal.set_wakeup_fd(self._signalled.fileno())
        for number in (signal.SIGTERM, signal.SIGINT):
            signal.signal(number, self._end)
        for outbox in self.outboxes.values():
            outbox.post(Tag.STARTED, b"")
        try:
            while not self._is_told_to_end:
                self._turn()
            self.keeper.flush()
        finally:
            self._inbox.close()
            self._context.destroy(linger=0)
            self.keeper.journal.close()

    def _end(self, *_: object) -> None:
        self._is_told_to_end = True

    def _turn(self) -> None:
        """Waits until there is something to do, and does it."""
        self._wait()
        self._attend_all()
        now = time.monotonic()
        if self._backlog is not None and (now >= self._asked_until or len(self._answered) == len(self.outboxes)):
            self._begin(now)
        if self._backlog is None:
            self._tick(now)
            self._take()
        self._send_waiting()

    def _wait(self) -> None:
        """Waits until something comes, a peer takes more of what waits for it, the process is told to end, or a timer is due."""
        for outbox in self.outboxes.values():
            self._poller.register(outbox.socket, 0 if outbox.is_empty else zmq.POLLOUT)
        until = self._asked_until if self._backlog is not None else min(self._impatience.at, self._repeating.at)
        self._poller.poll(max(0, math.ceil(1000 * (until - time.monotonic()))))

    # ---- what comes

    def _attend_all(self) -> None:
        """Attends to what is here already, up to a bound."""
        count = size = 0
        while count < MAX_BATCH and size < MAX_MESSAGE and (came := self._inbox.next()):
            self._attend(came, time.monotonic())
            count += 1 + len(came.messages)
            size += came.size

    def _attend(self, came: Came, now: float) -> None:
        if came.tag == Tag.STARTED:
            self._help(came.sender, now)
        elif came.tag == Tag.YOURS:
            for message in filter(None, came.messages):
                self.keeper.hear(message)
            self._answered |= {came.sender.id} & self.outboxes.keys()
        elif self._backlog is not None:
            self._room -= came.size
            if self._room > 0:
                self._backlog.append(came)
        else:
            for message in came.messages:
                if self.keeper.offer(message, now) == Offer.REFUSED:
                    self._refused[came.sender.name] += 1

    def _help(self, peer: Member, now: float) -> None:
        """A peer has started: it is told the highest leaf of its own that was seen, and sent again what it may have missed."""
        if peer.id not in self.outboxes or now - self._helped.get(peer.id, -3600.0) < self.keeper.group.interval / 4:
            return
        self._helped[peer.id] = now
        outbox = self.outboxes[peer.id]
        outbox.post(Tag.YOURS, self.keeper.highest.get(peer.id, (0, b""))[1])
        for message in self.keeper.repeats.all() if self._backlog is None else []:
            if message.to == To.ALL:
                outbox.post(Tag.MESSAGE, message.bytes)

    def _begin(self, now: float) -> None:
        """The peers were asked, and none has shown a signature that the journal doesn't know."""
        backlog, self._backlog = self._backlog or [], None
        self.log.say("begins", answered=sorted(self._answered), leaf=self.keeper.next_leaf)
        self._send_again()
        for came in backlog:
            self._attend(came, now)

    # ---- what is done

    def _take(self) -> None:
        """Has the replica take the batch, which is on the disk before, and only then sends what that gives; so on until nothing is left. What
        comes meanwhile is the next batch: the longer the disk takes, the more goes into a commit."""
        while self.keeper.has_batch:
            self.send(self.keeper.take())
            self._follow(time.monotonic())

    def _follow(self, now: float) -> None:
        """Looks what has changed since the last batch."""
        stands, seen = self.keeper.standing, self._seen
        if stands.executed != seen.executed:
            self._impatience.set_back(now)
            self._repeating.set_back(now)
        if stands.low != seen.low:
            self.keeper.forget(now)
            self._tell_lost()
        if (stands.view, stands.active) != (seen.view, seen.active):
            self.log.say("view", view=stands.view, active=stands.active)
        self._seen = stands
        if self.keeper.ended:
            raise self.keeper.ended

    def _tick(self, now: float) -> None:
        """A replica that waits and executes nothing gets a timeout; what may have been lost is sent again."""
        if not self.keeper.may_wait():
            self._impatience.set_back(now)
        if now >= self._impatience.at and not self.keeper.is_waiting():
            self._impatience.set_back(now)
        if self._impatience.is_due(now):
            self.keeper.timeout()
            self.log.say("times out", view=self.keeper.standing.view, executed=self.keeper.standing.executed)
        if self._repeating.is_due(now):
            self.keeper.flush()
            self.keeper.forget(now)
            self._tell_lost()
            self._send_again()

    def _tell_lost(self) -> None:
        for name, count in self._refused.items():
            self.log.say("refused", sender=name, messages=count)
        self._refused.clear()
        for outbox in self.outboxes.values():
            if outbox.dropped:
                self.log.say("dropped", receiver=outbox.peer.name, messages=outbox.dropped)
                outbox.dropped = 0

    def send(self, messages: list[Message]) -> None:
        """Sends messages, as far as their receivers' connections take them now; what is for peers waits until they do."""
        for message in messages:
            if message.to == To.CLIENT:
                self._inbox.reply(message.id, message.bytes)
            for peer, outbox in self.outboxes.items():
                if message.to == To.ALL or (message.to == To.REPLICA and message.id == peer):
                    outbox.post(Tag.MESSAGE, message.bytes)
        self._send_waiting()

    def _send_waiting(self) -> None:
        for outbox in self.outboxes.values():
            outbox.send()

    def _send_again(self) -> None:
        self.send(self.keeper.repeats.all())


def open_keeper(group: Group, me: Member) -> tuple[Keeper, Secrets]:
    """A replica that has taken its journal again. Its folder's lock comes before all else."""
    folder = group.folder_of(me)
    if not folder.is_dir():
        raise ConfigurationFault(f"{folder} isn't there: it is the folder with the secrets of {me.name}.")
    Lock(folder)
    secrets, config = read_secrets(group, me), group.configuration()
    journal = Journal(folder, Header(group.digest(), me.id, me.key))
    try:
        keeper = Keeper(group, me, config, Replica.replay(config, me.id, secrets.seed), journal)
    except GroupError as fault:
        if fault.status == Status.MEMORY:
            raise MemoryRanOut("Memory ran out as the replica was made. The process may be started again.") from None
        raise other_secrets(group, me) from None
    return keeper, secrets


def run_replica(folder: Path, id: int, process: type[Process] = Process) -> int:
    """The command `group replica`."""
    group = read_group(folder)
    me = group.member(REPLICA, id)
    log = Log(me.name)
    try:
        keeper, secrets = open_keeper(group, me)
        began = time.monotonic()
        rows = keeper.replay()
        stands = keeper.standing
        log.say("taken again", rows=rows, seconds=round(time.monotonic() - began, 3), view=stands.view, executed=stands.executed)
        process(keeper, secrets, log).run()
    except MemoryError:
        log.say("ends", why="Memory ran out. The process may be started again.", status=MemoryRanOut.status)
        return MemoryRanOut.status
    except GroupFault as fault:
        log.say("ends", why=str(fault), status=fault.status)
        raise
    log.say("ends", why="It was told to.", status=0)
    return 0
