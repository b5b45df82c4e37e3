"""Clients that ask a group at the same time, each in a process with a session of its own."""
from __future__ import annotations

import multiprocessing
import threading
import time
from collections.abc import Callable
from typing import NamedTuple

from machines import COUNTER, REPLICAS, Machines

import client as clients_of
from configuration import read_group
from messages import CLIENT

FORK = multiprocessing.get_context("fork")  # a client has what was imported here already
FIRST = 100
PATIENCE = 600.0
CALL = clients_of.call_operation(0, bytes(8) + (1).to_bytes(8, "little"))


class Call(NamedTuple):
    """When a client asked, since all began, and how long its reply took, in seconds."""

    at: float
    seconds: float


class Row(NamedTuple):
    """Requests a second, and the milliseconds within which half of the replies came, and 99 of 100."""

    rate: float
    median: float
    most: float


class Quick(clients_of.Session):
    """A session that doesn't wait for its disk."""

    def __init__(self, *words: object) -> None:
        super().__init__(*words)
        self._base.execute("PRAGMA synchronous=OFF")


class Load:
    """So many clients of a group, which have their procedure once they have begun. Each is a process, as a client's command is."""

    def __init__(self, machines: Machines, count: int, each: int) -> None:
        self._group = read_group(machines.folder)
        self._ready = FORK.Barrier(count + 1)
        self._told = FORK.SimpleQueue()  # when each call was asked, and its seconds; or why a client has ended
        self._left = count * each
        self.calls: list[Call] = []
        self._clients = [FORK.Process(target=self._run, args=(FIRST + n, each), daemon=True) for n in range(count)]
        for client in self._clients:
            client.start()
        try:
            self._ready.wait()
        except threading.BrokenBarrierError:
            raise RuntimeError(self._told.get()) from None
        self.began = time.monotonic()

    def _run(self, id: int, each: int) -> None:
        """A client."""
        try:
            caller = clients_of.Caller(self._group, self._group.member(CLIENT, id))
            caller.call(clients_of.install_operation(COUNTER, 1), PATIENCE)
            self._ready.wait()
            for _ in range(each):
                asked = time.monotonic()
                caller.call(CALL, PATIENCE)
                self._told.put((asked, time.monotonic() - asked))
            caller.close()
        except BaseException as fault:
            self._told.put(f"client {id}: {fault!r}")
            self._ready.abort()

    def hear(self) -> None:
        """Waits until one more call was answered."""
        told = self._told.get()
        if isinstance(told, str):
            raise RuntimeError(told)
        asked, seconds = told
        self.calls.append(Call(asked - self.began, seconds))
        self._left -= 1

    def wait(self) -> float:
        """Waits until all calls were answered, and returns how many seconds that took."""
        while self._left:
            self.hear()
        seconds = time.monotonic() - self.began
        for client in self._clients:
            client.join()
        return seconds


def _with_group(count: int, each: int, is_full: bool, then: Callable[[Machines, Load], Row | float]) -> tuple[Row | float, list[Call]]:
    session, clients_of.Session = clients_of.Session, clients_of.Session if is_full else Quick
    try:
        with Machines("10", count) as machines:
            machines.start(*REPLICAS, script="" if is_full else "../../bench/group_parts/quick.py")
            for id in REPLICAS:
                machines.wait_for(id, "begins")  # else a client has its first replies before all replicas listen
            load = Load(machines, count, each)
            told = then(machines, load)
            machines.stop(*[id for id, process in machines.replicas.items() if process.poll() is None])
            return told, load.calls
    finally:
        clients_of.Session = session


def measured(count: int, requests: int, is_full: bool) -> Row:
    """So many requests of so many clients."""
    seconds, calls = _with_group(count, max(1, requests // count), is_full, lambda _, load: load.wait())
    taken = sorted(1000 * call.seconds for call in calls)
    return Row(len(calls) / seconds, taken[len(taken) // 2], taken[99 * (len(taken) - 1) // 100])


def with_a_kill(count: int, requests: int) -> tuple[list[Call], float]:
    """The calls of so many clients, and when the primary was killed: once half of them were answered."""

    def kills(machines: Machines, load: Load) -> float:
        while len(load.calls) < requests // 2:
            load.hear()
        machines.kill(0)
        killed = time.monotonic() - load.began
        load.wait()
        return killed

    killed, calls = _with_group(count, max(1, requests // count), True, kills)
    return calls, killed
