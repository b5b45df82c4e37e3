"""A replica that sends before it commits, and ends between the two where it has signed a proposal: the order that is not to be."""
from __future__ import annotations

import os
import sqlite3
import sys
import time
from pathlib import Path

import parts_path  # noqa: F401
from bpf_host_replica import Message
from faults import GroupFault
from journal import NAME, Journal, Row, Step
from messages import Kind, part_of
from replica import Process, run_replica

ENDED = 9


class Late:
    """A journal that is written when it is told to, behind what it should stand before."""

    def __init__(self, journal: Journal) -> None:
        self._journal, self._owed = journal, []

    def commit(self, rows: list[Row], steps: list[Step]) -> None:
        self._owed.append((rows, steps))

    def catch_up(self) -> None:
        for rows, steps in self._owed:
            self._journal.commit(rows, steps)
        self._owed.clear()

    def close(self) -> None:
        self.catch_up()
        self._journal.close()


def _is_known(path: Path, message: bytes) -> bool:
    """Whether a replica with this journal has taken a message."""
    base = sqlite3.connect(f"file:{path}?mode=ro", uri=True)
    try:
        return base.execute("SELECT count(*) FROM row WHERE message = ?", (message,)).fetchone()[0] > 0
    finally:
        base.close()


class WrongOrder(Process):
    """Takes, sends, and only then commits."""

    def run(self) -> None:
        self.keeper.journal = Late(self.keeper.journal)
        super().run()

    def send(self, messages: list[Message]) -> None:
        super().send(messages)
        for message in messages:
            if part_of(message.bytes).kind == Kind.PRE_PREPARE:
                while not _is_known(self.keeper.group.folder / "replica-1" / NAME, message.bytes):
                    time.sleep(0.05)
                os._exit(ENDED)
        self.keeper.journal.catch_up()


if __name__ == "__main__":
    try:
        sys.exit(run_replica(Path(sys.argv[1]), int(sys.argv[2]), WrongOrder))
    except GroupFault as fault:
        sys.exit(fault.status)
