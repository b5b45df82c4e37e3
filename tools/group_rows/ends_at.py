"""A replica that ends at an instant of its own: at the tenth commit, step or sending, before or behind it."""
from __future__ import annotations

import os
import sys
import time
from pathlib import Path

import parts_path  # noqa: F401
from bpf_host_replica import Message
from faults import GroupFault
from journal import Row, Step
from replica import Process, run_replica

ENDED = 9
AT = 10
INSTANTS = ("before commit", "behind commit", "behind step", "before sending", "behind sending")


class Ends(Process):
    """Counts what is done at its instant, and ends there."""

    instant = ""

    def run(self) -> None:
        self.left = AT
        commit, step = self.keeper.journal.commit, self.keeper._step

        def committed(rows: list[Row], steps: list[Step]) -> None:
            self.end("before commit")
            commit(rows, steps)
            self.end("behind commit")

        def stepped(row: Row) -> Step:
            taken = step(row)
            self.end("behind step")
            return taken

        self.keeper.journal.commit, self.keeper._step = committed, stepped
        super().run()

    def send(self, messages: list[Message]) -> None:
        if not messages:
            return
        self.end("before sending")
        super().send(messages)
        if self.instant == "behind sending" and self.left == 1:
            time.sleep(0.3)  # ZeroMQ's own thread sends
        self.end("behind sending")

    def end(self, instant: str) -> None:
        self.left -= instant == self.instant
        if not self.left:
            os._exit(ENDED)


if __name__ == "__main__":
    Ends.instant = sys.argv[3]
    try:
        sys.exit(run_replica(Path(sys.argv[1]), int(sys.argv[2]), Ends))
    except GroupFault as fault:
        sys.exit(fault.status)
