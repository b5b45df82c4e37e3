"""A replica that doesn't mind that its peers know more signatures of it than its journal, and so signs twice with a leaf."""
from __future__ import annotations

import sys
from pathlib import Path

import parts_path  # noqa: F401
from faults import GroupFault, LostMemory
from keeper import Keeper
from messages import Part
from replica import run_replica


def careless(keeper: Keeper, parts: list[Part]) -> None:
    """Passes over a message that shows a lost memory."""
    try:
        _look(keeper, parts)
    except LostMemory:
        pass


_look, Keeper.look = Keeper.look, careless

if __name__ == "__main__":
    try:
        sys.exit(run_replica(Path(sys.argv[1]), int(sys.argv[2])))
    except GroupFault as fault:
        sys.exit(fault.status)
