"""A replica for which memory runs out at its 40th message: the library says so, and has done nothing."""
from __future__ import annotations

import sys
from pathlib import Path

import parts_path  # noqa: F401
from bpf_host_replica import GroupError, Message, Replica, Status
from faults import GroupFault
from replica import run_replica

AT = 40


def take(replica: Replica, message: bytes) -> list[Message]:
    """Takes a message, but for one."""
    replica.taken = getattr(replica, "taken", 0) + 1
    if replica.taken == AT:
        raise GroupError(Status.MEMORY)
    return _take(replica, message)


_take, Replica.take = Replica.take, take

if __name__ == "__main__":
    try:
        sys.exit(run_replica(Path(sys.argv[1]), int(sys.argv[2])))
    except GroupFault as fault:
        sys.exit(fault.status)
