"""A replica whose journal isn't on the disk before anything is sent: only a measure of what waiting for the disk costs."""
from __future__ import annotations

import sys
from pathlib import Path

sys.path.insert(0, str(Path(__file__).resolve().parents[2] / "tools/group_rows"))
import parts_path  # noqa: E402, F401
import replica  # noqa: E402
from faults import GroupFault  # noqa: E402
from journal import Header, Journal  # noqa: E402


class Quick(Journal):
    """It is written whenever the system likes."""

    def __init__(self, folder: Path, header: Header) -> None:
        super().__init__(folder, header)
        self._base.execute("PRAGMA synchronous=OFF")


if __name__ == "__main__":
    replica.Journal = Quick
    try:
        sys.exit(replica.run_replica(Path(sys.argv[1]), int(sys.argv[2])))
    except GroupFault as fault:
        sys.exit(fault.status)
