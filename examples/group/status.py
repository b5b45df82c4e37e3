"""Where the replicas stand whose folders are here, as their journals told last."""
from __future__ import annotations

import shutil
import sqlite3
from pathlib import Path

from bpf_host_replica import Status
from configuration import Group, Member, read_group
from journal import NAME, holder
from messages import leaves_of


def run_status(folder: Path) -> int:
    """The command `group status`."""
    group = read_group(folder)
    for member in group.replicas:
        own = group.folder_of(member)
        if own.is_dir():
            print(_line(group, member, own))
    for member in group.clients:
        own = group.folder_of(member)
        if own.is_dir():
            print(f"{member.name}: {_used(own)} of {leaves_of(member.heights)} leaves used")
    return 0


def _line(group: Group, member: Member, own: Path) -> str:
    process = holder(own)
    runs = f"runs as process {process}" if process else "doesn't run"
    stands = _stands(own / NAME)
    if not stands:
        return f"{member.name}: {runs}, has no journal yet"
    rows, view, active, low, executed, leaves, halted = stands
    left = leaves_of(member.heights) if leaves < 0 else leaves
    size = sum(path.stat().st_size for path in own.glob(f"{NAME}*"))
    free = shutil.disk_usage(own).free
    ended = f", halted for good ({Status(halted).name})" if halted else ""
    return (f"{member.name}: {runs}, view {view} {'active' if active else 'changing'}, low {low}, executed {executed}{ended}, {rows} rows, "
            f"{left} leaves left, journal {size / 1e6:.1f} MB, {free / 1e9:.1f} GB of disk left")


def _stands(path: Path) -> tuple | None:
    if not path.exists():
        return None
    try:
        base = sqlite3.connect(f"file:{path}?mode=ro", uri=True)
        words = "(SELECT coalesce(max(number), 0) FROM row), view, active, low, executed, leaves, halted"
        return base.execute(f"SELECT {words} FROM standing").fetchone()
    except sqlite3.Error:
        return None


def _used(own: Path) -> int:
    path = own / "session.sqlite"
    if not path.exists():
        return 0
    base = sqlite3.connect(f"file:{path}?mode=ro", uri=True)
    return base.execute("SELECT count(*) FROM request").fetchone()[0]
