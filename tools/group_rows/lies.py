"""Rows of members that lie, of files that aren't what they were, and of parties apart. Each has a group of its own, and says what it saw."""
from __future__ import annotations

import shutil
import sqlite3
import subprocess
import sys
from pathlib import Path

from counts import Counts
from machines import CLIENTS, COUNTER, PATIENCE, REPLICAS, Machines, expect, interval, started, wait_until

HERE = Path(__file__).resolve().parent


def liar(counts: Counts) -> str:
    """The primary is two: the others go on without it, and the audit names it."""
    with Machines(counts.heights) as machines:
        machines.start(1, 2, 3)
        machines.start(0, script="liar.py")
        wait_until((machines.folder / "0.ipc").exists, "the liar never listens")
        machines.install_both()
        machines.end_both(machines.call_both(5), 5)
        machines.kill(0)
        machines.stop(1, 2, 3)
        said = machines.said("audit", machines.folder, status=1)
        blamed = {line.split(" ")[1] for line in said.splitlines() if line.startswith("replica ") and "contradicts itself" in line}
        leaves = {line.split(" ")[1] for line in said.splitlines() if line.startswith("replica ") and "with leaf" in line}
        expect(blamed == leaves == {"0"}, f"the audit named {blamed} and {leaves}, not replica 0:\n{said}")
        expect("agree up to" in said, f"the others don't agree:\n{said}")
        return "replica 0 proposed two requests at one number; the audit names it, and nobody else"


def noise(counts: Counts) -> str:
    """Bytes at random, 9 MB, other members' messages again and with a bit flipped."""
    with Machines(counts.heights) as machines:
        started(machines)
        machines.call(100, 10)
        noise = [sys.executable, str(HERE / "noise.py"), str(machines.folder), "101", str(counts.noise)]
        machines.wait_until_quiet()
        before = machines.rows()
        subprocess.run(noise, check=True, timeout=2 * PATIENCE)
        machines.wait_until_quiet()
        grown = max(after - first for after, first in zip(machines.rows(), before))
        expect(grown <= 10, f"what came again took {grown} rows")
        running = machines.begin_calls(100, 10)
        subprocess.run(noise, check=True, timeout=2 * PATIENCE)
        machines.end_calls(100, running, 10)
        machines.stop()
        machines.audit()
        return f"{counts.noise} messages at random and all of a journal again took {grown} rows; every call was answered"


def refusals(counts: Counts) -> str:
    """What a replica doesn't start with."""
    with Machines(counts.heights) as machines, Machines(counts.heights) as other:
        started(machines)
        machines.call(100, 10)
        own, journal = machines.folder / "replica-2", machines.folder / "replica-2/journal.sqlite"
        machines.said("replica", machines.folder, 2, status=73)
        machines.stop(2)
        early = machines.folder / "early.sqlite"
        shutil.copy(journal, early)
        _refused_changed(machines, own, journal, other.folder)
        machines.start(2)
        machines.wait_for(2, "begins", 2)
        machines.call(100, 10)
        machines.kill(2)
        for path in own.glob("journal.sqlite*"):
            path.unlink()
        shutil.copy(early, journal)
        machines.said("replica", machines.folder, 2, status=76)
        for lost in ("journal.sqlite", "begun"):
            for path in own.glob(f"{lost}*"):
                path.unlink()
            expect("leaf" in machines.said("replica", machines.folder, 2, status=76), "it doesn't say why")
        for path in (machines.folder / "client-101").glob("session.sqlite*"):
            path.unlink()
        machines.said("call", machines.folder, 101, 0, status=76)
        machines.call(100, 10)
        machines.stop(0, 1, 3)
        return "a second process, another group's journal or seed, a changed, an older and a lost journal were refused"


def _refused_changed(machines: Machines, own: Path, journal: Path, other: Path) -> None:
    """Another group's journal or seed, a seed that all can read, a journal of another version, an output that was changed, a row that is
    missing."""
    kept = {path: path.read_bytes() for path in (journal, own / "seed")}
    (own / "seed").write_bytes((other / "replica-2/seed").read_bytes())
    machines.said("replica", machines.folder, 2, status=78)
    (own / "seed").write_bytes(kept[own / "seed"])
    (own / "seed").chmod(0o644)
    machines.said("replica", machines.folder, 2, status=78)
    (own / "seed").chmod(0o600)
    for change in (
        "UPDATE header SET configuration = zeroblob(32)",
        "UPDATE header SET version = version + 1",
        "UPDATE standing SET sum = zeroblob(32)",
        "DELETE FROM row WHERE number = 3",
        "UPDATE row SET message = (SELECT message FROM row WHERE number = 1) WHERE number = 9",
        "DELETE FROM row WHERE number > 20",
    ):
        base = sqlite3.connect(journal)
        with base:
            base.execute(change)
        base.close()
        machines.said("replica", machines.folder, 2, status=65)
        for path in own.glob("journal.sqlite*"):
            path.unlink()
        journal.write_bytes(kept[journal])


def wrong_order(counts: Counts) -> str:
    """A primary that sends before it commits is ended between the two. It is refused as it starts again; one that doesn't ask its peers signs twice
    with a leaf, and the audit names it."""
    with Machines(counts.heights) as machines:
        machines.start(1, 2, 3)
        machines.start(0, script="wrong_order.py")
        machines.wait_for(0, "begins")
        asking = subprocess.Popen(machines.command("install", machines.folder, 100, COUNTER), stdout=subprocess.DEVNULL)
        machines.others.append(asking)
        expect(machines.ended(0) == 9, "the primary didn't end between sending and committing")
        asking.kill()
        asking.wait()
        machines.said("replica", machines.folder, 0, status=76)
        machines.start(0, script="careless.py")
        machines.wait_for(0, "begins", 2)
        machines.install(101)
        machines.stop()
        said = machines.said("audit", machines.folder, status=1)
        expect("replica 0 signed two messages with leaf" in said, f"the audit doesn't name replica 0:\n{said}")
        expect(not any(f"replica {id} signed" in said or f"replica {id} contradicts" in said for id in (1, 2, 3)), f"the audit names others:\n{said}")
        return "a leaf signed twice, and the audit names the replica; one that asks its peers doesn't start"


def parties(counts: Counts) -> str:
    """Each party makes its own secrets, in a folder of its own, and gives its journal alone to an audit."""
    with Machines(counts.heights) as machines:
        entries, folders = {}, {}
        for name in [f"replica-{id}" for id in REPLICAS] + [f"client-{id}" for id in CLIENTS]:
            role, id = name.split("-")
            folders[name] = machines.folder / "parties" / name
            own = ["--address", f"ipc://{machines.folder}/party-{id}.ipc"] if role == "replica" else ["--tenant", "1"]
            entries[name] = machines.said("member", folders[name], role, id, "--heights", "5,5", *own)
        text = f"f = 1\nk = 8\ninterval = {interval():.2f}\n" + "\n".join(entries.values())
        for folder in folders.values():
            (folder / "group.toml").write_text(text)
        for id in REPLICAS:
            machines.folder = folders[f"replica-{id}"]
            machines.start(id)
        machines.folder = folders["client-100"]
        machines.install(100)
        machines.call(100, 10)
        machines.stop()
        given = [folders[f"replica-{id}"] for id in REPLICAS]
        said = machines.said("audit", *given)
        expect("replicas 0, 1, 2, 3 agree" in said, f"the audit says: {said}")
        number = _changed(*(given[id] / f"replica-{id}/journal.sqlite" for id in (0, 2)))
        said = machines.said("audit", *given, status=1)
        for what in ("was changed", f"replicas 0 and 2 executed different things at number {number}.", f"DON'T agree, first at number {number};"):
            expect(what in said, f"no {what!r} in what the audit of a changed journal says:\n{said}")
        return "six parties, each with its own secrets alone; an audit of four folders agrees, and tells where one was changed"


def _changed(journal: Path, changed: Path) -> int:
    """Gives a number that two replicas have executed another result in the second one's journal."""
    executed = "SELECT max(number) FROM done WHERE result IS NOT NULL"
    base = sqlite3.connect(changed)
    with base:
        base.execute("ATTACH ? AS other", (str(journal),))
        (number,) = base.execute(f"{executed} AND number IN (SELECT number FROM other.done WHERE result IS NOT NULL)").fetchone()
        base.execute("UPDATE main.done SET result = zeroblob(3) WHERE number = ? AND result IS NOT NULL", (number,))
    base.close()
    return number
