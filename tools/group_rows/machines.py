"""A group in a folder of its own, whose replicas are processes that a row starts, kills and starts again."""
from __future__ import annotations

import functools
import json
import re
import signal
import subprocess
import sys
import tempfile
import time
from collections.abc import Callable
from pathlib import Path

import parts_path  # noqa: F401

TOP = Path(__file__).resolve().parents[2]
GROUP = TOP / "examples/group/group"
COUNTER = TOP / "examples/procedures/counter.hex"
REPLICAS, CLIENTS = range(4), (100, 101)
PATIENCE = 300  # seconds for whatever is waited for: a state, never a time. It is used up only where a row fails


@functools.cache
def interval() -> float:
    """The seconds of a group's first timeout: 1.5, and more on a machine that is slow or busy now. A request costs a replica some thirty
    signatures, made and verified; a key of 32 leaves some thousand."""
    from bpf_host_replica import Seed

    began = time.monotonic()
    for number in range(3):
        Seed(bytes([number]) * 16, bytes([number]) * 32, top=5).public_key()
    return max(1.5, 6 * (time.monotonic() - began))


class RowFailed(Exception):
    """What a row expects isn't so."""


def expect(test: bool, what: str) -> None:
    if not test:
        raise RowFailed(what)


def wait_until(test: Callable[[], bool], what: str, pause: float = 0.05) -> None:
    """Waits until something is so."""
    until = time.monotonic() + PATIENCE
    while not test():
        expect(time.monotonic() < until, what)
        time.sleep(pause)


class Machines:
    """Four replicas and two clients. What it starts, it ends, by its number."""

    def __init__(self, heights: str, clients: int = len(CLIENTS)) -> None:
        self._room = tempfile.TemporaryDirectory(prefix="group-")
        self.folder = Path(self._room.name)
        self.replicas: dict[int, subprocess.Popen] = {}
        self.others: list[subprocess.Popen] = []
        self.counts = dict.fromkeys(CLIENTS, 0)
        words = ["--heights", heights, "--interval", f"{interval():.2f}", "--address", "ipc", "--clients", clients]
        self.said("init", self.folder, *words)

    def __enter__(self) -> Machines:
        return self

    def __exit__(self, *_: object) -> None:
        for process in [*self.replicas.values(), *self.others]:
            if process.poll() is None:
                process.send_signal(signal.SIGCONT)
                process.kill()
                process.wait()
        self._room.cleanup()

    # ---- commands

    def command(self, *words: object) -> list[str]:
        return [sys.executable, str(GROUP), *map(str, words)]

    def said(self, *words: object, status: int = 0) -> str:
        """What a command prints that ends with this status."""
        done = subprocess.run(self.command(*words), capture_output=True, text=True, timeout=2 * PATIENCE)
        why = done.stderr.strip() or done.stdout.strip()
        expect(done.returncode == status, f"`group {words[0]}` ended with status {done.returncode}, not {status}: {why}")
        return done.stdout + done.stderr

    # ---- replicas

    def log_of(self, id: int) -> Path:
        return self.folder / f"replica-{id}.log"

    def start(self, *ids: int, script: str = "", word: str = "", limit: int = 0) -> None:
        """Starts replicas: by `group replica`, or by a script of this folder and a word for it. A limit is one of the size of files, in
        bytes."""
        for id in ids:
            words = self.command("replica", self.folder, id)
            if script:
                words = [sys.executable, str(Path(__file__).parent / script), str(self.folder), str(id), word]
            if limit:
                words = ["bash", "-c", f"ulimit -f {limit // 1024}; exec \"$@\"", "bash", *words]
            with open(self.log_of(id), "a", encoding="utf-8") as log:
                self.replicas[id] = subprocess.Popen(words, stdout=log, stderr=log)

    def kill(self, *ids: int) -> None:
        for id in ids:
            self.replicas[id].kill()
        for id in ids:
            self.replicas[id].wait()

    def stop(self, *ids: int) -> None:
        """Tells replicas to end, and waits until they have."""
        for id in ids or self.replicas:
            self.replicas[id].terminate()
        for id in ids or list(self.replicas):
            self.replicas[id].wait(timeout=PATIENCE)

    def ended(self, id: int) -> int:
        """The status with which a replica's process ended."""
        return self.replicas[id].wait(timeout=PATIENCE)

    def lines(self, id: int) -> list[dict]:
        """What a replica's process has logged."""
        return [json.loads(line) for line in self.log_of(id).read_text().splitlines() if line.startswith("{")]

    def count(self, id: int, what: str) -> int:
        """How many lines of this kind a replica's log has."""
        return sum(line["what"] == what for line in self.lines(id))

    def wait_for(self, id: int, what: str, count: int = 1) -> None:
        """Waits until a replica's log has so many lines of this kind."""
        wait_until(lambda: self.count(id, what) >= count, f"replica {id} never said {what!r}")

    # ---- clients

    def install(self, client: int) -> None:
        text = self.said("install", self.folder, client, COUNTER, "--seconds", PATIENCE)
        expect(text.strip().endswith("0000000000"), f"client {client}'s install came to {text}")

    def install_both(self) -> None:
        """Each client installs its counter, both at once."""
        words = [self.command("install", self.folder, client, COUNTER, "--seconds", PATIENCE) for client in CLIENTS]
        for process in [subprocess.Popen(it, stdout=subprocess.PIPE, text=True) for it in words]:
            self.others.append(process)
            expect(process.communicate(timeout=2 * PATIENCE)[0].strip().endswith("0000000000"), "an install came to something else")

    def call_words(self, client: int, count: int) -> list[str]:
        args = (0).to_bytes(8, "little") + (1).to_bytes(8, "little")
        return self.command("call", self.folder, client, 0, "--args", args.hex(), "--repeat", count, "--seconds", PATIENCE)

    def begin_calls(self, client: int, count: int) -> subprocess.Popen:
        """A command that counts so often, which runs on."""
        process = subprocess.Popen(self.call_words(client, count), stdout=subprocess.PIPE, stderr=subprocess.PIPE, text=True)
        self.others.append(process)
        return process

    def end_calls(self, client: int, process: subprocess.Popen, count: int) -> None:
        """Waits until all calls were answered, each with a count that is one more."""
        out, err = process.communicate(timeout=2 * PATIENCE + 10 * count)
        expect(process.returncode == 0, f"client {client}: {err.strip()}")
        results = [line.split()[-1] for line in out.splitlines()]
        expect(len(results) == count, f"client {client} has {len(results)} replies for {count} calls")
        for result in results:
            self.counts[client] += 1
            told = int.from_bytes(bytes.fromhex(result)[9:17], "little")
            expect(told == self.counts[client], f"client {client} was told {told}, and had counted {self.counts[client]}")

    def call(self, client: int, count: int) -> None:
        self.end_calls(client, self.begin_calls(client, count), count)

    def call_both(self, count: int) -> list[subprocess.Popen]:
        return [self.begin_calls(client, count) for client in CLIENTS]

    def end_both(self, processes: list[subprocess.Popen], count: int) -> None:
        for client, process in zip(CLIENTS, processes):
            self.end_calls(client, process, count)

    # ---- what comes of it

    def audit(self) -> None:
        """The audit agrees, and nobody is blamed."""
        self.said("audit", self.folder)

    def executed(self) -> list[int]:
        """Up to which number each replica has executed, as its journal told last."""
        return [int(number) for number in re.findall(r"executed (\d+)", self.said("status", self.folder))]

    def wait_until_near(self, id: int) -> None:
        """Waits until a replica stands no further behind the others than they keep what it lacks: what was lost is sent again at ticks."""
        wait_until(lambda: self.executed()[id] >= max(self.executed()) - 16, f"replica {id} stays behind", 1.0)

    def wait_until_quiet(self) -> None:
        """Waits until no replica writes down what it takes any more."""
        seen: list[list[int]] = []
        wait_until(lambda: seen.append(self.rows()) or (len(seen) > 2 and seen[-1] == seen[-3]), "the replicas never come to rest", 1.0)

    def rows(self) -> list[int]:
        """How many rows each replica's journal has."""
        return [int(number) for number in re.findall(r"(\d+) rows", self.said("status", self.folder))]


def started(machines: Machines) -> None:
    """A group that runs, and in which each client has its counter."""
    machines.start(*REPLICAS)
    machines.install_both()
