"""A whole group in one terminal: four replicas as processes, a client that calls a counter, replicas that are killed and come back, and an
audit."""
from __future__ import annotations

import signal
import subprocess
import sys
import tempfile
import time
from pathlib import Path

COUNTER = Path(__file__).resolve().parents[1] / "procedures/counter.hex"
CALLS = 6


class Demo:
    """The group in a folder, and its processes."""

    def __init__(self, command: Path, folder: Path) -> None:
        self._command, self._folder = command, folder
        self._replicas: dict[int, subprocess.Popen] = {}

    def run(self, *words: str) -> None:
        """Runs a command in sight; one that fails ends the demo."""
        print(f"$ group {' '.join(words)}", flush=True)
        subprocess.run([sys.executable, self._command, *words], check=True)

    def start(self, id: int) -> None:
        log = open(self._folder / f"replica-{id}.log", "a", encoding="utf-8")
        with log:
            self._replicas[id] = subprocess.Popen([sys.executable, self._command, "replica", self._folder, str(id)], stdout=log, stderr=log)

    def kill(self, id: int) -> None:
        self._replicas[id].kill()
        self._replicas[id].wait()

    def call(self, client: int, amount: int) -> None:
        args = (7).to_bytes(8, "little") + amount.to_bytes(8, "little")
        self.run("call", str(self._folder), str(client), "0", "--args", args.hex(), "--repeat", str(CALLS))

    def play(self) -> None:
        folder = str(self._folder)
        self.run("init", folder, "--heights", "5,5", "--address", "ipc", "--interval", "1.5")
        say("four replicas start, each a process with a journal")
        for id in range(4):
            self.start(id)
        self.run("install", folder, "100", str(COUNTER))
        self.call(100, 1)
        say("replica 3 is killed; the others go on without it")
        self.kill(3)
        self.call(100, 1)
        say("replica 3 starts again: it takes its journal again, and is told what it missed")
        self.start(3)
        say("replica 0, which orders the requests, is killed; the others change to the next view")
        self.kill(0)
        self.call(100, 1)
        say("replica 0 starts again")
        self.start(0)
        self.call(100, 1)
        self.end()
        self.run("status", folder)
        self.run("audit", folder)

    def end(self) -> None:
        """Ends all processes that this one started."""
        for process in self._replicas.values():
            process.send_signal(signal.SIGTERM)
        for process in self._replicas.values():
            process.wait(timeout=20)


def say(what: str) -> None:
    print(f"# {what}", flush=True)


def run_demo(command: Path) -> int:
    """The command `group demo`."""
    began = time.monotonic()
    with tempfile.TemporaryDirectory(prefix="group-") as folder:
        demo = Demo(command, Path(folder))
        try:
            demo.play()
        except subprocess.CalledProcessError as fault:
            say(f"this command ended with status {fault.returncode}; the replicas' logs say more")
            return 1
        finally:
            demo.end()
    say(f"the demo took {time.monotonic() - began:.0f} s")
    return 0
