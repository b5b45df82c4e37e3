"""Rows of processes that end, stand still or run out of something. Each has a group of its own, and says what it saw."""
from __future__ import annotations

import random
import signal
import subprocess
import time

from counts import Counts
from ends_at import ENDED, INSTANTS
from machines import CLIENTS, PATIENCE, REPLICAS, Machines, expect, started


def _came_back(machines: Machines, begun: int, id: int = 2) -> list[int]:
    """A replica that has begun so often goes on: once calls were answered it stands near the others, and the audit agrees."""
    machines.wait_for(id, "begins", begun)
    machines.call(100, 10)
    machines.wait_until_near(id)
    machines.stop()
    machines.audit()
    return machines.executed()


def requests(counts: Counts) -> str:
    with Machines(counts.heights) as machines:
        started(machines)
        began = time.monotonic()
        each = counts.requests // len(CLIENTS)
        machines.end_both(machines.call_both(each), each)
        seconds = time.monotonic() - began
        machines.stop()
        machines.audit()
        expect(max(machines.executed()) >= counts.requests + 2, "a number is missing")
        return f"{counts.requests} requests of two clients in {seconds:.1f} s"


def kills(counts: Counts) -> str:
    """One replica is killed at random instants, and started again each time, while calls go on."""
    with Machines(counts.heights) as machines:
        started(machines)
        chance = random.Random("kills")
        done = begun = 0
        while done < counts.kills:
            running = machines.call_both(10)
            while any(process.poll() is None for process in running) and done < counts.kills:
                if done % 2:
                    machines.wait_for(2, "begins", begun + 1)
                time.sleep(chance.uniform(0.05, 2.0))
                begun = machines.count(2, "begins")
                machines.kill(2)
                machines.start(2)
                done += 1
            machines.end_both(running, 10)
        return f"replica 2 was killed {done} times; the replicas stand at {_came_back(machines, begun + 1)}"


def instants(counts: Counts) -> str:
    """One replica ends before and behind each thing that it does, and is started again each time."""
    with Machines(counts.heights) as machines:
        started(machines)
        for instant in INSTANTS:
            machines.kill(2)
            begun = machines.count(2, "begins")
            machines.start(2, script="ends_at.py", word=instant)
            machines.wait_for(2, "begins", begun + 1)
            for _ in range(20):
                machines.call(100, 2)
                if machines.replicas[2].poll() is not None:
                    break
            expect(machines.ended(2) == ENDED, f"replica 2 didn't end {instant}")
            machines.start(2)
        return f"replica 2 ended {', '.join(INSTANTS)}; the replicas stand at {_came_back(machines, begun + 2)}"


def primary(counts: Counts) -> str:
    """The primary is killed, and away for a while."""
    with Machines(counts.heights) as machines:
        started(machines)
        machines.kill(0)
        running = machines.call_both(10)
        machines.wait_for(1, "view", 2)
        time.sleep(counts.away)
        machines.start(0)
        machines.end_both(running, 10)
        machines.call(100, 10)
        executed = _came_back(machines, 2, id=0)
        views = [line["view"] for id in REPLICAS for line in machines.lines(id) if line["what"] == "view"]
        return f"replica 0 was away until the others had changed their view; view {max(views, default=0)}, {executed}"


def all_killed(counts: Counts) -> str:
    """All four are killed at once, and started again."""
    with Machines(counts.heights) as machines:
        started(machines)
        chance = random.Random("all")
        for _ in range(counts.rounds):
            running = machines.call_both(5)
            time.sleep(chance.uniform(0.1, 1.0))
            machines.kill(*REPLICAS)
            machines.start(*REPLICAS)
            machines.end_both(running, 5)
        machines.call(101, 5)
        machines.stop()
        machines.audit()
        return f"all were killed as they worked, {counts.rounds} times; the replicas stand at {machines.executed()}"


def client_killed(counts: Counts) -> str:
    """A client's command is killed as it waits, again and again; the next one goes on with the same bytes."""
    with Machines(counts.heights) as machines:
        started(machines)
        chance = random.Random("client")
        for _ in range(max(2, counts.kills // 4)):
            process = machines.begin_calls(100, 1000)
            expect(bool(process.stdout and process.stdout.readline()), "client 100 has no reply")
            time.sleep(chance.uniform(0.0, 0.5))
            process.kill()
            process.wait()
        text = machines.said("call", machines.folder, 100, 0, "--args", (bytes(8) + (1).to_bytes(8, "little")).hex())
        last = text.strip().splitlines()[-1].split()
        counted = int.from_bytes(bytes.fromhex(last[7])[9:17], "little")
        expect(counted == int(last[3]) - 1, f"client 100 asked {last[3]} times, and its counter stands at {counted}")
        machines.stop()
        machines.audit()
        return f"client 100's command was killed again and again; each of {counted} calls counted once"


def deaf(counts: Counts) -> str:
    """A replica reads nothing for a while; then it does."""
    with Machines(counts.heights) as machines:
        started(machines)
        machines.replicas[3].send_signal(signal.SIGSTOP)
        each = min(counts.requests, 300) // 2
        machines.end_both(machines.call_both(each), each)
        machines.replicas[3].send_signal(signal.SIGCONT)
        machines.call(100, 10)
        return f"replica 3 read nothing for {2 * each} requests, then went on: {_came_back(machines, 1, id=3)}"


def full_disk(counts: Counts) -> str:
    """A journal's disk is full: the process ends with a sentence, and comes back once there is room."""
    with Machines(counts.heights) as machines:
        machines.start(0, 1, 3)
        machines.start(2, limit=300_000)
        machines.install_both()
        machines.call(100, 20)
        status = machines.ended(2)
        expect(status == 74, f"replica 2 ended with status {status}, not 74")
        why = machines.lines(2)[-1]["why"]
        expect("can't be written" in why, f"replica 2 ended with: {why}")
        machines.start(2)
        return f"replica 2 ended as its journal had no room, and went on later: {_came_back(machines, 2)}"


def no_memory(counts: Counts) -> str:
    """Memory runs out as a replica takes a row: the process ends, and takes the row as it is started again."""
    with Machines(counts.heights) as machines:
        machines.start(0, 1, 3)
        machines.start(2, script="no_memory.py")
        machines.install_both()
        machines.call(100, 10)
        status = machines.ended(2)
        expect(status == 75, f"replica 2 ended with status {status}, not 75")
        machines.start(2)
        return f"replica 2 ended at a row for lack of memory, and took it again: {_came_back(machines, 2)}"


def spent(counts: Counts) -> str:
    """Keys of 32 leaves come to their end: the commands say so."""
    with Machines("5,0") as machines:
        started(machines)
        answered, ended = 2, []
        while len(ended) < 2 and answered < 32:
            process = subprocess.run([*machines.call_words(100, 20)[:-1], "8"], capture_output=True, text=True, timeout=PATIENCE)
            expect(process.returncode == 70, f"the client's command ended with status {process.returncode}")
            answered += len(process.stdout.splitlines())
            ended = [id for id in REPLICAS if machines.count(id, "ends")]
        statuses = {machines.ended(id) for id in ended}
        expect(statuses == {77}, f"replicas {ended} ended with {statuses}")
        machines.said("replica", machines.folder, ended[0], status=77)
        machines.stop(*[id for id in REPLICAS if machines.replicas[id].poll() is None])
        machines.audit()
        return f"{answered} requests, then {len(ended)} replicas ended for good, and do so again"
