"""Four replicas and two clients in one process, and a network between them that loses messages, repeats them and changes their
order, drawn by a seed. In each of the ways below the clients call a counter in turn until all their calls are answered; then the
replicas that aren't faulty are compared.

    loss       a twentieth of the messages is lost, and as many come twice
    silent     replica 3 says nothing
    primary    replica 0, the first primary, says nothing, so that the others go on to the next view
    liar       replica 3 is two, of one seed: one for replica 0 and client 100, one for the others
    restart    replicas 1 and 3 end again and again, and begin anew with what they have written down

    tools/c-library && BPF_HOST_REPLICA=out/c-library/libbpf_host_replica.so PYTHONPATH=examples/python \\
        python3 examples/embedded_group/group.py [CALLS [SEED]]"""
from __future__ import annotations

import pathlib
import random
import sys
from collections.abc import Callable
from functools import partial

from bpf_host_replica import Client, Configuration, GroupError, Message, Replica, Seed, To, Votes

COUNTER = pathlib.Path(__file__).resolve().parents[1] / "procedures/counter.hex"
REPLICAS, CLIENTS = range(4), (100, 101)
# Behind the last call the network loses nothing. A replica that was left behind takes over a state at a checkpoint: at most so many
# more calls are made until all stand at one number.
MAX_CLOSING = 64


def seed_of(number: int) -> Seed:
    """The seed of a replica or a client. One that is to be kept secret comes from `secrets.token_bytes`."""
    return Seed(bytes([number]) * 16, bytes([number]) * 32, top=5, bottom=10)


def argument(number: int) -> bytes:
    return number.to_bytes(8, "little")


def step(replica: Replica, message: bytes | None) -> list[Message]:
    """What a replica gives for a message, or for a timeout."""
    return replica.timeout() if message is None else replica.take(message)


class Honest:
    """A replica that is one, with the votes that came early for it."""

    is_faulty = False
    begins: Callable[..., Replica] = Replica

    def __init__(self, make: Callable[[], Replica], votes: Votes):
        self.replicas, self.votes = [make()], votes

    def take(self, sender: int, message: bytes) -> list[tuple[int | None, Message]]:
        """What it gives for a message of this sender, and to whom alone of those that it is for."""
        if self.votes.hold(message):
            return []
        outputs = self._step(message)
        while vote := self.votes.next():
            outputs = outputs + self._step(vote)
        return [(None, output) for output in outputs]

    def timeout(self) -> list[tuple[int | None, Message]]:
        return [(None, output) for output in self._step(None)]

    def _step(self, message: bytes | None) -> list[Message]:
        outputs = step(self.replicas[0], message)
        self.votes.move(self.replicas[0].standing())
        return outputs


class Restarted(Honest):
    """One that ends at each hundredth message or timeout, when it has written that down and not yet taken it, and begins anew: with the
    seed and the leaf that it had, it takes all that was written down. What it gave before it gives again, byte for byte, signatures
    included, so nothing that it said is contradicted and no leaf signs a second message."""

    INTERVAL = 100
    begins = Replica.replay

    def __init__(self, make: Callable[[], Replica], votes: Votes):
        super().__init__(make, votes)
        self.make = make
        self.journal: list[bytes | None] = []  # messages; None for a timeout
        self.given: list[list[Message]] = []

    def _step(self, message: bytes | None) -> list[Message]:
        self.journal.append(message)
        if len(self.journal) % self.INTERVAL == 0:
            self._begin_again()
        else:
            self.given.append(step(self.replicas[0], message))
        self.votes.move(self.replicas[0].standing())
        return self.given[-1]

    def _begin_again(self) -> None:
        replica = self.make()
        given = [step(replica, message) for message in self.journal]
        assert given[:-1] == self.given, "a replica gave something else as it took the same again"
        self.replicas, self.given = [replica], given


class Silent(Honest):
    """One that takes everything and says nothing."""

    is_faulty = True

    def take(self, sender: int, message: bytes) -> list[tuple[int | None, Message]]:
        return []

    def timeout(self) -> list[tuple[int | None, Message]]:
        return []


class Liar(Honest):
    """Two replicas of one seed. What replica 0 and client 100 say is heard by the first, which speaks to them; what the others say by
    the second, which speaks to the others: leaves sign twice, and votes for one number differ."""

    is_faulty = True

    def __init__(self, make: Callable[[], Replica], votes: Votes):
        self.replicas = [make(), make()]

    def take(self, sender: int, message: bytes) -> list[tuple[int | None, Message]]:
        half = self._half(sender)
        return [(half, output) for output in self.replicas[half].take(message)]

    def timeout(self) -> list[tuple[int | None, Message]]:
        return [(half, output) for half in (0, 1) for output in self.replicas[half].timeout()]

    @staticmethod
    def _half(who: int) -> int:
        return 0 if who in (0, 100) else 1


class Group:
    """The members, and the messages that are on their way."""

    def __init__(self, kinds: dict[int, type[Honest]], loss: float, seed: int):
        self.draw, self.loss = random.Random(seed), loss
        seeds = {who: seed_of(who) for who in (*REPLICAS, *CLIENTS)}
        clients = {who: (who - 99, seeds[who].public_key()) for who in CLIENTS}
        config = Configuration(1, 8, [seeds[who].public_key() for who in REPLICAS], clients)
        self.faulty = {who for who, kind in kinds.items() if kind.is_faulty}
        self.members = {}
        for who in REPLICAS:
            kind = kinds.get(who, Honest)
            self.members[who] = kind(partial(kind.begins, config, who, seeds[who]), Votes(config))
        self.clients = {who: Client(config, who, seeds[who]) for who in CLIENTS}
        self.on_the_way: list[tuple[int, int, bytes]] = []  # from, to, bytes
        self.timeouts = self.lost = 0

    def post(self, sender: int, to: int, message: bytes) -> None:
        """Puts a message on its way: once, twice, or not at all."""
        drawn = self.draw.random()
        if drawn < self.loss:
            self.lost += 1
            return
        self.on_the_way.append((sender, to, message))
        if drawn > 1 - self.loss:
            self.on_the_way.append((sender, to, message))

    def send(self, sender: int, outputs: list[tuple[int | None, Message]]) -> None:
        for half, output in outputs:
            if output.to == To.ALL:
                to = [who for who in REPLICAS if who != sender]
            else:
                to = [output.id]
            for who in to:
                if half is None or Liar._half(who) == half:
                    self.post(sender, who, output.bytes)

    def deliver(self) -> None:
        """Delivers one of the messages on their way."""
        place = self.draw.randrange(len(self.on_the_way))
        self.on_the_way[place], self.on_the_way[-1] = self.on_the_way[-1], self.on_the_way[place]
        sender, to, message = self.on_the_way.pop()
        if to in self.clients:
            self.clients[to].hear(message)
            return
        try:
            self.send(to, self.members[to].take(sender, message))
        except GroupError:
            if to not in self.faulty:
                raise

    def call(self, client: int, operation: bytes) -> bytes:
        """Asks, delivers until the reply is accepted, and returns its result. Where nothing is on its way any more, the client asks
        again, and the replicas time out."""
        session = self.clients[client]
        request = session.request(operation)
        for attempt in range(1000):
            for who in REPLICAS:
                self.post(client, who, request)
            while self.on_the_way:
                accepted = session.accepted()
                if accepted:
                    return accepted.result
                self.deliver()
            if accepted := session.accepted():
                return accepted.result
            if attempt % 2:
                self.timeouts += 1
                for who in REPLICAS:
                    self.send(who, self.members[who].timeout())
        raise SystemExit(f"client {client} got no reply")

    def stand_together(self) -> bool:
        """Delivers all that is on its way. Whether the replicas that aren't faulty have then executed as many requests."""
        while self.on_the_way:
            self.deliver()
        return len({executed for executed, _ in self.states()}) == 1

    def states(self) -> list[tuple[int, bytes]]:
        """How far the replicas are that aren't faulty, and their states."""
        honest = [self.members[who].replicas[0] for who in REPLICAS if who not in self.faulty]
        return [(replica.standing().executed, replica.state()) for replica in honest]


def run(name: str, kinds: dict[int, type[Honest]], loss: float, calls: int, seed: int) -> bool:
    group = Group(kinds, loss, seed)
    code = bytes.fromhex(COUNTER.read_text())
    counts = dict.fromkeys(CLIENTS, 0)
    for client in CLIENTS:
        assert group.call(client, b"\x01" + code) == bytes(5)
    for number in range(calls + MAX_CLOSING):
        if number >= calls:
            group.loss = 0.0
            if group.stand_together():
                break
        client = CLIENTS[number % len(CLIENTS)]
        counts[client] += number
        result = group.call(client, b"\x02" + bytes(4) + argument(0) + argument(number))
        assert result[9:17] == argument(counts[client]), result.hex()
    states = group.states()
    views = max(group.members[who].replicas[0].standing().view for who in REPLICAS if who not in group.faulty)
    same = len(set(states)) == 1
    print(f"{name}: {calls} calls answered, view {views}; {len(states)} replicas at {states[0][0]} with {'the same state' if same else 'DIFFERENT states'}")
    return same


def main() -> int:
    calls = int(sys.argv[1]) if len(sys.argv) > 1 else 300
    seed = int(sys.argv[2]) if len(sys.argv) > 2 else 1
    ways = {"loss": ({}, 0.05), "silent": ({3: Silent}, 0.02), "primary": ({0: Silent}, 0.02), "liar": ({3: Liar}, 0.02),
            "restart": ({1: Restarted, 3: Restarted}, 0.05)}
    same = [run(name, kinds, loss, calls, seed) for name, (kinds, loss) in ways.items()]
    return 0 if all(same) else 1


if __name__ == "__main__":
    sys.exit(main())
