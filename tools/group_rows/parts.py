"""The parts of examples/group that need no group: messages made by hand, what is sent again, whom two messages blame, whose deeds differ."""
from __future__ import annotations

import tempfile
from collections.abc import Callable

import parts_path  # noqa: F401
import audit as journals
import zmq
from bpf_host_replica import Audit, Client, Configuration, Executed, Installed, Repeats, Replica, Seed, To
from configuration import Member
from machines import RowFailed, expect, wait_until
from messages import CLIENT, REPLICA, Kind, Malformed, leaf_of, part_of, parts_of
from replica import Doubling
from transport import MAX_IN_FRAME, MAX_TOGETHER, Came, Inbox, Outbox, Tag, packed, unpacked

DIGEST = bytes(range(32))


def word(number: int, width: int = 4) -> bytes:
    return number.to_bytes(width, "big")


def prefixed(text: bytes) -> bytes:
    return word(len(text)) + text


def many(items: list[bytes]) -> bytes:
    return word(len(items)) + b"".join(items)


def signed(role: int, id: int, kind: Kind, fields: bytes, signature: bytes = b"signature") -> bytes:
    return word(role, 1) + word(id) + prefixed(word(kind, 1) + fields) + prefixed(signature)


def vote(kind: Kind, id: int, view: int, number: int, digest: bytes = DIGEST) -> bytes:
    return signed(REPLICA, id, kind, word(view) + word(number, 8) + digest)


def checkpoint(id: int, number: int) -> bytes:
    return signed(REPLICA, id, Kind.CHECKPOINT, word(number, 8) + DIGEST)


def reply(id: int, client: int, time: int) -> bytes:
    return signed(REPLICA, id, Kind.REPLY, word(0) + word(client) + word(time, 8) + word(9, 8) + prefixed(b"result"))


def request(client: int, time: int) -> bytes:
    return signed(CLIENT, client, Kind.REQUEST, word(time, 8) + prefixed(b"operation"))


def view_change(id: int) -> bytes:
    prepares = many([vote(Kind.PREPARE, other, 0, 9) for other in (1, 2)])
    body = word(1) + word(8, 8) + many([checkpoint(other, 8) for other in (0, 1, 2)]) + many([vote(Kind.PRE_PREPARE, 0, 0, 9) + prepares])
    return signed(REPLICA, id, Kind.VIEW_CHANGE, body)


def reads_all() -> None:
    """Each kind, and what is nested, with its signers."""
    part = part_of(vote(Kind.COMMIT, 2, 7, 12))
    expect((part.role, part.id, part.kind, part.view, part.number, part.digest) == (REPLICA, 2, Kind.COMMIT, 7, 12, DIGEST), "a Commit")
    expect(part.text == word(REPLICA, 1) + word(2) + word(Kind.COMMIT, 1) + word(7) + word(12, 8) + DIGEST, "what a Commit's signer signs")
    expect(part_of(request(100, 3)).time == 3, "a Request")
    expect((part_of(reply(1, 100, 3)).client, part_of(reply(1, 100, 3)).time) == (100, 3), "a Reply")
    asks, wants = (part_of(signed(REPLICA, 1, Kind.FETCH, it)) for it in (b"\1" + DIGEST, b"\2" + word(16, 8)))
    expect((asks.digest, asks.number, wants.digest, wants.number) == (DIGEST, 0, b"", 16), "Fetches")
    body = word(1) + many([view_change(id) for id in (1, 2)]) + many([vote(Kind.PRE_PREPARE, 1, 1, 9)])
    nested = [(it.kind.name, it.id) for it in parts_of(signed(REPLICA, 1, Kind.NEW_VIEW, body))]
    change = [("CHECKPOINT", 0), ("CHECKPOINT", 1), ("CHECKPOINT", 2), ("PRE_PREPARE", 0), ("PREPARE", 1), ("PREPARE", 2)]
    expect(nested == [("NEW_VIEW", 1), ("VIEW_CHANGE", 1), *change, ("VIEW_CHANGE", 2), *change, ("PRE_PREPARE", 1)], f"a NewView: {nested}")


def refuses_other_bytes() -> None:
    whole = view_change(3)
    for cut in range(len(whole)):
        try:
            parts_of(whole[:cut])
        except Malformed:
            continue
        raise RowFailed(f"a ViewChange without its last {len(whole) - cut} bytes was read")


def names_leaves() -> None:
    """Of one tree, and of two levels of either height."""
    expect(leaf_of(word(1) + bytes(56), word(19) + bytes(2504)) == 19, "a leaf of one tree")
    for top, bottom in ((5, 5), (5, 10), (10, 5), (10, 10)):
        key = word(2) + word(5 if top == 5 else 6) + bytes(52)
        below = word(3) + bytes(2180 + 4 + 32 * bottom)
        signature = word(0) + word(2) + bytes(2184 + 32 * top) + word(5 if bottom == 5 else 6) + bytes(52) + below
        expect(leaf_of(key, signature) == 2 * 2**bottom + 3, f"a leaf of a key of heights {top} and {bottom}")


class Small:
    """Four replicas and two clients in this process, with a checkpoint at every number."""

    def __init__(self) -> None:
        seeds = [Seed(bytes([n]) * 16, bytes([n]) * 32, top=5) for n in range(6)]
        keys = [seed.public_key() for seed in seeds]
        self.config = Configuration(1, 1, keys[:4], {100: (1, keys[4]), 101: (2, keys[5])})
        self.replicas = [Replica.replay(self.config, n, seeds[n]) for n in range(4)]
        self.twin = Replica.replay(self.config, 0, seeds[0])
        self.repeats = [Repeats() for _ in self.replicas]
        self.clients = [Client(self.config, 100 + n, seeds[4 + n]) for n in range(2)]

    def step(self, id: int, message: bytes | None) -> list[bytes]:
        outputs = self.replicas[id].timeout() if message is None else self.replicas[id].take(message)
        self.repeats[id].follow(self.replicas[id], len(outputs))
        return [output.bytes for output in outputs]

    def deliver(self, messages: list[bytes]) -> None:
        """Delivers messages, and all that is given for them, to all replicas."""
        while messages:
            message = messages.pop(0)
            messages += [output for id in range(4) for output in self.step(id, message)]

    def again(self, id: int) -> list[tuple[str, int]]:
        """What a replica sends again."""
        return [(part_of(message.bytes).kind.name, message.to) for message in self.repeats[id].all()]


def sends_again() -> None:
    """Own messages until later ones stand for them."""
    small = Small()
    proposal = small.step(0, small.clients[0].request(b"\2" + bytes(4)))
    expect(small.again(0) == [("PRE_PREPARE", To.ALL)], f"behind a proposal: {small.again(0)}")
    small.step(1, small.clients[0].message())
    prepare = small.step(1, proposal[0])
    expect(small.again(1) == [("PREPARE", To.ALL)], f"behind a Prepare: {small.again(1)}")
    expect([message.bytes for message in small.repeats[1].all()] == prepare, "other bytes are sent again")
    small.deliver([small.clients[0].message(), *proposal, *prepare])
    expect(small.replicas[1].standing().low == 1, "the low mark didn't rise")
    expect(small.again(1) == [("REPLY", To.CLIENT)], f"behind a checkpoint: {small.again(1)}")
    changes = [small.step(id, None)[0] for id in (1, 2, 3)]
    expect(sorted(small.again(1)) == [("REPLY", To.CLIENT), ("VIEW_CHANGE", To.ALL)], f"behind a timeout: {small.again(1)}")
    small.deliver(changes)
    expect({small.replicas[id].standing().view for id in (0, 1, 2)} == {1}, "the view didn't change")
    expect(all(("NEW_VIEW", To.ALL) in small.again(id) for id in (0, 1, 2)), f"behind a NewView: {small.again(2)}")


def waits() -> None:
    """For a request until it was answered."""
    small = Small()
    request = small.clients[0].request(b"\2" + bytes(4))
    expect(small.replicas[1].waits_for(request), "a request doesn't wait")
    small.deliver([request])
    expect(not small.replicas[1].waits_for(request), "a request waits that was answered")


def blames_by_two_messages() -> None:
    """Who proposes two requests at one number."""
    small = Small()
    one, other = (client.request(b"\2" + bytes(4)) for client in small.clients)
    first, second = small.step(0, one)[0], small.twin.take(other)[0].bytes
    audit = Audit(small.config)
    heard = [audit.hear(message) for message in (one, first, first, other, second)]
    expect([it.first for it in heard] == [None, None, None, None, 1], f"blamed by {heard}")
    expect([it.place for it in heard] == [0, 1, 2, 3, 4], f"heard at {heard}")


class Diary:
    """What a replica says that it did."""

    def __init__(self, replica: int, items: list[Executed | Installed]) -> None:
        self.replica = replica
        self.items = items

    def done(self) -> list[Executed | Installed]:
        return self.items


class Nobody:
    """A group of which an audit hears no message."""

    def configuration(self) -> None:
        return None


def compares_what_was_done() -> None:
    """Who did something else at a number, and who left one out, also where the next ledger begins."""
    whole = [Executed(number, DIGEST, b"result") for number in range(1, 300)]
    other = [*whole[:199], Executed(200, DIGEST, b"another"), *whole[200:]]
    gap, late = whole[:127] + whole[128:], [Installed(128, DIGEST), *whole[128:]]
    apart = [Installed(128, bytes(32)), *whole[128:]]
    audit = journals.Audit(Nobody())
    audit.compare_done([Diary(id, items) for id, items in enumerate((whole, other, gap, late, apart))])
    differ = ["replicas 0 and 1 executed different things at number 200.", "replica 2 executed number 129 behind number 127.",
              "replicas 1 and 2 executed different things at number 200.", "replicas 1 and 3 executed different things at number 200.",
              "replicas 3 and 4 installed different things at number 128.", "replicas 1 and 4 executed different things at number 200."]
    expect(audit.findings.differ == differ, f"the findings are {audit.findings.differ}")
    expect(audit.findings.reached == 299, f"they reached {audit.findings.reached}")
    expect(audit.findings.apart == 128, f"they are apart first at {audit.findings.apart}")
    short = journals.Audit(Nobody())
    short.compare_done([Diary(5, [Executed(1, b"short", b"")])])
    expect(len(short.findings.differ) == 1, f"a digest of 5 bytes: {short.findings.differ}")


def drops_beyond_64_megabytes() -> None:
    """What waits for a peer that reads nothing."""
    public, secret = zmq.curve_keypair()
    me, peer = (Member(REPLICA, id, b"", (5, 5), public, "ipc:///tmp/nobody.ipc") for id in (0, 1))
    context = zmq.Context()
    outbox = Outbox(context, me, secret, peer)
    for _ in range(70):
        outbox.post(Tag.MESSAGE, bytes(1_000_000))
    expect(outbox.dropped == 6, f"of 70 MB {outbox.dropped} MB were dropped")
    context.destroy(linger=0)


def packs_and_unpacks() -> None:
    """The messages of a frame; bytes of another form are none."""
    messages = [b"", b"one", bytes(70_000), b"", DIGEST]
    frame = packed(messages)
    expect(unpacked(frame) == messages, "a frame's messages")
    expect(unpacked(b"") == [], "an empty frame")
    cuts = [cut for cut in (1, 4, 5, 8, len(frame) - 1) if unpacked(frame[:cut]) == messages]
    expect(not cuts and unpacked(frame[:-1]) is None and unpacked(frame + b"x") is None, f"a frame that was cut at {cuts}")
    expect(unpacked(packed([b""] * (MAX_IN_FRAME + 1))) is None, "a frame with too many messages")


class Pair:
    """Who takes part: two replicas."""

    def __init__(self, *replicas: Member) -> None:
        self.replicas, self.clients = replicas, ()


def sends_together() -> None:
    """What waits for a peer comes in its order, in few frames, each within its bounds; a stranger isn't heard."""
    keys = [zmq.curve_keypair() for _ in range(3)]
    with tempfile.TemporaryDirectory(prefix="group-") as folder:
        members = [Member(REPLICA, id, b"", (5, 5), public, f"ipc://{folder}/{id}.ipc") for id, (public, _) in enumerate(keys)]
        context = zmq.Context()
        inbox = Inbox(context, Pair(*members[:2]), members[0], keys[0][1])
        outbox, stranger = (Outbox(context, members[id], keys[id][1], members[0]) for id in (1, 2))
        sent = [word(number) * 1000 for number in range(600)]
        for message in sent:
            outbox.post(Tag.MESSAGE, message)
            stranger.post(Tag.MESSAGE, message)
        frames: list[Came] = []
        wait_until(lambda: _moves(inbox, [outbox, stranger], frames) >= len(sent), "what waits never comes", 0.0)
        expect([message for it in frames for message in it.messages] == sent, "other messages came, or in another order")
        expect({it.sender for it in frames} == {members[1]}, "a stranger was heard")
        expect(max(len(it.messages) for it in frames) <= MAX_IN_FRAME, "a frame has too many messages")
        expect(max(sum(map(len, it.messages)) for it in frames) <= MAX_TOGETHER, "a frame has too many bytes")
        expect(outbox.is_empty, "what was sent still waits")
        inbox.close()
        context.destroy(linger=0)


def _moves(inbox: Inbox, outboxes: list[Outbox], frames: list[Came]) -> int:
    """Sends what waits, and adds a frame that came. How many messages all frames have."""
    for outbox in outboxes:
        outbox.send()
    if came := inbox.next():
        frames.append(came)
    return sum(len(it.messages) for it in frames)


def waits_twice_as_long() -> None:
    timer = Doubling(1.0, 4, 0.0)
    due = [now for now in range(20) if timer.is_due(now)]
    expect(due == [1, 3, 7, 11, 15, 19], f"a timer was due at {due}")
    timer.set_back(20.0)
    expect(timer.is_due(21.0) and not timer.is_due(22.0), "a timer that was set back")


PARTS: tuple[Callable[[], None], ...] = (reads_all, refuses_other_bytes, names_leaves, sends_again, waits, blames_by_two_messages,
                                        compares_what_was_done, drops_beyond_64_megabytes, packs_and_unpacks, sends_together,
                                        waits_twice_as_long)


def tried() -> bool:
    """Runs them all, and says how they went."""
    failed = 0
    for part in PARTS:
        try:
            part()
        except RowFailed as fault:
            failed += 1
            print(f"group: FAILED: {part.__name__}: {fault}", flush=True)
    if not failed:
        print(f"group: {len(PARTS)} parts do what they are to", flush=True)
    return not failed
