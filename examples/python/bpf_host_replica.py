"""Replicas and clients of bpf_host from Python: each takes bytes and gives bytes, and the program moves them.

    >>> from bpf_host_replica import Client, Configuration, Replica, Seed
    >>> seeds = [Seed(bytes([n]) * 16, bytes([n]) * 32, top=5) for n in range(5)]
    >>> config = Configuration(1, 8, [seed.public_key() for seed in seeds[:4]], {100: (1, seeds[4].public_key())})
    >>> replicas = [Replica(config, n, seeds[n]) for n in range(4)]
    >>> client = Client(config, 100, seeds[4])
    >>> request = client.request(b"\\x02\\x00\\x00\\x00\\x07")
    >>> [(message.to, message.id) for message in replicas[0].take(request)]
    [(<To.ALL: 0>, 0)]

A replica's step is the protocol's, and a client accepts what f + 1 replicas have answered: that is proved. It needs
libbpf_host_replica.so (tools/c-library makes it), beside this file or at the path in BPF_HOST_REPLICA, and nothing else.

What a caller owes stands in include/bpf_host_replica.h. The first thing: **a seed never begins twice at one leaf.**

A `Replica` or a `Client` serves one call at a time: each thread has its own, or a lock.
"""
from __future__ import annotations

import ctypes
import enum
import os
import pathlib
from collections.abc import Mapping, Sequence
from typing import NamedTuple

__all__ = [
    "Accepted",
    "Audit",
    "Client",
    "Compared",
    "Configuration",
    "Executed",
    "GroupError",
    "Heard",
    "Installed",
    "Ledger",
    "Message",
    "Repeats",
    "Replica",
    "Role",
    "Seed",
    "Signer",
    "Standing",
    "Status",
    "To",
    "Votes",
]

PUBLIC_KEY = 60
DIGEST = 32
ROOM = 65536


class Status(enum.IntEnum):
    """What a call answered, as in include/bpf_host_replica.h."""

    DONE = 0
    MEMORY = 21
    BUFFER_TOO_SHORT = 35
    NO_DRAFT = 51
    NO_CONFIG = 52
    NO_REPLICA = 53
    NO_CLIENT = 54
    NO_KEY = 55
    NO_SEED = 56
    NO_HEIGHT = 57
    NO_LEAF = 58
    NOT_LISTED = 59
    OTHER_KEY = 60
    NO_ROW = 61
    NO_ENTRY = 62
    NO_STATE = 63
    NO_TIME = 64
    OPERATION_TOO_LONG = 65
    NO_REQUEST = 66
    NO_REPLY = 67
    NO_VOTES = 68
    NO_REPEATS = 69
    NO_AUDIT = 70
    BAD_F = 71
    WRONG_REPLICA_COUNT = 72
    BAD_INTERVAL = 73
    DUPLICATE_CLIENT = 74
    TOO_MANY = 76
    NO_LEDGER = 80
    NO_ITEM = 81
    UNKNOWN_SIGNER = 102
    BAD_SIGNATURE = 103
    WRONG_ROLE = 104
    TRUNCATED = 111
    TRAILING = 112
    BAD_KIND = 113
    BAD_FIELD = 114
    MESSAGE_TOO_LONG = 115
    NOT_ASCENDING = 116
    EXHAUSTED = 201
    OUT_OF_MEMORY = 202
    WORN = 203
    ALREADY_HALTED = 205
    NO_LEAVES = 301
    REQUEST_MEMORY = 304


class GroupError(Exception):
    """A call was refused. Where memory ran out its status is MEMORY; from 201 to 205 the replica has halted."""

    def __init__(self, status: int):
        self.status = Status(status)
        super().__init__(self.status.name)


class To(enum.IntEnum):
    """Whom a message is for."""

    ALL = 0  # all other replicas
    REPLICA = 1
    CLIENT = 2


class Role(enum.IntEnum):
    """Who signs."""

    REPLICA = 1
    CLIENT = 2


class Message(NamedTuple):
    """A message that a replica gives."""

    to: To
    id: int  # of the replica or the client
    bytes: bytes


class Executed(NamedTuple):
    """A request that a replica executed."""

    number: int
    digest: bytes  # SHA-256 of the request's bytes
    result: bytes  # empty where there is no reply


class Installed(NamedTuple):
    """A state that a replica took over."""

    number: int
    digest: bytes  # SHA-256 of the state's bytes


class Signer(NamedTuple):
    """Who signed a message."""

    role: Role
    id: int


class Standing(NamedTuple):
    """Where a replica stands after its last step."""

    low: int  # the low water mark
    executed: int  # the last executed number
    view: int
    active: bool  # in the view, and not changing to it
    halted: Status | None
    leaves: int  # that have not signed


class Heard(NamedTuple):
    """The place of a message among those that an audit has heard, from 0 on, and that of the first one that its signer contradicts in it."""

    place: int
    first: int | None


class Compared(NamedTuple):
    """How what a replica did compares with what was noted before: its place among all that was noted, from 0 on; the first of its kind and
    its number that differs from it; and whether it follows on the replica's last number."""

    place: int
    first: int | None
    follows: bool


class Accepted(NamedTuple):
    """The reply that a client accepts."""

    time: int
    number: int
    result: bytes


class Seed(NamedTuple):
    """What a key pair comes from: 16 bytes that name it, and 32 that are secret.

    `top` is the height of the top tree, 5 or 10: it has 32 or 1,024 leaves, each of which signs once; `bottom` is the height of
    trees below each of those leaves, or 0 for one tree."""

    identifier: bytes
    secret: bytes
    top: int = 10
    bottom: int = 0

    def public_key(self) -> bytes:
        """The key for the configuration, of 60 bytes (RFC 8554, section 6.1)."""
        key = ctypes.create_string_buffer(PUBLIC_KEY)
        _check(_library.bpfh_key(*self._words(), key, PUBLIC_KEY))
        return key.raw

    def _words(self) -> tuple[bytes, int, int, int]:
        return self.identifier + self.secret, len(self.identifier) + len(self.secret), self.top, self.bottom


class _Handle(ctypes.Structure):
    _fields_ = [("at", ctypes.c_void_p), ("is_full", ctypes.c_bool)]


class _Sent(ctypes.Structure):
    _fields_ = [("kind", ctypes.c_uint32), ("id", ctypes.c_uint32), ("length", ctypes.c_uint64)]


class _DoneItem(ctypes.Structure):
    _fields_ = [("kind", ctypes.c_uint32), ("number", ctypes.c_uint64), ("digest", ctypes.c_uint8 * DIGEST), ("length", ctypes.c_uint64)]


class _SignedBy(ctypes.Structure):
    _fields_ = [("role", ctypes.c_uint32), ("id", ctypes.c_uint32)]


class _Standing(ctypes.Structure):
    _fields_ = [(name, ctypes.c_uint64) for name in ("low", "executed")] + [
        (name, ctypes.c_uint32) for name in ("view", "active", "halted", "leaves")
    ]


class _Heard(ctypes.Structure):
    _fields_ = [("place", ctypes.c_uint64), ("first", ctypes.c_uint64), ("blames", ctypes.c_uint32)]


class _Compared(ctypes.Structure):
    _fields_ = [(name, ctypes.c_uint64) for name in ("place", "first")] + [(name, ctypes.c_uint32) for name in ("differs", "follows")]


class _Accepted(ctypes.Structure):
    _fields_ = [(name, ctypes.c_uint64) for name in ("time", "number", "length")]


def _load() -> ctypes.CDLL:
    beside = pathlib.Path(__file__).resolve().parent / "libbpf_host_replica.so"
    library = ctypes.CDLL(os.environ.get("BPF_HOST_REPLICA", str(beside)))
    handle, size, data = ctypes.POINTER(_Handle), ctypes.c_size_t, ctypes.c_char_p
    byte, number, long = ctypes.c_uint8, ctypes.c_uint32, ctypes.c_uint64
    seed = [data, size, byte, byte]
    for name, words in {
        "key": [*seed, data, size],
        "draft_new": [byte, byte, handle],
        "draft_replica": [handle, data, size],
        "draft_client": [handle, number, number, data, size],
        "config": [handle, handle],
        "replica_new": [handle, byte, *seed, number, handle],
        "replica_replay": [handle, byte, *seed, handle],
        "replica_take": [handle, data, size],
        "replica_timeout": [handle],
        "replica_waits": [handle, data, size, ctypes.POINTER(number)],
        "replica_output": [handle, number, data, size, ctypes.POINTER(_Sent)],
        "replica_done": [handle, number, data, size, ctypes.POINTER(_DoneItem)],
        "open": [handle, data, size, ctypes.POINTER(_SignedBy)],
        "replica_standing": [handle, ctypes.POINTER(_Standing)],
        "replica_state": [handle, data, size, ctypes.POINTER(long)],
        "votes_new": [handle, handle],
        "votes_hold": [handle, data, size, ctypes.POINTER(number)],
        "votes_move": [handle, long, number],
        "votes_next": [handle, data, size, ctypes.POINTER(long)],
        "repeats_new": [handle],
        "repeats_note": [handle, handle, number],
        "repeats_follow": [handle, handle],
        "repeats_get": [handle, number, data, size, ctypes.POINTER(_Sent)],
        "audit_new": [handle],
        "audit_hear": [handle, handle, data, size, ctypes.POINTER(_Heard)],
        "ledger_new": [handle],
        "ledger_begin": [handle, long],
        "ledger_note": [handle, data, size, ctypes.POINTER(_DoneItem), ctypes.POINTER(_Compared)],
        "client_new": [handle, number, *seed, number, long, handle],
        "client_request": [handle, data, size],
        "client_message": [handle, data, size, ctypes.POINTER(long)],
        "client_hear": [handle, data, size],
        "client_accepted": [handle, data, size, ctypes.POINTER(_Accepted)],
        "release": [handle],
    }.items():
        function = getattr(library, f"bpfh_{name}")
        function.argtypes = words
        function.restype = None if name == "release" else number
    return library


_library = _load()


class _Buffer:
    """Bytes that a call writes."""

    def __init__(self, size: int = ROOM) -> None:
        self.grow(size)

    def grow(self, size: int) -> None:
        """It is made anew, of this size."""
        self.bytes, self.size = ctypes.create_string_buffer(size), size

    def first(self, count: int) -> bytes:
        """So many of them."""
        return ctypes.string_at(self.bytes, count)


class _Held:
    """What keeps a handle, and gives it back at last."""

    def __init__(self) -> None:
        self._handle = _Handle()
        self._at = ctypes.pointer(self._handle)

    def __del__(self, release=_library.bpfh_release) -> None:
        if hasattr(self, "_at"):
            release(self._at)


class Configuration(_Held):
    """Who takes part: 3f + 1 replicas by their public keys, and clients by their ids, each with its tenant and its public key. A
    checkpoint is made at every k-th number.

    Raises `GroupError` with the first fault. All members of a group are made under the same configuration."""

    def __init__(self, f: int, k: int, replicas: Sequence[bytes], clients: Mapping[int, tuple[int, bytes]]) -> None:
        super().__init__()
        draft = _Held()
        _check(_library.bpfh_draft_new(f, k, draft._at))
        for key in replicas:
            _check(_library.bpfh_draft_replica(draft._at, key, len(key)))
        for client, (tenant, key) in clients.items():
            _check(_library.bpfh_draft_client(draft._at, client, tenant, key, len(key)))
        _check(_library.bpfh_config(draft._at, self._at))


    def open(self, message: bytes) -> Signer:
        """Who signed a message, all of whose parts have listed signers, who may say what they say, and valid signatures. Raises
        `GroupError` for other bytes."""
        signed_by = _SignedBy()
        _check(_library.bpfh_open(self._at, message, len(message), ctypes.byref(signed_by)))
        return Signer(Role(signed_by.role), signed_by.id)


class Replica(_Held):
    """A replica before its first message, whose signer has used the leaves below `leaf`: none of those from there on has signed, which its
    caller keeps on disk. One that takes a journal again begins by `replay`."""

    def __init__(self, config: Configuration, replica: int, seed: Seed, leaf: int = 0) -> None:
        super().__init__()
        _check(_library.bpfh_replica_new(config._at, replica, *seed._words(), leaf, self._at))
        self._make_room()

    @classmethod
    def replay(cls, config: Configuration, replica: int, seed: Seed) -> Replica:
        """A replica before its first message, with its signer at its first leaf. It is to take again all that this seed's replica took, in
        that order, before anything is sent."""
        made = cls.__new__(cls)
        _Held.__init__(made)
        _check(_library.bpfh_replica_replay(config._at, replica, *seed._words(), made._at))
        made._make_room()
        return made

    def _make_room(self) -> None:
        """What calls write into is made once: to make it for each would take longer than most calls do."""
        self._buffer, self._answer = _Buffer(), _Buffer(512)
        self._sent, self._item, self._stands = _Sent(), _DoneItem(), _Standing()

    def take(self, message: bytes) -> list[Message]:
        """Has it take a message, and returns what it gives for that. Raises `GroupError` for bytes that its configuration doesn't
        take, which change nothing, and where it has halted."""
        _check(_library.bpfh_replica_take(self._at, message, len(message)))
        return self._outputs()

    def timeout(self) -> list[Message]:
        """Has it take a timeout: it asks for the next view."""
        _check(_library.bpfh_replica_timeout(self._at))
        return self._outputs()

    def waits_for(self, message: bytes) -> bool:
        """Whether it waits for a message: whether that is a request which its state hasn't answered. It is given timeouts while it waits
        and executes nothing. Raises `GroupError` for bytes that its configuration doesn't take."""
        waits = ctypes.c_uint32()
        _check(_library.bpfh_replica_waits(self._at, message, len(message), ctypes.byref(waits)))
        return bool(waits.value)

    def done(self) -> list[Executed | Installed]:
        """What its last step did to its state: nothing before the first one, and once it has halted."""
        items: list[Executed | Installed] = []
        item, answer = self._item, self._answer
        while True:
            status = _library.bpfh_replica_done(self._at, len(items), answer.bytes, answer.size, ctypes.byref(item))
            if status in (Status.NO_ENTRY, Status.NO_ROW):
                return items
            if status == Status.BUFFER_TOO_SHORT:
                answer.grow(item.length)
                continue
            _check(status)
            number, digest = item.number, bytes(item.digest)
            items.append(Installed(number, digest) if item.kind else Executed(number, digest, answer.first(item.length)))

    def standing(self) -> Standing:
        """Where it stands."""
        stands = self._stands
        _check(_library.bpfh_replica_standing(self._at, ctypes.byref(stands)))
        halted = Status(200 + stands.halted) if stands.halted else None
        return Standing(stands.low, stands.executed, stands.view, bool(stands.active), halted, stands.leaves)

    def state(self) -> bytes:
        """The canonical encoding of its state: replicas that have executed as many requests have the same bytes."""
        return _told(_library.bpfh_replica_state, self._at)

    def _outputs(self) -> list[Message]:
        outputs: list[Message] = []
        sent, buffer = self._sent, self._buffer
        while True:
            status = _library.bpfh_replica_output(self._at, len(outputs), buffer.bytes, buffer.size, ctypes.byref(sent))
            if status == Status.NO_ENTRY:
                return outputs
            if status == Status.BUFFER_TOO_SHORT:
                buffer.grow(sent.length)
                continue
            _check(status)
            outputs.append(Message(To(sent.kind), sent.id, buffer.first(sent.length)))


class Votes(_Held):
    """The votes that come early for one replica, which would drop them for good: each message goes through `hold` first.

        if not votes.hold(message):
            outputs = replica.take(message)
            votes.move(replica.standing())
            while vote := votes.next():
                outputs += replica.take(vote)
                votes.move(replica.standing())
    """

    def __init__(self, config: Configuration) -> None:
        super().__init__()
        _check(_library.bpfh_votes_new(config._at, self._at))
        self._buffer, self._told = _Buffer(), ctypes.c_uint64()

    def hold(self, message: bytes) -> bool:
        """Keeps a vote that comes early, and says whether it does; else the replica is to take the message now. Raises `GroupError` for
        bytes that the configuration doesn't take, which change nothing."""
        early = ctypes.c_uint32()
        _check(_library.bpfh_votes_hold(self._at, message, len(message), ctypes.byref(early)))
        return bool(early.value)

    def move(self, standing: Standing) -> None:
        """The replica stands so, after a step."""
        _check(_library.bpfh_votes_move(self._at, standing.low, standing.view))

    def next(self) -> bytes | None:
        """The first vote that is on time, which is given up; none where there is none."""
        told, buffer = self._told, self._buffer
        while True:
            status = _library.bpfh_votes_next(self._at, buffer.bytes, buffer.size, ctypes.byref(told))
            if status == Status.NO_ENTRY:
                return None
            if status != Status.BUFFER_TOO_SHORT:
                _check(status)
                return buffer.first(told.value)
            buffer.grow(told.value)


class Repeats(_Held):
    """What a replica sends again where messages may be lost, the same bytes: its own messages that no later one stands for, and the NewView
    of its view. After each of its steps it is told so:

        outputs = replica.take(message)
        repeats.follow(replica, len(outputs))
    """

    def __init__(self) -> None:
        super().__init__()
        _check(_library.bpfh_repeats_new(self._at))
        self._buffer = _Buffer()

    def follow(self, replica: Replica, outputs: int) -> None:
        """The replica has stepped, and gave so many messages."""
        for place in range(outputs):
            _check(_library.bpfh_repeats_note(self._at, replica._at, place))
        _check(_library.bpfh_repeats_follow(self._at, replica._at))

    def all(self) -> list[Message]:
        """What is sent again."""
        messages: list[Message] = []
        sent, buffer = _Sent(), self._buffer
        while True:
            status = _library.bpfh_repeats_get(self._at, len(messages), buffer.bytes, buffer.size, ctypes.byref(sent))
            if status == Status.NO_ENTRY:
                return messages
            if status == Status.BUFFER_TOO_SHORT:
                buffer.grow(sent.length)
                continue
            _check(status)
            messages.append(Message(To(sent.kind), sent.id, buffer.first(sent.length)))


class Audit(_Held):
    """Looks for a replica that contradicts itself: for two votes of a kind at one number of a view, or two Checkpoints of a number, with
    different digests. The two messages prove it, since both have its signature."""

    def __init__(self, config: Configuration) -> None:
        super().__init__()
        self._config = config
        _check(_library.bpfh_audit_new(self._at))

    def hear(self, message: bytes) -> Heard:
        """Hears a message, and tells whether it contradicts one that was heard. Raises `GroupError` for bytes that the configuration doesn't
        take, which change nothing."""
        heard = _Heard()
        _check(_library.bpfh_audit_hear(self._config._at, self._at, message, len(message), ctypes.byref(heard)))
        return Heard(heard.place, heard.first if heard.blames else None)


class Ledger(_Held):
    """Looks where the words of replicas differ: all execute one request with one result at each number, and have one state after it. Their
    words prove nothing to others.

        for journal in journals:
            ledger.begin()
            for done in journal:
                compared = ledger.note(done)
    """

    def __init__(self) -> None:
        super().__init__()
        _check(_library.bpfh_ledger_new(self._at))

    def begin(self, last: int = 0) -> None:
        """What another replica did comes now, whose last number was this one: 0 where all of it comes."""
        _check(_library.bpfh_ledger_begin(self._at, last))

    def note(self, done: Executed | Installed) -> Compared:
        """Notes what the replica did next, and tells whether that differs from what was noted before. Raises `ValueError` for a digest
        that hasn't 32 bytes."""
        is_executed = isinstance(done, Executed)
        result = done.result if is_executed else b""
        if len(done.digest) != DIGEST:
            raise ValueError(f"a digest has {DIGEST} bytes, and not {len(done.digest)}")
        item = _DoneItem(0 if is_executed else 1, done.number, (ctypes.c_uint8 * DIGEST)(*done.digest), len(result))
        compared = _Compared()
        _check(_library.bpfh_ledger_note(self._at, result, len(result), ctypes.byref(item), ctypes.byref(compared)))
        return Compared(compared.place, compared.first if compared.differs else None, bool(compared.follows))


class Client(_Held):
    """A client's session, whose signer has used the leaves below `leaf`, and whose first request has the time behind `time`."""

    def __init__(self, config: Configuration, client: int, seed: Seed, leaf: int = 0, time: int = 0) -> None:
        super().__init__()
        _check(_library.bpfh_client_new(config._at, client, *seed._words(), leaf, time, self._at))

    def request(self, operation: bytes) -> bytes:
        """Makes the signed request of an operation, for all replicas. What was open is given up."""
        _check(_library.bpfh_client_request(self._at, operation, len(operation)))
        return self.message()

    def message(self) -> bytes:
        """The bytes of the last request, to be sent again where no reply comes."""
        return _told(_library.bpfh_client_message, self._at)

    def hear(self, message: bytes) -> Accepted | None:
        """Hears a message, and returns the reply to the last request once one is accepted. Raises `GroupError` for bytes that the
        configuration doesn't take, which change nothing."""
        _check(_library.bpfh_client_hear(self._at, message, len(message)))
        return self.accepted()

    def accepted(self) -> Accepted | None:
        """The reply to the last request that is accepted; none until then."""
        told, room = _Accepted(), 512
        while True:
            answer = ctypes.create_string_buffer(room)
            status = _library.bpfh_client_accepted(self._at, answer, room, ctypes.byref(told))
            if status == Status.NO_REPLY:
                return None
            if status != Status.BUFFER_TOO_SHORT:
                _check(status)
                return Accepted(told.time, told.number, answer.raw[: told.length])
            room = told.length


def _told(function, at) -> bytes:
    """What a call writes into a buffer, which is made longer where it is too short."""
    told, room = ctypes.c_uint64(), ROOM
    while True:
        buffer = ctypes.create_string_buffer(room)
        status = function(at, buffer, room, ctypes.byref(told))
        if status != Status.BUFFER_TOO_SHORT:
            _check(status)
            return buffer.raw[: told.value]
        room = told.value


def _check(status: int) -> None:
    if status:
        raise GroupError(status)
