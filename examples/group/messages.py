"""What the library doesn't tell of messages that it has opened, read from their bytes: what each part says, and which leaf signed it.

Bytes that the library hasn't opened may be anything: what is read of them says nothing. Each part names its source among the
definitions and the code in `crates/`."""
from __future__ import annotations

import enum
import hashlib
import struct
from collections.abc import Iterator
from typing import NamedTuple

REPLICA, CLIENT = 1, 2


class Malformed(Exception):
    """The bytes aren't a message of the grammar: the library would not have opened them."""


class Kind(enum.IntEnum):
    """The byte of a body's kind: `kind_byte` in pbft_codec/specs/Kinds.antt."""

    REQUEST = 1
    PRE_PREPARE = 2
    PREPARE = 3
    COMMIT = 4
    REPLY = 5
    CHECKPOINT = 6
    VIEW_CHANGE = 7
    NEW_VIEW = 8
    FETCH = 9
    SNAPSHOT = 10


VOTES = (Kind.PRE_PREPARE, Kind.PREPARE, Kind.COMMIT)


class Part(NamedTuple):
    """A message, or one that is nested in it: who signed what, and the fields that its kind has."""

    role: int
    id: int
    kind: Kind
    text: bytes  # what is signed: `signed_text` in pbft_codec/specs/Encoding.antt
    signature: bytes
    whole: bytes  # a message of its own
    view: int = 0
    number: int = 0
    digest: bytes = b""
    client: int = 0
    time: int = 0

    @property
    def request_digest(self) -> bytes:
        """By which votes and Fetches name this request: `digest_of` in pbft_model/specs/Setup.antt."""
        return hashlib.sha256(self.text).digest()


def parts_of(message: bytes) -> list[Part]:
    """A message and all that is nested in it, each before what it holds: `signed` in pbft_codec/specs/Layouts.antt, `messages_in`
    in seal/specs/Parts.antt."""
    part = part_of(message)
    if part.whole != message:
        raise Malformed
    return [part, *_nested(part)]


def part_of(message: bytes) -> Part:
    """The message itself, without what is nested in it."""
    return _part_at(message, 0)


def kind_of(message: bytes) -> int:
    """The kind of a message, which stands behind its role, its signer's id and the length of its body."""
    return message[_HEAD.size]


_HEAD = struct.Struct(">BII")  # the role, the signer's id, and the length of the body
_WORD = struct.Struct(">I")
_SIGNER = 5  # bytes of role and id, which are signed before the body
_KINDS = {kind.value: kind for kind in Kind}

# The first fields of a body, behind its kind, and their names: pbft_codec/specs/Layouts.antt.
_PROPOSAL = struct.Struct(">IQ32s"), ("view", "number", "digest")
_LAYOUTS: dict[Kind, tuple[struct.Struct, tuple[str, ...]]] = {
    Kind.REQUEST: (struct.Struct(">Q"), ("time",)),
    Kind.PRE_PREPARE: _PROPOSAL,
    Kind.PREPARE: _PROPOSAL,
    Kind.COMMIT: _PROPOSAL,
    Kind.REPLY: (struct.Struct(">IIQQ"), ("view", "client", "time", "number")),
    Kind.CHECKPOINT: (struct.Struct(">Q32s"), ("number", "digest")),
    Kind.VIEW_CHANGE: (struct.Struct(">IQ"), ("view", "number")),
    Kind.NEW_VIEW: (struct.Struct(">I"), ("view",)),
    Kind.SNAPSHOT: (struct.Struct(">Q"), ("number",)),
}
_FETCHED_REQUEST, _FETCHED_STATE = (struct.Struct(">x32s"), ("digest",)), (struct.Struct(">xQ"), ("number",))


def _part_at(data: bytes, begins: int) -> Part:
    """The part that begins at a place of these bytes."""
    try:
        role, id, length = _HEAD.unpack_from(data, begins)
        body, behind_body = begins + _HEAD.size, begins + _HEAD.size + length
        signature = behind_body + _WORD.size
        ends = signature + _WORD.unpack_from(data, behind_body)[0]
        text = data[begins : begins + _SIGNER] + data[body:behind_body]
        kind = _KINDS[text[_SIGNER]]
        layout, names = _layout(kind, text)
        fields = layout.unpack_from(text, _SIGNER + 1)
    except (struct.error, IndexError, KeyError):
        raise Malformed from None
    if ends > len(data):
        raise Malformed
    return Part(role, id, kind, text, data[signature:ends], data[begins:ends], **dict(zip(names, fields)))


def _layout(kind: Kind, text: bytes) -> tuple[struct.Struct, tuple[str, ...]]:
    """How the fields of a body stand in it: those of a Fetch behind a byte that says what is asked for."""
    if kind == Kind.FETCH:
        return _FETCHED_REQUEST if text[_SIGNER + 1] == 1 else _FETCHED_STATE
    return _LAYOUTS[kind]


def _nested(part: Part) -> Iterator[Part]:
    """What a ViewChange or a NewView holds."""
    if part.kind not in (Kind.VIEW_CHANGE, Kind.NEW_VIEW):
        return
    reader = _Reader(part.text, _SIGNER + 1 + _LAYOUTS[part.kind][0].size)
    yield from reader.list()
    if part.kind == Kind.NEW_VIEW:
        yield from reader.list()
        return
    for _ in range(reader.count()):
        yield from reader.part()
        yield from reader.list()


class _Reader:
    """Reads what is nested in a body, from left to right: pbft_codec/specs/Reading.antt."""

    def __init__(self, data: bytes, at: int) -> None:
        self._data, self._at = data, at

    def count(self) -> int:
        try:
            (count,) = _WORD.unpack_from(self._data, self._at)
        except struct.error:
            raise Malformed from None
        self._at += _WORD.size
        return count

    def part(self) -> Iterator[Part]:
        """A part, and what is nested in it."""
        part = _part_at(self._data, self._at)
        self._at += len(part.whole)
        yield part
        yield from _nested(part)

    def list(self) -> Iterator[Part]:
        for _ in range(self.count()):
            yield from self.part()


_LEVELS = {5: 5, 6: 10}  # by typecode: `typecode_of` in lms_level/specs/Signature.antt


def leaf_of(key: bytes, signature: bytes) -> int:
    """The number of the leaf that a valid signature under this key names: `number_by` in lms_tree/specs/Keys.antt."""
    if key[3] == 1:
        return _word(signature, 0)
    behind_top = 4 + 2188 + 32 * _LEVELS[_word(key, 4)]  # `lms_length` in lms_tree/specs/Signature.antt
    levels = _LEVELS[_word(signature, behind_top)]
    return (_word(signature, 4) << levels) + _word(signature, behind_top + 56)


def leaves_of(heights: tuple[int, int]) -> int:
    """How many leaves a key of these heights has: `leaf_count` in lms_tree/specs/Keys.antt."""
    return 2 ** sum(heights)


def _word(text: bytes, at: int) -> int:
    return int.from_bytes(text[at : at + 4], "big")
