"""The sandbox of bpf_host from Python: procedures in BPF byte code (RFC 9669), verified and run over key-value maps.

    >>> from bpf_host_sandbox import Map, Procedure, assemble
    >>> procedure = Procedure(assemble("ldxb r0, [r1+0]\\nadd64 r0, r2\\nexit"))
    >>> procedure(Map(), b"abc").value
    100

A procedure that the library accepted cannot crash, loop or touch memory that isn't its own: that is proved. It needs
libbpf_host_sandbox.so (tools/c-library makes it), beside this file or at the path in BPF_HOST_SANDBOX, and nothing else.

A `Procedure` or a `Map` serves one call at a time: each thread has its own, or a lock.
"""
from __future__ import annotations

import ctypes
import enum
import os
import pathlib
from collections.abc import Iterator, MutableMapping
from typing import NamedTuple

__all__ = ["Ended", "Map", "Procedure", "Refused", "SandboxError", "Status", "assemble", "disassemble"]

KEY, VALUE, MAX_OUTPUT = 16, 32, 256


class Status(enum.IntEnum):
    """What a call answered, as in include/bpf_host_sandbox.h."""

    DONE = 0
    EMPTY = 1
    NOT_SLOTS = 2
    TOO_LONG = 3
    BAD_OPCODE = 4
    BAD_REGISTER = 5
    FIELD_NOT_ZERO = 6
    TRUNCATED_WIDE = 7
    BAD_WIDTH = 8
    BAD_OFFSET = 9
    JUMP_BACKWARD = 11
    JUMP_OUTSIDE = 12
    FALLS_OFF_END = 13
    UNKNOWN_HELPER = 14
    WRITES_FRAME_POINTER = 15
    UNINIT_REGISTER = 16
    BAD_ACCESS = 17
    UNINIT_BYTES = 18
    CALL_DEPTH = 19
    TOO_COMPLEX = 20
    MEMORY = 21
    NO_PROFILE = 31
    NO_PROCEDURE = 32
    NO_MAP = 33
    ARGUMENTS_TOO_LONG = 34
    BUFFER_TOO_SHORT = 35
    NO_KEY = 36
    NO_VALUE = 37
    NO_ENTRY = 38
    MAP_FULL = 39
    ASM_WORD = 41
    ASM_OPERAND = 42
    ASM_NUMBER = 43
    ASM_LABEL = 44


class SandboxError(Exception):
    """A call was refused. Where memory ran out its status is MEMORY."""

    def __init__(self, status: int, at: int | None = None, why: str = ""):
        self.status = Status(status)
        #: The slot of code, from 0, or the line of a text, from 1, where there is one.
        self.at = at
        self.why = why
        place = "" if at is None else f" at {at}"
        super().__init__(f"{self.status.name}{place}" + (f": {why}" if why else ""))


class Refused(SandboxError):
    """Code was refused: its first fault, the slot of it, and why, as a sentence."""


class Ended(NamedTuple):
    """How a call of a procedure ended."""

    value: int  # r0 at the last exit
    steps: int
    output: bytes


class _Handle(ctypes.Structure):
    _fields_ = [("at", ctypes.c_void_p), ("is_full", ctypes.c_bool)]


class _Verdict(ctypes.Structure):
    _fields_ = [("bound", ctypes.c_uint32), ("slot", ctypes.c_uint32)]


class _Ended(ctypes.Structure):
    _fields_ = [("value", ctypes.c_uint64), ("steps", ctypes.c_uint32), ("length", ctypes.c_uint32)]


def _load() -> ctypes.CDLL:
    beside = pathlib.Path(__file__).resolve().parent / "libbpf_host_sandbox.so"
    library = ctypes.CDLL(os.environ.get("BPF_HOST_SANDBOX", str(beside)))
    handle, size, data = ctypes.POINTER(_Handle), ctypes.c_size_t, ctypes.c_char_p
    number, wide = ctypes.POINTER(ctypes.c_uint32), ctypes.POINTER(ctypes.c_uint64)
    for name, words in {
        "verify": [data, size, ctypes.c_uint8, handle, ctypes.POINTER(_Verdict)],
        "run": [handle, handle, ctypes.c_uint32, data, size, data, size, ctypes.POINTER(_Ended)],
        "map_new": [handle],
        "map_get": [handle, data, size, data, size],
        "map_put": [handle, data, size, data, size],
        "map_del": [handle, data, size],
        "map_next": [handle, data, size, data, size],
        "map_len": [handle, wide],
        "clear": [handle],
        "explain": [data, size, ctypes.c_uint8, data, size, wide],
        "disassemble": [data, size, data, size, wide, number],
        "assemble": [data, size, data, size, wide, number],
    }.items():
        function = getattr(library, f"bpfh_{name}")
        function.argtypes = words
        function.restype = None if name == "clear" else ctypes.c_uint32
    return library


_library = _load()


class _Held:
    """What keeps a handle, and gives it back at last."""

    def __init__(self) -> None:
        self._handle = _Handle()
        self._at = ctypes.pointer(self._handle)

    def __del__(self, clear=_library.bpfh_clear) -> None:
        if hasattr(self, "_at"):
            clear(self._at)


class Map(_Held, MutableMapping):
    """At most 4,096 entries, from keys of 16 bytes to values of 32, in the order of the keys' bytes.

    Raises `KeyError` where there is no such entry, and `SandboxError` for a key or a value of another length, a full map, and
    where memory ran out; the map is then as it was."""

    def __init__(self) -> None:
        super().__init__()
        _check(_library.bpfh_map_new(self._at))
        self._key = ctypes.create_string_buffer(KEY)
        self._value = ctypes.create_string_buffer(VALUE)

    def __getitem__(self, key: bytes) -> bytes:
        self._found(_library.bpfh_map_get(self._at, key, len(key), self._value, VALUE), key)
        return self._value.raw

    def __setitem__(self, key: bytes, value: bytes) -> None:
        _check(_library.bpfh_map_put(self._at, key, len(key), value, len(value)))

    def __delitem__(self, key: bytes) -> None:
        self._found(_library.bpfh_map_del(self._at, key, len(key)), key)

    def __len__(self) -> int:
        count = ctypes.c_uint64()
        _check(_library.bpfh_map_len(self._at, ctypes.byref(count)))
        return count.value

    def __iter__(self) -> Iterator[bytes]:
        key = bytes(KEY)
        if key in self:
            yield key
        while True:
            status = _library.bpfh_map_next(self._at, key, KEY, self._key, KEY)
            if status == Status.NO_ENTRY:
                return
            _check(status)
            key = self._key.raw
            yield key

    @staticmethod
    def _found(status: int, key: bytes) -> None:
        if status == Status.NO_ENTRY:
            raise KeyError(key)
        _check(status)


class Procedure(_Held):
    """Code that was accepted under a profile, 1 or 2. Raises `Refused` for other code.

    A call runs it over a map and changes the map."""

    def __init__(self, code: bytes, profile: int = 1) -> None:
        super().__init__()
        verdict = _Verdict()
        status = _library.bpfh_verify(code, len(code), profile, self._at, ctypes.byref(verdict))
        if 0 < status <= Status.TOO_COMPLEX:
            raise Refused(status, verdict.slot, _told(_library.bpfh_explain, code, len(code), profile).decode())
        _check(status)
        #: The most steps that a call takes.
        self.bound: int = verdict.bound
        self._out = ctypes.create_string_buffer(MAX_OUTPUT)
        self._ended = _Ended()
        self._ended_at = ctypes.pointer(self._ended)

    def __call__(self, over: Map, args: bytes = b"", client: int = 0, _run=_library.bpfh_run) -> Ended:
        """Runs it, called by a client with at most 256 bytes of arguments, over a map.

        Raises `SandboxError` for longer arguments, and where memory ran out for a new entry: the map is then as it was just
        before that."""
        status = _run(self._at, over._at, client, args, len(args), self._out, MAX_OUTPUT, self._ended_at)
        if status:
            raise SandboxError(status)
        ended = self._ended
        length = ended.length
        return Ended(ended.value, ended.steps, self._out[:length] if length else b"")


def assemble(text: str | bytes) -> bytes:
    """The code of an assembler text. Raises `SandboxError` with the line of its first fault."""
    data = text.encode() if isinstance(text, str) else text
    return _told(_library.bpfh_assemble, data, len(data), at=ctypes.c_uint32())


def disassemble(code: bytes) -> str:
    """The text of code, a line for each instruction. Raises `Refused` for bytes that are no code."""
    return _told(_library.bpfh_disassemble, code, len(code), at=ctypes.c_uint32()).decode()


def _told(function, *words, at: ctypes.c_uint32 | None = None) -> bytes:
    """What a call writes into a buffer: asked for its length first, where the first buffer is too short."""
    told, room = ctypes.c_uint64(), 512
    behind = () if at is None else (ctypes.byref(at),)
    while True:
        buffer = ctypes.create_string_buffer(room)
        status = function(*words, buffer, room, ctypes.byref(told), *behind)
        if status != Status.BUFFER_TOO_SHORT:
            break
        room = told.value
    if status and at is not None and status != Status.MEMORY:
        raise (Refused if status < Status.MEMORY else SandboxError)(status, at.value)
    _check(status)
    return buffer.raw[: told.value]


def _check(status: int) -> None:
    if status:
        raise SandboxError(status)
