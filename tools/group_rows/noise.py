"""A member that sends all replicas what it shouldn't: bytes at random, 9 MB, and the messages of a journal again; or one that asks
and never reads an answer."""
from __future__ import annotations

import random
import sqlite3
import sys
import time
from pathlib import Path

import parts_path  # noqa: F401
from configuration import read_group, read_secrets
from journal import NAME
from messages import CLIENT
from transport import Callers, Tag, packed


def messages_in(path: Path) -> list[bytes]:
    base = sqlite3.connect(f"file:{path}?mode=ro", uri=True)
    taken = base.execute("SELECT message FROM row WHERE message IS NOT NULL")
    given = base.execute("SELECT message FROM output")
    return [message for (message,) in [*taken, *given]]


def send(callers: Callers, message: bytes) -> None:
    """Sends all replicas a message, and waits where one doesn't read."""
    for socket in callers._sockets:
        socket.send_multipart([Tag.MESSAGE.value, packed([message])])


def main(folder: Path, client: int, count: int) -> None:
    group = read_group(folder)
    me = group.member(CLIENT, client)
    draw = random.Random(client)
    callers = Callers(group, me, read_secrets(group, me).curve)
    for socket in callers._sockets:
        socket.sndtimeo = 30_000
    for _ in range(count):
        send(callers, draw.randbytes(draw.randrange(6000)))
    for message in messages_in(folder / "replica-1" / NAME):
        send(callers, message)
        cut = bytearray(message)
        cut[draw.randrange(len(cut))] ^= 1 << draw.randrange(8)
        send(callers, bytes(cut))
    for socket in callers._sockets:
        socket.send_multipart([Tag.YOURS.value, packed([draw.randbytes(100)])])
        socket.send_multipart([Tag.MESSAGE.value, draw.randbytes(100)])
        socket.send_multipart([Tag.MESSAGE.value, bytes(100_000)])
        socket.send_multipart([b"started"] * 3)
        socket.send_multipart([b"nothing", b""])
        socket.send_multipart([Tag.MESSAGE.value, bytes(9_000_000)])
    time.sleep(1)
    callers.close()


if __name__ == "__main__":
    main(Path(sys.argv[1]), int(sys.argv[2]), int(sys.argv[3]))
