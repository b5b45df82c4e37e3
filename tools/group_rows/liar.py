"""A replica that lies: two of one seed. Replica 1 and client 100 are heard and told by the one, the others by the other, so that as a
primary it proposes two requests at one number, and signs twice with a leaf. It keeps no journal."""
from __future__ import annotations

import sys
from pathlib import Path

import parts_path  # noqa: F401
import zmq
from bpf_host_replica import GroupError, Message, Replica, To
from configuration import read_group, read_secrets
from messages import REPLICA
from transport import Inbox, Outbox, Tag


PAUSE = 100  # milliseconds, after which it looks whether a connection takes more


def half_of(id: int) -> int:
    return 0 if id in (1, 100) else 1


def lie(folder: Path, id: int) -> None:
    group = read_group(folder)
    me = group.member(REPLICA, id)
    secrets, config, context = read_secrets(group, me), group.configuration(), zmq.Context()
    replicas = [Replica(config, id, secrets.seed) for _ in range(2)]
    inbox = Inbox(context, group, me, secrets.curve)
    outboxes = {peer.id: Outbox(context, me, secrets.curve, peer) for peer in group.replicas if peer != me}

    def tell(half: int, message: Message) -> None:
        for peer, outbox in outboxes.items():
            if half_of(peer) == half and (message.to == To.ALL or (message.to == To.REPLICA and message.id == peer)):
                outbox.post(Tag.MESSAGE, message.bytes)
        if message.to == To.CLIENT and half_of(message.id) == half:
            inbox.reply(message.id, message.bytes)

    poller = zmq.Poller()
    poller.register(inbox.socket, zmq.POLLIN)
    while True:
        poller.poll(PAUSE)
        came = inbox.next()
        for heard in came.messages if came and came.tag == Tag.MESSAGE else []:
            half = half_of(came.sender.id)
            try:
                outputs = replicas[half].take(heard)
            except GroupError:
                continue
            for message in outputs:
                tell(half, message)
        for outbox in outboxes.values():
            outbox.send()


if __name__ == "__main__":
    lie(Path(sys.argv[1]), int(sys.argv[2]))
