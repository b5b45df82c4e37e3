"""Bytes between machines, by ZeroMQ with CURVE: each replica has a ROUTER, and a DEALER towards each other one; a client has a DEALER
towards each replica. Only members' keys of the transport are let in, and a member is known by that key alone, whatever it calls
itself; what it says counts by its signature.

A frame has a tag, and messages one after another, each behind its length: what waits for a peer goes together, since a frame of ten costs
the processor little more than a frame of one. A replica's calls here never wait: it polls the sockets.

All that waits is bounded in bytes: a frame has a message of at most 8,388,608, or several of 1,000,000 together, each queue of ZeroMQ holds 8
frames of a peer, and what waits for a peer that reads nothing is dropped from 64 MB on, the oldest first. Peers are read in turn."""
from __future__ import annotations

import enum
from collections import deque
from collections.abc import Iterable
from typing import NamedTuple

import zmq
from zmq.auth.thread import ThreadAuthenticator

from configuration import Group, Member
from faults import ConfigurationFault
from messages import CLIENT

MAX_MESSAGE = 8_388_608
MAX_FRAME = MAX_MESSAGE + 64  # with the message's length, and what CURVE adds
MAX_TOGETHER = 1_000_000  # from so many bytes on, what waits goes into the next frame
MAX_IN_FRAME = 256  # messages, so that peers are read in turn
MAX_QUEUE = 64_000_000
QUEUE_OF_MESSAGES = 8
QUEUE_OF_REPLIES = 1000
LENGTH = 4
OBJECT = 64  # bytes that Python takes for one, about


class Tag(bytes, enum.Enum):
    """What a frame is."""

    MESSAGE = b"message"  # messages of the protocol
    STARTED = b"started"  # the peer has started: it may have missed something
    YOURS = b"yours"  # to one that has started: its signed message of the highest leaf that was seen, or nothing


_TAGS = {tag.value: tag for tag in Tag}


class Came(NamedTuple):
    """A frame, and the member that it came from."""

    sender: Member
    tag: Tag
    messages: list[bytes]

    @property
    def size(self) -> int:
        """About how many bytes of memory it takes, also where its messages are empty."""
        return OBJECT + sum(OBJECT + len(message) for message in self.messages)


def packed(messages: Iterable[bytes]) -> bytes:
    """Messages in a frame."""
    return b"".join(part for message in messages for part in (len(message).to_bytes(LENGTH, "big"), message))


def unpacked(frame: bytes) -> list[bytes] | None:
    """The messages in a frame, unless it is of another form."""
    messages, at = [], 0
    while at < len(frame) and len(messages) < MAX_IN_FRAME:
        begins = at + LENGTH
        at = begins + int.from_bytes(frame[at:begins], "big")
        messages.append(frame[begins:at])
    return messages if at == len(frame) else None


def secure(socket: zmq.Socket, own: Member, secret: bytes, server: Member | None = None) -> None:
    """Gives a socket its keys: those of a server, or of one that connects to this server."""
    socket.linger = 0
    socket.curve_publickey, socket.curve_secretkey = own.curve, secret
    if server is None:
        socket.curve_server = True
    else:
        socket.curve_serverkey = server.curve
    socket.setsockopt(zmq.HEARTBEAT_IVL, 5000)
    socket.setsockopt(zmq.RECONNECT_IVL_MAX, 1000)


class Outbox:
    """What waits for a peer, and the connection to it."""

    def __init__(self, context: zmq.Context, own: Member, secret: bytes, peer: Member) -> None:
        self.peer, self.dropped = peer, 0
        self._waiting: deque[tuple[Tag, bytes]] = deque()
        self._bytes = 0
        self.socket = context.socket(zmq.DEALER)
        secure(self.socket, own, secret, peer)
        self.socket.sndhwm = QUEUE_OF_MESSAGES
        self.socket.rcvhwm = 1
        self.socket.maxmsgsize = 4096  # a handshake's: nothing else is to come back
        self.socket.connect(peer.address)

    @property
    def is_empty(self) -> bool:
        """Whether nothing waits."""
        return not self._waiting

    def post(self, tag: Tag, message: bytes) -> None:
        """Has a message wait until `send` is called."""
        self._waiting.append((tag, message))
        self._bytes += len(message)
        while self._bytes > MAX_QUEUE:
            self._bytes -= len(self._waiting.popleft()[1])
            self.dropped += 1

    def send(self) -> None:
        """Sends what waits, in order, as far as the connection takes it now."""
        while self._waiting and self.socket.get(zmq.EVENTS) & zmq.POLLOUT:
            tag, messages = self._next_frame()
            try:
                self.socket.send_multipart([tag.value, packed(messages)], zmq.NOBLOCK)
            except zmq.Again:
                return
            for message in messages:
                self._waiting.popleft()
                self._bytes -= len(message)

    def _next_frame(self) -> tuple[Tag, list[bytes]]:
        """The first message that waits, and those behind it that go into its frame."""
        tag, messages, size = self._waiting[0][0], [], 0
        for its_tag, message in self._waiting:
            size += len(message)
            if its_tag != tag or len(messages) == MAX_IN_FRAME or (messages and size > MAX_TOGETHER):
                break
            messages.append(message)
        return tag, messages


class Inbox:
    """What comes to a replica, and its way back to clients."""

    def __init__(self, context: zmq.Context, group: Group, own: Member, secret: bytes) -> None:
        self._members = {member.curve.decode(): member for member in (*group.replicas, *group.clients) if member != own}
        self._names: dict[int, bytes] = {}  # of the clients' connections, as they came last
        self._guard = ThreadAuthenticator(context)
        self._guard.start()
        self._guard.configure_curve_callback("*", self)
        self.socket = context.socket(zmq.ROUTER)
        secure(self.socket, own, secret)
        self.socket.sndhwm, self.socket.rcvhwm = QUEUE_OF_REPLIES, QUEUE_OF_MESSAGES
        self.socket.maxmsgsize = MAX_FRAME
        try:
            self.socket.bind(own.address)
        except zmq.ZMQError as fault:
            self.close()
            raise ConfigurationFault(f"{own.name} can't listen at {own.address}: {fault.strerror}.") from None

    def callback(self, domain: str, key: bytes) -> bool:
        """Whether somebody with this key of the transport may connect."""
        return key.decode() in self._members

    def next(self) -> Came | None:
        """The next frame that is here already, if it is a member's."""
        try:
            return self._understood(self.socket.recv_multipart(zmq.NOBLOCK, copy=False))
        except zmq.Again:
            return None

    def _understood(self, frames: list[zmq.Frame]) -> Came | None:
        if len(frames) != 3:
            return None
        sender, tag, messages = self._members.get(frames[2].get("User-Id")), _TAGS.get(frames[1].bytes), unpacked(frames[2].bytes)
        if sender is None or tag is None or messages is None:
            return None
        if sender.role == CLIENT:
            self._names[sender.id] = frames[0].bytes
        return Came(sender, tag, messages)

    def reply(self, client: int, message: bytes) -> None:
        """Sends a client a message, if it has a connection; one that reads nothing loses it."""
        if client in self._names:
            self.socket.send_multipart([self._names[client], Tag.MESSAGE.value, packed([message])], zmq.NOBLOCK)

    def close(self) -> None:
        self._guard.stop()


class Callers:
    """A client's connections to the replicas of a group."""

    def __init__(self, group: Group, own: Member, secret: bytes) -> None:
        self._context = zmq.Context()
        self._poller = zmq.Poller()
        self._sockets: dict[zmq.Socket, Member] = {}
        for replica in group.replicas:
            socket = self._context.socket(zmq.DEALER)
            secure(socket, own, secret, replica)
            socket.sndhwm = socket.rcvhwm = QUEUE_OF_MESSAGES
            socket.maxmsgsize = MAX_FRAME
            socket.connect(replica.address)
            self._sockets[socket] = replica
            self._poller.register(socket, zmq.POLLIN)

    def send(self, message: bytes) -> None:
        """Sends all replicas a message; one that doesn't read loses it."""
        frame = packed([message])
        for socket in self._sockets:
            try:
                socket.send_multipart([Tag.MESSAGE.value, frame], zmq.NOBLOCK)
            except zmq.Again:
                pass

    def receive(self, seconds: float) -> list[tuple[Member, bytes]]:
        """What came from replicas within so many seconds: nothing, or the messages of a frame of each."""
        came = []
        for socket, _ in self._poller.poll(max(0, int(seconds * 1000))):
            frames = socket.recv_multipart()
            if len(frames) == 2 and frames[0] == Tag.MESSAGE.value:
                came += [(self._sockets[socket], message) for message in unpacked(frames[1]) or []]
        return came

    def close(self) -> None:
        self._context.destroy(linger=0)
