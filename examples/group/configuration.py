"""Who takes part in a group: `group.toml`, which is public and the same at all parties, and a folder for each member with what it
keeps secret: `seed`, the hex digits of 48 bytes, and `curve`, the secret key of its transport.

    f = 1
    k = 8
    interval = 1.0

    [[replica]]
    id = 0
    address = "tcp://127.0.0.1:7100"
    key = "00000002.."
    heights = [10, 10]
    curve = ".."

    [[client]]
    id = 100
    tenant = 1
    key = "00000002.."
    heights = [10, 10]
    curve = ".."
"""
from __future__ import annotations

import hashlib
import os
import secrets
import tomllib
from dataclasses import dataclass
from pathlib import Path

import zmq

from bpf_host_replica import Configuration, GroupError, Seed
from faults import ConfigurationFault
from messages import CLIENT, REPLICA

FILE = "group.toml"
HEIGHTS = (5, 10)


@dataclass(frozen=True, slots=True)
class Member:
    """A replica or a client, as all parties know it."""

    role: int
    id: int
    key: bytes
    heights: tuple[int, int]
    curve: bytes
    address: str = ""  # of a replica
    tenant: int = 0  # of a client

    @property
    def name(self) -> str:
        return f"{'replica' if self.role == REPLICA else 'client'}-{self.id}"

    def entry(self) -> str:
        """Its table in `group.toml`."""
        kind, own = ("replica", f'address = "{self.address}"') if self.role == REPLICA else ("client", f"tenant = {self.tenant}")
        heights, curve = list(self.heights), self.curve.decode()
        return f'\n[[{kind}]]\nid = {self.id}\n{own}\nkey = "{self.key.hex()}"\nheights = {heights}\ncurve = "{curve}"\n'


@dataclass(frozen=True, slots=True)
class Secrets:
    """What a member keeps to itself."""

    seed: Seed
    curve: bytes


@dataclass(frozen=True, slots=True)
class Group:
    """Who takes part, and where a party keeps what is its own."""

    folder: Path
    f: int
    k: int
    interval: float  # the seconds of the first timeout, and between a client's repeats
    replicas: tuple[Member, ...]
    clients: tuple[Member, ...]

    def member(self, role: int, id: int) -> Member:
        for member in self.replicas if role == REPLICA else self.clients:
            if member.id == id:
                return member
        raise ConfigurationFault(f"{self.folder / FILE} lists no {'replica' if role == REPLICA else 'client'} {id}.")

    def folder_of(self, member: Member) -> Path:
        return self.folder / member.name

    def key_of(self, role: int, id: int) -> bytes:
        return self.member(role, id).key

    def configuration(self) -> Configuration:
        """The library's, which checks it."""
        try:
            clients = {client.id: (client.tenant, client.key) for client in self.clients}
            return Configuration(self.f, self.k, [replica.key for replica in self.replicas], clients)
        except GroupError as fault:
            raise ConfigurationFault(f"{self.folder / FILE} is no configuration of a group: {fault.status.name}.") from None

    def digest(self) -> bytes:
        """A hash of all that messages depend on: addresses and the transport's keys may change."""
        text = [f"{self.f} {self.k}"] + [f"replica {it.id} {it.key.hex()}" for it in self.replicas]
        text += [f"client {it.id} {it.tenant} {it.key.hex()}" for it in self.clients]
        return hashlib.sha256("\n".join(text).encode()).digest()


def read_group(folder: Path) -> Group:
    """The group of a folder."""
    path = folder / FILE
    try:
        text = tomllib.loads(path.read_text(encoding="utf-8"))
        replicas = tuple(_member(REPLICA, it) for it in text.get("replica", []))
        clients = tuple(_member(CLIENT, it) for it in text.get("client", []))
        group = Group(folder, text["f"], text["k"], float(text["interval"]), replicas, clients)
    except OSError as fault:
        raise ConfigurationFault(f"{path} can't be read ({fault.strerror}): `group init {folder}` makes a group.") from None
    except (KeyError, TypeError, ValueError) as fault:
        raise ConfigurationFault(f"{path} isn't as it is to be: {fault!r}.") from None
    if [it.id for it in replicas] != list(range(len(replicas))):
        raise ConfigurationFault(f"{path} is to list its replicas in the order of their ids, from 0 on.")
    if not 0.01 <= group.interval <= 3600:
        raise ConfigurationFault(f"{path}: the interval is from 0.01 to 3,600 seconds.")
    return group


def _member(role: int, table: dict) -> Member:
    top, bottom = table["heights"]
    own = {"address": str(table["address"])} if role == REPLICA else {"tenant": int(table["tenant"])}
    return Member(role, int(table["id"]), bytes.fromhex(table["key"]), (top, bottom), table["curve"].encode(), **own)


def make_member(folder: Path, role: int, id: int, heights: tuple[int, int], address: str = "", tenant: int = 0) -> Member:
    """Draws a member's secrets, writes them into its folder, which must not be there yet, and returns what all may know of it."""
    top, bottom = heights
    if top not in HEIGHTS or bottom not in (0, *HEIGHTS):
        raise ConfigurationFault("A key's heights are 5 or 10, and below it 0, 5 or 10.")
    seed = Seed(secrets.token_bytes(16), secrets.token_bytes(32), top, bottom)
    public, secret = zmq.curve_keypair()
    member = Member(role, id, seed.public_key(), heights, public, address, tenant)
    own = folder / member.name
    try:
        own.mkdir(parents=True, mode=0o700)
        _write_secret(own / "seed", (seed.identifier + seed.secret).hex())
        _write_secret(own / "curve", secret.decode())
    except FileExistsError:
        raise ConfigurationFault(f"{own} is there already, and a seed is never replaced.") from None
    return member


def _write_secret(path: Path, text: str) -> None:
    """Writes a new file that its owner alone can read, and waits until it is on the disk."""
    with os.fdopen(os.open(path, os.O_WRONLY | os.O_CREAT | os.O_EXCL, 0o600), "w", encoding="ascii") as file:
        file.write(text + "\n")
        file.flush()
        os.fsync(file.fileno())


def write_group(folder: Path, f: int, k: int, interval: float, members: list[Member]) -> Group:
    """Writes `group.toml`, which must not be there yet, and reads it as every party will."""
    head = f"# A group of bpf_host: the same at all parties.\nf = {f}\nk = {k}\ninterval = {interval}\n"
    with open(folder / FILE, "x", encoding="utf-8") as file:
        file.write(head + "".join(member.entry() for member in members))
    group = read_group(folder)
    group.configuration()
    return group


def read_secrets(group: Group, member: Member) -> Secrets:
    """A member's secrets, from files that nobody else can read. Whether the seed is that of the listed key sees the library, as it makes
    the member (`OTHER_KEY`)."""
    own = group.folder_of(member)
    seed, curve = _read_secret(own / "seed"), _read_secret(own / "curve")
    try:
        text = bytes.fromhex(seed)
        fits = len(text) == 48 and zmq.curve_public(curve.encode()) == member.curve
    except (ValueError, zmq.ZMQError):
        fits = False
    if not fits:
        raise other_secrets(group, member)
    return Secrets(Seed(text[:16], text[16:], *member.heights), curve.encode())


def other_secrets(group: Group, member: Member) -> ConfigurationFault:
    return ConfigurationFault(f"The secrets in {group.folder_of(member)} aren't those of {member.name} in {group.folder / FILE}.")


def _read_secret(path: Path) -> str:
    try:
        with open(path, encoding="ascii") as file:
            if os.fstat(file.fileno()).st_mode & 0o077:
                raise ConfigurationFault(f"{path} can be read by others than its owner: its mode is to be 0600.")
            return file.read().strip()
    except OSError as fault:
        raise ConfigurationFault(f"{path} can't be read: {fault.strerror}.") from None
