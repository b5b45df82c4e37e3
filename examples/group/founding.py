"""How a group comes to be: all of it at once, or a member at each party."""
from __future__ import annotations

from pathlib import Path

from configuration import FILE, Member, make_member, write_group
from faults import ConfigurationFault
from messages import CLIENT, REPLICA

FIRST_CLIENT = 100
TENANTS = 8


def run_init(folder: Path, f: int, k: int, interval: float, clients: int, heights: tuple[int, int], address: str) -> int:
    """The command `group init`: a group whose members' secrets are all made here."""
    if (folder / FILE).exists():
        raise ConfigurationFault(f"{folder / FILE} is there already, and a group is never replaced.")
    addresses = addresses_from(folder, address, 3 * f + 1)
    members = [make_member(folder, REPLICA, id, heights, address=at) for id, at in enumerate(addresses)]
    members += [make_member(folder, CLIENT, FIRST_CLIENT + n, heights, tenant=1 + n % TENANTS) for n in range(clients)]
    write_group(folder, f, k, interval, members)
    print(f"{folder / FILE}: {len(addresses)} replicas, {clients} clients. Each folder beside it is one member's, and secret.")
    return 0


def addresses_from(folder: Path, first: str, count: int) -> list[str]:
    """The replicas' addresses: ports from that of the first on, or files of the folder."""
    if first == "ipc":
        return [f"ipc://{folder.resolve()}/{id}.ipc" for id in range(count)]
    host, colon, port = first.rpartition(":")
    if not host.startswith("tcp://") or not colon or not port.isdecimal():
        raise ConfigurationFault(f"{first} is no address: one is as tcp://192.0.2.7:7100, or ipc.")
    return [f"{host}:{int(port) + id}" for id in range(count)]


def run_member(folder: Path, role: str, id: int, heights: tuple[int, int], address: str, tenant: int) -> int:
    """The command `group member`: makes the secrets of one member, and prints what the others are told of it."""
    if role == "replica" and not address:
        raise ConfigurationFault("A replica has an address, at which the others reach it: --address tcp://192.0.2.7:7100.")
    member: Member = make_member(folder, REPLICA if role == "replica" else CLIENT, id, heights, address, tenant)
    print(member.entry().strip())
    return 0
