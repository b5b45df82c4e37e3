"""Why a command of `group` ends. Each fault is a sentence for a person, and has the status with which the command ends."""
from __future__ import annotations


class GroupFault(Exception):
    """A command ends, and says why."""

    status = 1


class ConfigurationFault(GroupFault):
    """A file of the configuration, or a key, isn't as it is to be."""

    status = 78


class MissingLibrary(GroupFault):
    """The library, or a package, isn't there."""

    status = 69


class Locked(GroupFault):
    """Another process has the folder."""

    status = 73


class ReplayFault(GroupFault):
    """A journal isn't one of this replica, or gives something else when it is taken again."""

    status = 65


class LostMemory(GroupFault):
    """A peer has seen a signature of this replica that its journal doesn't know."""

    status = 76


class EndedForGood(GroupFault):
    """The replica has halted, and halts again however often it is started."""

    status = 77


class MemoryRanOut(GroupFault):
    """Memory ran out. The process may be started again."""

    status = 75


class DiskFault(GroupFault):
    """A journal can't be written or read."""

    status = 74


class NoReply(GroupFault):
    """No reply was accepted in the time that was given."""

    status = 70


class NoLeaves(GroupFault):
    """A client's key has no leaf left."""

    status = 77
