"""How much of each row: a little, or as much as is worth a long wait."""
from __future__ import annotations

from dataclasses import dataclass


@dataclass(frozen=True, slots=True)
class Counts:
    """How much of it."""

    requests: int
    kills: int
    rounds: int  # how often all are killed at once
    away: float  # seconds
    noise: int
    heights: str  # of keys: 5,5 has 1,024 leaves, 5,10 has 32,768


SMALL = Counts(requests=20, kills=4, rounds=1, away=0.0, noise=50, heights="5,5")
FULL = Counts(requests=3000, kills=100, rounds=20, away=5.0, noise=5000, heights="5,10")
