"""How far the numbers of record kinds go."""

from __future__ import annotations

from dataclasses import dataclass


@dataclass(frozen=True)
class Limits:
    kinds: int  # the highest record kind that the vector check knows


WHOLE = Limits(kinds=9)
