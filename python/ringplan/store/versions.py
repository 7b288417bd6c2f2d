"""Versions of a key, ordered by vector clocks (DeCandia et al. 2007, section 4.4)."""

from __future__ import annotations

from collections.abc import Iterable, Sequence
from typing import NamedTuple

Clock = dict[str, int]


class Version(NamedTuple):
    """What one put has stored: the put's number, its clock by writer, and the value."""

    put: int
    clock: Clock
    value: str


Contents = dict[str, list[Version]]


def is_at_most(one: Clock, other: Clock) -> bool:
    """Whether every counter of one clock is at most its counterpart in the other."""
    return all(other.get(writer, 0) >= count for writer, count in one.items())


def merged(old: Sequence[Version], new: Iterable[Version]) -> list[Version]:
    """The versions of both that no other of them succeeds: a version goes only where a later one
    knows of it.
    """
    kept = list(old)
    for version in new:
        if not any(is_at_most(version.clock, other.clock) for other in kept):
            kept = [other for other in kept if not is_at_most(other.clock, version.clock)]
            kept.append(version)
    return kept


def latest(old: Sequence[Version], new: Iterable[Version]) -> list[Version]:
    """What a store keeps in which the latest put wins: one of two puts that do not know of one
    another is lost.
    """
    return [max([*old, *new], key=lambda version: version.put)]
