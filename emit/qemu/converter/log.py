# SPDX-License-Identifier: Apache-2.0 OR GPL-2.0-or-later
"""The lines of a log, whatever normalisations are made."""
from __future__ import annotations

from bisect import bisect_right
from collections.abc import Collection, Sequence
from dataclasses import dataclass, field

from converter import normalisations
from converter.telling import Condition, holds

HELD, ADDED = "held", "added"


@dataclass
class Log:
    """For each line the number of the trace's line that it comes from, and for some the condition on which it is
    told."""

    lines: list[str] = field(default_factory=list)
    origins: list[int] = field(default_factory=list)
    conditions: dict[int, Condition] = field(default_factory=dict)

    def add(self, line: str, origin: int, condition: Condition) -> None:
        if condition:
            self.conditions[len(self.lines)] = condition
        self.lines.append(line)
        self.origins.append(origin)

    def told(self, allow: Collection[str], upto: int | None = None) -> list[int]:
        """The numbers of the lines that are told with these normalisations, up to those of one line of the trace."""
        end = len(self.lines) if upto is None else bisect_right(self.origins, upto)
        some = self.conditions
        return [number for number in range(end) if number not in some or holds(some[number], allow)]

    def text(self, header: str, numbers: Sequence[int], has_end: bool = True) -> str:
        end = [f"end {len(numbers)}"] if has_end else []
        return "\n".join([header, *map(self.lines.__getitem__, numbers), *end]) + "\n"

    def names_before(self, upto: int) -> set[str]:
        """The normalisations by which the lines up to those of one line of the trace differ."""
        end = bisect_right(self.origins, upto)
        return {name for number, condition in self.conditions.items() if number < end for name in condition}


def kind_of(line: str) -> str:
    """The word of a line of a log; but HELD for what a table held when it became known, and ADDED for what a
    normalisation adds."""
    event, _, label = line.partition(" @")
    word = event[:event.index(" ")]
    if label in ("contents", "snapshot"):
        return HELD if word == "w" else word
    return ADDED if label in normalisations.ALL else word
