# SPDX-License-Identifier: Apache-2.0 OR GPL-2.0-or-later
"""What is handed on: the lines of a log, each with the condition on which it is told, and how often what was done."""
from __future__ import annotations

from collections import Counter
from collections.abc import Callable, Collection, Mapping
from dataclasses import dataclass, field

from converter.records import Record
from symbols import Symbols

# It says of some normalisations whether they have to be made, or not to be.
Condition = Mapping[str, bool]
# Takes a line, the number of the trace's line that it comes from, and its condition.
Sink = Callable[[str, int, Condition], None]


def holds(condition: Condition, allow: Collection[str]) -> bool:
    """Whether a line is told with these normalisations."""
    return all((name in allow) == made for name, made in condition.items())


@dataclass
class Telling:
    """Nothing is handed on, and hardly anything is counted, before the log has started."""

    symbols: Symbols
    out: Sink
    started: bool
    index: int = 0
    made: Counter[str] = field(default_factory=Counter)
    told: Counter[str] = field(default_factory=Counter)
    left_out: Counter[str] = field(default_factory=Counter)

    def emit(self, line: str, record: Record | None = None, condition: Condition | None = None) -> None:
        if not self.started:
            return
        label = record and self.symbols.label(record.pc, record.physical_pc, record.el)
        self.out(f"{line} @{label}" if label else line, self.index, condition or {})

    def normalised(self, name: str) -> Condition:
        """The condition of a line that a normalisation makes; it is counted."""
        self.made[name] += self.started
        return {name: True}

    def unless(self, name: str) -> Condition:
        """The condition of a line that a normalisation leaves out, or tells otherwise; it is counted."""
        self.made[name] += self.started
        return {name: False}

    def leave_out(self, what: str) -> None:
        self.left_out[what] += self.started
