# SPDX-License-Identifier: Apache-2.0 OR GPL-2.0-or-later
"""A trace that is converted while it is written."""
from __future__ import annotations

from collections import Counter
from typing import TextIO

from converter.conversion import Conversion, Plan
from converter.ending import Status
from converter.facts import Facts
from converter.forms import form_of
from converter.log import kind_of
from converter.report import misfits, report
from converter.telling import Condition, holds
from converter.words import Asked, read_lines
from symbols import Symbols


class Following:
    """The log begins once its header is known, by the registers; what came before is kept until then."""

    def __init__(self, asked: Asked, symbols: Symbols, out: TextIO) -> None:
        self.allow, self.symbols, self.out = asked.allow, symbols, out
        self.facts = Facts(asked.world, symbols)
        self.header = asked.header
        self.is_late = "snapshot" in asked.allow
        self.conversion: Conversion | None = None
        self.early: list[str] = []
        self.held: list[str] = []
        self.judged: Counter[str] = Counter()

    def write(self, line: str, _: int, condition: Condition) -> None:
        if holds(condition, self.allow):
            self.held.append(line)

    def begin(self) -> Conversion:
        """Writes the header, as it is known now."""
        self.header = self.header or self.facts.header(self.allow)
        self.out.write(self.header + "\n")
        form = form_of(self.header)
        assert form is not None
        self.conversion = Conversion(self.facts, Plan(form, self.is_late), self.write)
        return self.conversion

    def begin_with_early(self) -> bool:
        conversion, early, self.early = self.begin(), self.early, []
        return all(self.convert(conversion, number, line) for number, line in enumerate(early))

    def convert(self, conversion: Conversion, index: int, line: str) -> bool:
        """What comes of a line is handed on where the header has all that is in it. Answers whether it has."""
        conversion.take(index, line)
        if misfits(conversion, self.header, self.allow):
            return False
        for told in self.held:
            self.out.write(told + "\n")
            self.judged[kind_of(told)] += 1
        self.held.clear()
        return True

    def is_known(self, index: int) -> bool:
        """Whether the header is known, and the log may begin."""
        return self.facts.start == index if self.is_late else bool(self.header or self.facts.first_form)

    def take(self, index: int, line: str) -> bool:
        """Takes a line. Answers whether the header has all that is in it."""
        self.facts.count(line)
        if self.conversion:
            self.facts.learn(index, line)
            fits = self.convert(self.conversion, index, line)
        else:
            self.facts.take(index, line)
            self.early.append(line)
            fits = not self.is_known(index) or self.begin_with_early()
        if self.conversion:
            self.out.flush()
        return fits

    def finish(self, fits: bool) -> Status:
        """The trace has ended, or a line of it didn't fit. Answers the exit status."""
        if fits and self.conversion is None:
            self.begin_with_early()
        assert self.conversion is not None
        status = report(self.conversion, self.header, self.allow, self.judged, [])
        if status is Status.DONE:
            self.out.write(f"end {sum(self.judged.values())}\n")
        self.out.flush()
        return status


def follow(asked: Asked, symbols: Symbols, out: TextIO) -> Status:
    """Converts a trace while it is written. Answers the exit status."""
    following = Following(asked, symbols, out)
    fits = all(following.take(index, line) for index, line in enumerate(read_lines(asked.trace)))
    return following.finish(fits)
