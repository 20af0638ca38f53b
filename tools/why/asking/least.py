# SPDX-License-Identifier: Apache-2.0
"""From a refused log to the least log that the same rule refuses at the same place; and with `--rename` its PEs and
pages under small numbers.

Each try is judged by the program. What is tried first are the lines that name the pages on the way to the place, its
root, lock and tags (`names`); where these alone aren't refused alike, more lines are.
"""
from __future__ import annotations

from collections.abc import Callable, Iterator
from dataclasses import dataclass, field, replace
from functools import cached_property

from why.log.lines import ADDRESS_BITS, PAGE_BYTES, WITH_PAGE, Event, Line, Lines, Log, Numbers, header_of, written
from why.log.index import Index
from why.asking.program import Answer, Program, Verdict

BREAK_BEFORE_MAKE = 4
# A log of so many events is tried as it is.
FEW = 48
# So often lines are taken to those that are tried, or left out of them.
MENDED = 128


def without_some(numbers: Numbers, size: int, holds: Callable[[Numbers], bool]) -> Numbers:
    """The lines without each run of so many of them that isn't needed. The last line stays."""
    left, at = list(numbers), 0
    while at < len(left) - 1:
        fewer = left[:at] + left[min(at + size, len(left) - 1):]
        if holds(fewer):
            left = fewer
        else:
            at += size
    return left


def by_size(numbers: Numbers, holds: Callable[[Numbers], bool]) -> Numbers:
    """Lines of which none can be left out: by halves, quarters and so on, and then one by one until nothing more
    goes."""
    size = max(1, len(numbers) // 2)
    while True:
        fewer = without_some(numbers, size, holds)
        if size == 1 and len(fewer) == len(numbers):
            return fewer
        numbers, size = fewer, max(1, size // 2)


def groups(log: Log, numbers: Numbers) -> list[frozenset[int]]:
    """Lines that may have to go together: two or three in a row of one lock, or of one page that is made zero and
    declared."""
    named: dict[tuple, list[int]] = {}
    for at in numbers[:-1]:
        event = log.line(at).event
        if event.word in WITH_PAGE:
            named.setdefault(("page", event.page), []).append(at)
        elif event.lock is not None:
            named.setdefault(("lock", event.lock), []).append(at)
    return [frozenset(lines[i:i + size]) for size in (3, 2) for lines in named.values() for i in range(len(lines) - size + 1)]


def without_groups(log: Log, numbers: Numbers, holds: Callable[[Numbers], bool]) -> Numbers:
    for group in groups(log, numbers):
        fewer = [at for at in numbers if at not in group]
        if group <= set(numbers) and holds(fewer):
            numbers = fewer
    return numbers


def reduced(log: Log, numbers: Numbers, holds: Callable[[Numbers], bool]) -> Numbers:
    """Lines of which none can be left out, nor a group of them."""
    while True:
        least = by_size(numbers, holds)
        numbers = without_groups(log, least, holds)
        if len(numbers) == len(least):
            return numbers


class Over(Exception):
    """There is no time left."""


def reduced_in_time(log: Log, numbers: Numbers, holds: Callable[[Numbers], bool],
                    is_over: Callable[[], bool]) -> Numbers:
    """The same, or what is left of the lines when the time is over."""
    left = numbers

    def asked(fewer: Numbers) -> bool:
        nonlocal left
        if is_over():
            raise Over
        if holds(fewer):
            left = fewer
        return left is fewer

    try:
        return reduced(log, numbers, asked)
    except Over:
        return left


class Shrinker:
    """The least logs of one refused log: the same rule refuses the last line at the same place, which has come as
    far at each PE."""

    def __init__(self, program: Program, log: Log, refusal: Verdict):
        self.program, self.log, self.refusal = program, log, refusal
        self.phases = program.explain(log.until(refusal.line)).phases if refusal.rule == BREAK_BEFORE_MAKE else ()

    @cached_property
    def index(self) -> Index:
        return Index(self.log, self.refusal)

    def is_alike(self, answer: Answer, numbers: Numbers) -> bool:
        found = answer.refusal
        return found is not None and (found.line, found.rule, found.at) == (len(numbers) + 1, self.refusal.rule, self.refusal.at)

    def holds(self, numbers: Numbers) -> bool:
        log = self.log.cut(numbers)
        answer = self.program.explain(log) if self.phases else self.program.check(log)
        return self.is_alike(answer, numbers) and answer.phases == self.phases

    def fronts(self, since: int) -> Iterator[Numbers]:
        """Lines to try, from few to all up to the refused one; barriers and TLBIs count from a line on at the
        latest."""
        yield from self.index.slices(since)
        yield range(2, self.refusal.line + 1)

    def mended(self, numbers: Numbers) -> Numbers | None:
        """These lines until the last one is refused alike: what the program refuses before it is left out, but for
        what it needs where more lines can be taken in for that; None where that comes to no end."""
        needed, left_out = self.index.core, set()
        for _ in range(MENDED):
            if self.holds(numbers):
                return numbers
            refusal = self.program.check(self.log.cut(numbers)).refusal
            if refusal is None or refusal.line > len(numbers):
                return None
            at = numbers[refusal.line - 2]
            wider = sorted({*numbers, *self.index.about(at, refusal)} - left_out) if at in needed else numbers
            if len(wider) == len(numbers):
                left_out.add(at)
                wider = [other for other in numbers if other != at]
            numbers = wider
        return None

    def barest(self, numbers: Numbers) -> Numbers:
        """Of these lines the least that the same rule refuses at the same place, however far the place has come."""
        return reduced(self.log, numbers, lambda fewer: self.is_alike(self.program.check(self.log.cut(fewer)), fewer))


# ---- small numbers

FIRST_PAGE = 0x4000_0000


@dataclass
class Names:
    """New numbers, in the order in which the old ones come. Pages that are joined to one root stay together."""

    joined: int
    pes: dict[int, int] = field(default_factory=dict)
    groups: dict[int, int] = field(default_factory=dict)

    def pe(self, old: int) -> int:
        return self.pes.setdefault(old, len(self.pes))

    def address(self, old: int) -> int:
        group = old // PAGE_BYTES // self.joined
        new = self.groups.setdefault(group, len(self.groups))
        return FIRST_PAGE + new * self.joined * PAGE_BYTES + old % (self.joined * PAGE_BYTES)

    def linked(self, value: int, pages: set[int]) -> int:
        """A value whose address is a page of the log's tables, under the new one."""
        page = value & ADDRESS_BITS
        return value & ~ADDRESS_BITS | self.address(page) if page in pages and page else value


def renamed_line(line: Line, names: Names, pages: set[int]) -> Line:
    event = line.event
    rest = list(event.rest)
    if event.word == "w":
        rest = [hex(names.address(event.place)), hex(names.linked(event.value, pages) if event.value & 3 == 3 else event.value)]
    elif event.word == "msr":
        rest[1] = hex(names.linked(event.value, pages))
    elif event.page is not None:
        rest[-1] = hex(names.address(event.page))
    return Line(line.at, str(Event(event.word, names.pe(event.pe), tuple(rest), event.label)))


def renamed(header_text: str, lines: Lines) -> bytes:
    pages = {line.event.page for line in lines if line.event.page is not None}
    header = header_of(header_text)
    names = Names(max(1, header.pages_of("s2")))
    new = [renamed_line(line, names, pages) for line in lines]
    return written(str(replace(header, pes=len(names.pes))), new)


def if_alike(program: Program, header: str, lines: Lines) -> bytes:
    """The log under new names, or as it is where the same rule doesn't refuse its last line then."""
    logs = written(header, lines), renamed(header, lines)
    old, new = (program.check(log).refusal for log in logs)
    return logs[bool(old and new and (old.line, old.rule) == (new.line, new.rule))]
