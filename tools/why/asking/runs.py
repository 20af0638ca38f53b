# SPDX-License-Identifier: Apache-2.0
"""A run of the small log that ends in a conflict, in words: the program's `counterrun` gives it, and its `follow` the
conflict."""
from __future__ import annotations

import re
from collections.abc import Callable
from dataclasses import dataclass
from itertools import chain

from why.asking.least import FEW, Shrinker, reduced_in_time
from why.asking.program import Answer, Program, Status
from why.log import words
from why.log.lines import Line, Lines, Numbers

COMMAND = "counterrun"
# So many events the command takes.
MOST_EVENTS = 2000
# So many TLBIs that leave an entry are named.
NAMED = 3
FLUSHING = ("tlbi", "dsb")
CONFLICT = re.compile(r"run \d+ steps conflict line (\d+)")


@dataclass
class Entry:
    """An entry of a TLB: at which PE, the places that were read for it, behind which row it was made, and where it
    ends."""

    pe: int
    places: tuple[str, ...]
    row: int
    kind: str = ""
    gone: int | None = None


@dataclass(frozen=True)
class Run:
    """The text of a run, split at its lines, and the row of the small log at which it conflicts."""

    steps: tuple[str, ...]
    conflict: int


class Beyond(Exception):
    """A log or a run reaches a limit of the program, so it says nothing of a conflict."""


def answer_within(program: Program, command: str, log: bytes) -> Answer:
    answer = program.ask((command,), log)
    if answer.status == Status.LIMIT:
        raise Beyond(answer.first)
    return answer


def run_of(program: Program, log: bytes) -> Run | None:
    """The run of a log, where the program has one."""
    return run_in(program, answer_within(program, COMMAND, log).text)


def run_in(program: Program, told: str) -> Run | None:
    """The run that a text is; it has to end in a conflict by `follow`."""
    if not told.startswith("bbmlog "):
        return None
    found = CONFLICT.match(answer_within(program, "follow", told.encode("latin-1")).first)
    if not found:
        return None
    steps = tuple(told.split("\n")[1:-2])
    before = steps[:int(found.group(1)) - 2]
    return Run(steps, sum(not step.startswith("m ") for step in before))


class Told:
    """Tells a run step by step. Rows are those of its lines, from 0. The whole run is that of which it is a part."""

    def __init__(self, lines: Lines, run: Run, whole: Told | None = None):
        self.lines, self.run, self.whole = lines, run, whole
        self.entries: list[Entry] = []
        self.texts: list[str] = []
        self.rows: list[int] = []
        self.read()

    def behind(self, row: int) -> str:
        return f"after {self.lines[row - 1].name}" if row else "before the first event"

    def take(self, step: str, row: int) -> None:
        """One step of the machine, which comes before the event of this row."""
        _, word, *fields = step.split(" ")
        if word == "start":
            pe, kind, tag, place, value = fields
            self.entries.append(Entry(int(pe), (place,), row, kind))
            under = f" under {'VMID' if kind == 's2' else 'ASID'} {tag}" if kind != "el2" else ""
            self.texts.append(f"PE {pe} walks to {place}{under} {self.behind(row)} and keeps what it reads: {value}")
            return
        old = self.entries[int(fields[0]) - 1]
        if word == "drop":
            old.gone = row
            self.texts.append(f"PE {old.pe} drops the entry of {old.places[-1]} {self.behind(row)}")
        elif word == "extend":
            self.entries.append(Entry(old.pe, (*old.places, fields[1]), old.row, old.kind))
            walks = f"PE {old.pe} walks on to {fields[1]} {self.behind(row)}"
            self.texts.append(f"{walks} and keeps what it reads: {fields[2]}")
        elif word == "combine":
            self.entries.append(Entry(old.pe, old.places, row, "combined"))
            self.texts.append(f"PE {old.pe} joins it with a stage 1 walk {self.behind(row)} and keeps a combined entry")
        elif word == "share":
            self.entries.append(Entry(int(fields[1]), old.places, row, old.kind))
            self.texts.append(f"PE {fields[1]} copies the entry of PE {old.pe} {self.behind(row)}")

    def read(self) -> None:
        row = 0
        for step in self.run.steps:
            if step.startswith("m "):
                self.rows.append(row)
                self.take(step, row)
            else:
                row += 1

    def left(self) -> list[Entry]:
        """The entries that are there at the conflict."""
        return [entry for entry in self.entries if entry.gone is None and entry.row <= self.run.conflict]

    def flushes(self, entry: Entry) -> str:
        """Which TLBIs that reach the entry's PE come after it was made: those leave it, since the run conflicts."""
        reach = [line for line in self.lines[entry.row:self.run.conflict] if line.event.word == "tlbi"
                 and (words.is_broadcast(line.event.operation) or line.event.pe == entry.pe)]
        if not reach:
            return f"no TLBI that reaches PE {entry.pe} comes {self.behind(entry.row)}"
        first, rest = [line.name for line in reach[:NAMED]], reach[NAMED:]
        names = [*first, f"{len(rest)} TLBI{'s' * (len(rest) > 1)} behind that"] if rest else first
        *most, last = names
        return f"{', '.join(most)} and {last} leave it there" if most else f"{last} leaves it there"

    def end(self) -> str:
        line: Line = self.lines[self.run.conflict]
        event = line.event
        pes = " and ".join(f"PE {pe}" for pe in sorted({entry.pe for entry in self.left()}))
        what = "a table or page" if event.value & 2 else "a block"
        writes = f"{line.name} writes {hex(event.value)}, {what}, at {event.rest[0]}"
        return f"{writes}: {pes} has the old entry and may have both"

    def told(self) -> list[str]:
        whole = self.whole or self
        return [*self.texts, *(whole.flushes(entry) for entry in whole.left()[-1:]), self.end()]

    def lives(self) -> list[tuple[int, int, int]]:
        """For the lanes: each entry that is left, with its PE, the row behind which it was made less one, and that of
        the conflict."""
        return [(entry.pe, entry.row - 1, self.run.conflict) for entry in self.left()]

    # ---- fewer lines

    def over(self, numbers: set[int]) -> Told:
        """The run over these of its lines alone."""
        events, kept = iter(self.lines), tuple(line for line in self.lines if line.at in numbers)
        steps = tuple(step for step in self.run.steps if step.startswith("m ") or next(events).at in numbers)
        return Told(kept, Run(steps, len(kept) - 1), self)

    def moments(self) -> set[int]:
        """The lines behind which its steps are made, and where these are few the flushes between them; and its last."""
        between = [line.at for line in self.lines[self.rows[0]:self.rows[-1]] if line.event.word in FLUSHING]
        made = {self.lines[row - 1].at for row in self.rows if row}
        return {*made, *(between if len(between) <= FEW else ()), self.lines[-1].at}


def is_run(program: Program, header: str, told: Told) -> bool:
    """Whether it is a run that conflicts at its last line."""
    text = "\n".join([header, *told.run.steps, f"end {len(told.lines)}", ""])
    found = run_in(program, text)
    return found is not None and found.conflict == len(told.lines) - 1


def least_of(told: Told, shrinker: Shrinker, small: Numbers, is_over: Callable[[], bool]) -> Told:
    """The run over the small log, and over those of the other lines without which it is none, or the last isn't refused
    alike; more of them where the time is over."""
    asked, kept = {line.at for line in told.lines}, {*small, *told.moments()}
    some = lambda numbers: told.over(asked & {*numbers, *kept})

    def holds(numbers: Numbers) -> bool:
        fewer = some(numbers)
        is_alike = shrinker.holds([line.at for line in fewer.lines])
        return is_alike and is_run(shrinker.program, shrinker.log.header, fewer)

    fronts = chain([small], shrinker.fronts(shrinker.refusal.line))
    tries = ([at for at in numbers if at in asked] for numbers in fronts)
    start = next((numbers for count, numbers in enumerate(tries) if not (count and is_over()) and holds(numbers)), None)
    return some(reduced_in_time(shrinker.log, start, holds, is_over)) if start else told
