# SPDX-License-Identifier: Apache-2.0
"""The small log in lanes: one column a PE, one row an event, and in each column how long an old entry may live there.

What a row shows of the place after it is the answer of the program to a made write there (`asking.places`).
"""
from __future__ import annotations

from dataclasses import dataclass, field, replace
from enum import Enum
from itertools import groupby

from why.asking.places import phases_after
from why.asking.program import Program, Verdict
from why.log import words
from why.log.lines import Event, Header, Line, Lines, Log, header_of, written
from why.telling.style import BOLD, DIM, RED, Style

ALL_SHOWN = 16
SET_UP = ("init", "root", "msr", "isb", "dsb", "lock")


class Effect(Enum):
    """What a row does at a PE, beside its own event."""

    PUBLISHED = "p"
    REACHED = "t"
    ASIDE = "o"
    HALF = "h"
    GONE = "x"


@dataclass
class Row:
    """A line, or the lines of set-up for which the row stands, of which `line` is the first; and what is noted of it."""

    line: Line
    phases: tuple[str, ...] = ()
    effects: dict[int, Effect] = field(default_factory=dict)
    refused: bool = False
    alike: bool = False
    set_up: Lines = ()
    note: str = ""

    @property
    def event(self) -> Event:
        return self.line.event

    @property
    def pe(self) -> int | None:
        """The PE of the row's event; None where it stands for several."""
        return None if self.set_up else self.event.pe

    def words(self, labelled: bool = True) -> str:
        """What the row says."""
        if self.set_up:
            kinds = ", ".join(dict.fromkeys(line.event.word for line in self.set_up))
            return f"{len(self.set_up)} lines of set-up up to line {self.set_up[-1].at}: {kinds}"
        return (str(self.event) if labelled else self.event.plain) + (f"  <- {self.note}" if self.note else "")


@dataclass
class Chart:
    """The rows, and the columns: the PEs that are shown, and how many more there are."""

    header: Header
    rows: list[Row]
    pes: list[int]
    others: int
    place: int | None
    entries: list[tuple[int, int, int]] = field(default_factory=list)

    @property
    def has_alike(self) -> bool:
        """Whether a further column shows behind which rows the refused line would be refused alike."""
        return any(row.alike for row in self.rows)

    @property
    def phases(self) -> list[str]:
        """Those that are shown."""
        return [phase for phase in BARS if any(phase in row.phases for row in self.rows)]

    @property
    def effects(self) -> list[Effect]:
        return [effect for effect in Effect if any(effect in row.effects.values() for row in self.rows)]

    def living(self, row: int, pe: int) -> bool:
        """Whether a told run has a stale entry at a PE behind this row."""
        return any(of == pe and first <= row < last for of, first, last in self.entries)

    def is_set_up(self, row: Row) -> bool:
        """Whether a row is of set-up: it clears nothing, invalidates nothing, and isn't a write of the place."""
        event = row.event
        return event.word in SET_UP or event.word == "w" and event.place != self.place and event.value & 1 == 1

    def first_that_counts(self) -> int:
        """The first row behind which something is shown, or that is refused."""
        shown = [number for number, row in enumerate(self.rows) if row.phases or row.effects or row.alike or row.refused]
        return min([shown[0], *(first for _, first, _ in self.entries)])

    def folded(self, named: set[int]) -> Chart:
        """The chart in which each run of set-up before the first row that counts is one row; the named lines keep theirs."""
        count, rows = self.first_that_counts(), []
        for is_set_up, group in groupby(self.rows[:count], lambda row: self.is_set_up(row) and row.line.at not in named):
            run = list(group)
            rows += [replace(run[0], set_up=tuple(row.line for row in run))] if is_set_up and len(run) > 1 else run
        gone = count - len(rows)
        entries = [(pe, first - gone, last - gone) for pe, first, last in self.entries]
        return replace(self, rows=rows + self.rows[count:], entries=entries)


# ---- what the program says

def effects_of(event: Event, header: Header, before: tuple[str, ...], after: tuple[str, ...]) -> dict[int, Effect]:
    """What an event did at each PE: by the phases before and behind it, and a TLBI by its form."""
    if event.word == "tlbi":
        if words.is_broadcast(event.operation):
            return {pe: Effect.REACHED for pe in range(header.pes)}
        return {} if header.shares else {event.pe: Effect.REACHED}
    if event.word != "dsb" or not before:
        return {}
    names = {"seen": Effect.PUBLISHED, "half": Effect.HALF, "cleansed": Effect.GONE}
    now = after or ("cleansed",) * len(before)
    return {pe: names[new] for pe, (old, new) in enumerate(zip(before, now)) if old != new and new in names}


def columns(header: Header, lines: Lines) -> tuple[list[int], int]:
    """The PEs that have a column, and how many have none: of many PEs those with events, and one for all others."""
    if header.pes <= ALL_SHOWN:
        return list(range(header.pes)), 0
    used = sorted({line.event.pe for line in lines})[:ALL_SHOWN - 1]
    rest = [pe for pe in range(header.pes) if pe not in used]
    return used + rest[:1], len(rest) - 1


def chart_of(program: Program, header_text: str, lines: Lines, refusal: Verdict, place: int | None) -> Chart:
    """The chart of a log that its last line is refused of."""
    header, rows, log = header_of(header_text), [], Log(written(header_text, lines))
    before: tuple[str, ...] = ()
    for last, line in enumerate(lines[:-1], 2):
        after = () if place is None else phases_after(program, log, last, place)
        rows.append(Row(line, after, effects_of(line.event, header, before, after)))
        before = after
    rows.append(Row(lines[-1], before, {}, True))
    if not any(row.phases for row in rows):
        mark_alike(program, log, rows, refusal)
    return Chart(header, rows, *columns(header, lines), place)


def mark_alike(program: Program, log: Log, rows: list[Row], refusal: Verdict) -> None:
    """Marks the rows behind which the refused line would be refused by the same rule at the same place."""
    for last, row in enumerate(rows[:-1], 2):
        found = program.check(log.cut([*range(2, last + 1), log.last_event])).refusal
        row.alike = found is not None and (found.line, found.rule, found.at) == (last + 1, refusal.rule, refusal.at)
    rows[-1].alike = any(row.alike for row in rows)


# ---- as text

BARS = {"live": "┃", "broken": "╏", "seen": "│", "half": "┊", "cleansed": "·"}
PLAIN_BARS = {"live": "#", "broken": "!", "seen": "|", "half": ":", "cleansed": "."}
LETTERS = {"init": "I", "null": "N", "root": "R", "unroot": "U", "dsb": "D", "dmb": "B", "isb": "S", "tlbi": "T", "msr": "M",
           "lock": "L", "unlock": "K"}
LEGEND = {"live": "the value is there", "broken": "it is cleared, and that isn't published", "seen": "the clear is published; an old entry may live on",
          "half": "stage 2 entries are gone, combined ones may live on", "cleansed": "no old entry is left"}
ALIKE = "behind this row the refused line would be refused too"
EFFECTS = {Effect.PUBLISHED: "the clear is published to this PE", Effect.REACHED: "the TLBI reaches this PE",
           Effect.ASIDE: "the TLBI reaches this PE, and is about another tag or address",
           Effect.HALF: "the first step is complete here", Effect.GONE: "the flush is complete here: the old entry is gone"}


def letter_of(row: Row) -> str:
    """The mark of an event in its PE's column: W for a valid value, C for an invalid one, and for the refused line a cross."""
    if row.refused:
        return "X"
    if row.set_up:
        return ""
    if row.event.word == "w":
        return "W" if row.event.value & 1 else "C"
    return LETTERS.get(row.event.word, "?")


class Text:
    """Writes a chart for a terminal."""

    def __init__(self, chart: Chart, style: Style):
        self.chart, self.width, self.painted = chart, style.width, style.painted
        self.bars, self.entry = (BARS, "█") if style.unicode else (PLAIN_BARS, "E")
        self.digits = max(4, *(len(str(row.line.at)) for row in chart.rows))

    def cell(self, number: int, row: Row, pe: int) -> str:
        """Two columns: the event or what holds at the PE, and beside its own event what that did here."""
        effect = row.effects[pe].value if pe in row.effects else ""
        if row.pe == pe:
            mark = self.painted(letter_of(row), BOLD, *([RED] if row.refused else []))
            return mark + (self.painted(effect, BOLD) or " ")
        if effect:
            return self.painted(effect, BOLD) + " "
        if self.chart.living(number, pe):
            return self.painted(self.entry, RED) + " "
        phase = row.phases[pe] if row.phases else ""
        return self.painted(self.bars.get(phase, " "), DIM if phase in ("live", "cleansed") else RED) + " "

    def heads(self) -> list[str]:
        """The numbers of the PEs, one digit a line."""
        names = [str(pe) for pe in self.chart.pes]
        height = max(map(len, names))
        rows = [" ".join(name.rjust(height)[i] for name in names) for i in range(height)]
        left = ["PE".rjust(self.digits)] + [" " * self.digits] * (height - 1)
        tail = (" !" if self.chart.has_alike else "") + (f"  (and {self.chart.others} more as the last)" if self.chart.others else "")
        return [f"{head}  {row}{tail if i == 0 else ''}".rstrip() for i, (head, row) in enumerate(zip(left, rows))]

    def row(self, number: int, row: Row) -> str:
        cells = "".join(self.cell(number, row, pe) for pe in self.chart.pes)
        cells += (self.painted("!", RED) + " " if row.alike else "  ") if self.chart.has_alike else ""
        room = self.width - self.digits - 4 - 2 * (len(self.chart.pes) + self.chart.has_alike)
        end = "  <- refused" if row.refused else ""
        text = row.words() + end
        text = text if len(text) <= room else row.words(labelled=False) + end
        text = text if len(text) <= room else text[:max(0, room - 2)] + ".."
        return f"{row.line.at:>{self.digits}}  {cells} {self.painted(text, *([BOLD, RED] if row.refused else []))}".rstrip()

    def legend(self) -> list[str]:
        told = [f"  {self.bars[phase]} {LEGEND[phase]}" for phase in self.chart.phases]
        told += [f"  {effect.value} {EFFECTS[effect]}" for effect in self.chart.effects]
        told += [f"  ! {ALIKE}"] if self.chart.has_alike else []
        return told + ([f"  {self.entry} the entry of the run lives here"] if self.chart.entries else [])

    def lines(self) -> list[str]:
        return [*self.heads(), *(self.row(number, row) for number, row in enumerate(self.chart.rows)), *self.legend()]
