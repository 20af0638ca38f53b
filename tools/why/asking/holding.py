# SPDX-License-Identifier: Apache-2.0
"""What is still held where a log is refused, asked of the program right before the refused line of the whole log.

For a place the question is that of `pending`: a made write there. For a tag it is what has to stand before the refused line so that
this passes: another value and an ISB at each PE that loaded the root, and a flush. What of that can't be left out still holds.
"""
from __future__ import annotations

from collections.abc import Iterator
from dataclasses import dataclass
from functools import cached_property

from why.log import words
from why.log.lines import ADDRESS_BITS, Before, Line, Log, header_of
from why.asking.leaving import Tag, left_against, tags_of
from why.asking.places import INSIDE, LAST_LEVEL, PAGE, Asker, Place, tables_of
from why.asking.program import Program, Verdict
from why.telling.style import ranges

# So many places or register writes are told; of one page so many places are asked about, and of one root the loads of so many PEs.
TOLD, ASKED, PES = 4, 64, 16
OF_PLACES = ("break-before-make", "limbo-make", "not-fresh", "page-in-use")
OF_TAGS = ("tag-conflict", "root-in-use")
MISSING = {
    "live": "its value is there at {}",
    "broken": "its clear isn't published to {}",
    "seen": "its clear is published, and no TLBI that covers it is complete at {}",
    "half": "its stage 2 entries are gone, and no TLBI of the combined ones is complete at {}",
    "cleansed": "its flush is complete at {}",
}


@dataclass(frozen=True)
class Held:
    """What still holds: the line that made it so, what is told of it, and the place where it is one that holds a value."""

    line: Line
    told: str
    place: int | None = None
    phases: tuple[str, ...] = ()


class Places:
    """The places that hold a value and that a refusal is about: the refused one, those that link the page which is reported, and
    those inside of what these lead to; right before the refused line, or behind another one."""

    def __init__(self, program: Program, log: Log, refusal: Verdict, last: int = 0):
        self.log, self.refusal = log, refusal
        self.before = Before(log, last or refusal.line - 1)
        self.tables = tables_of(self.before)
        self.levels = self.tables.reached()
        self.asker = Asker(program, self.before, self.tables)

    def first(self) -> list[tuple[int, str]]:
        """The refused place; or those whose last table is the page that is reported."""
        event, at = self.log.line(self.refusal.line).event, self.refusal.at
        if event.place == at and self.refusal.name == "break-before-make":
            return [(at, "")]
        page = at >> PAGE
        return [(place, f", which links the page {hex(page << PAGE)}") for place, value in self.valued(self.tables.pages.items())
                if self.next_page(place, value) == page]

    def next_page(self, place: int, value: int) -> int | None:
        """The page of the table that a value is; None where it is none."""
        is_table = value & 2 and self.levels.get(place >> PAGE) != LAST_LEVEL
        return (value & ADDRESS_BITS) >> PAGE if is_table else None

    def valued(self, tables) -> Iterator[tuple[int, int]]:
        """The places of these pages that had a valid value, and the last."""
        return ((page << PAGE | inside << 3, value | 1) for page, table in tables if table
                for inside, value in enumerate(table.values) if value)

    def inside(self, place: int) -> list[tuple[int, str]]:
        """The places of the page to which the last table of a place leads."""
        table = self.tables.pages[place >> PAGE]
        page = self.next_page(place, table.values[(place & INSIDE) >> 3])
        return [(there, f", in the page {hex(page << PAGE)}") for there, _ in self.valued([(page, self.tables.pages.get(page))])]

    def held(self, place: int, role: str, phases: tuple[str, ...]) -> Held:
        """A place that holds a value, by the line that cleared it, or that wrote its value: how far it has come at each PE."""
        ends, at = b" %s " % hex(place).encode(), self.tables.cleared_at(place)
        line = self.log.line(at or next(at for at in range(self.refusal.line - 1, 1, -1) if self.log.bytes_of(at).startswith(b"w ")
                                        and ends in self.log.bytes_of(at)))
        by_phase = {phase: [pe for pe, now in enumerate(phases) if now == phase] for phase in MISSING}
        missing = [text.format(f"PE {ranges(by_phase[phase])}") for phase, text in MISSING.items() if by_phase[phase]]
        done = "written" if line.event.value & 1 else "cleared"
        return Held(line, f"{hex(place)}{role}: {done} by {line.name}; {'; '.join(missing)}", place, phases)

    def root(self) -> list[Held]:
        """The last `root` of the page that is reported, where it is one."""
        if self.refusal.at >> PAGE not in self.tables.roots or self.refusal.name != "page-in-use":
            return []
        ends = b" %s " % hex(self.refusal.at).encode()
        line = [self.log.line(at) for at, line in self.before.lines() if line.startswith(b"root ") and ends in line + b" "][-1]
        return [Held(line, f"{line.name} declared the page {hex(line.event.page)} a root, and no `unroot` gave it up")]

    def search(self) -> list[Held]:
        found, waiting = self.root(), self.first()
        if found:
            return found
        while waiting and len(found) < TOLD:
            roles = dict(sorted(waiting, key=lambda item: not self.tables.cleared_at(item[0]))[:ASKED])
            held = self.asker.found([Place(place) for place in roles], TOLD - len(found))
            found += [self.held(one.place, roles[one.place], one.phases) for one in held]
            known = {one.place for one in found}
            waiting = [item for one in held for item in self.inside(one.place) if item[0] not in known]
        return found


class Tags:
    """The register writes that still stand against a refused register write or `unroot`."""

    def __init__(self, program: Program, log: Log, refusal: Verdict):
        self.program, self.log, self.refusal = program, log, refusal
        self.header = header_of(log.header)
        self.refused = log.line(refusal.line)
        self.before = Before(log, refusal.line - 1)

    @cached_property
    def tag_of(self) -> dict[int, Tag]:
        """For each PE the last register write by which a root is readable under a tag that it is about, with the tag."""
        return tags_of(self.before).loads_against(self.refused)

    @cached_property
    def loads(self) -> list[Line]:
        return [self.log.line(at) for at in sorted(self.tag_of, reverse=True)]

    def passes(self, switched: list[Line], flush: list[str]) -> bool:
        """Whether the refused line gets by, behind other values in these registers and a flush."""
        away = [text for line in switched for text in (f"msr {line.event.pe} {line.event.rest[0]} 0x0", f"isb {line.event.pe}")]
        tail = [text.encode("latin-1") for text in (*away, *flush, self.refused.text)]
        refusal = self.program.feed(("check",), self.before.with_tail(tail)).refusal
        return refusal is None or refusal.rule != self.refusal.rule or refusal.at != self.refusal.at

    def flush(self, pes: list[int]) -> list[str]:
        """A flush of all at these PEs, or at every PE where TLBs may be shared."""
        widest = words.WIDEST[words.KIND_OF_REGISTER[self.loads[0].event.rest[0]]]
        if self.header.shares:
            return [f"tlbi {pes[0]} {widest}{words.BROADCAST}", f"dsb {pes[0]} {words.COMPLETING}"]
        return [text for pe in pes for text in (f"tlbi {pe} {widest}", f"dsb {pe} nsh")]

    def search(self) -> list[Held]:
        pes = [line.event.pe for line in self.loads]
        if not pes or not self.passes(self.loads, self.flush(pes)):
            return []
        held = lambda load, why: held_by(load, self.tag_of[load.at], why)
        found = [held(load, why) for load in self.loads[:PES] if (why := self.needed(load))]
        return found[:TOLD] or [held(self.loads[0], self.not_flushed(self.loads[0]))]

    def needed(self, load: Line) -> str:
        """What of the load can't be left out where all else is there: nothing, its other value and ISB, or its flush."""
        others = [line for line in self.loads if line is not load]
        pes = [line.event.pe for line in others]
        if not self.passes(others, self.flush([load.event.pe, *pes])):
            other = self.behind(load, "msr", load.event.rest[0])
            return f"{other.name} wrote another value, and no ISB of PE {load.event.pe} came behind" if other else "nothing else was written there"
        left = self.flush(pes) if others and not self.header.shares else []
        return "" if self.passes(self.loads, left) else self.not_flushed(load)

    # ---- what the log says of it

    def behind(self, load: Line, word: str, register: str = "") -> Line | None:
        """The first line of this word behind another, by the same PE."""
        front = f"{word} {load.event.pe}{' ' + register if register else ''}".encode()
        return next((self.log.line(at) for at in range(load.at + 1, self.refusal.line)
                     if (self.log.bytes_of(at) + b" ").startswith(front + b" ")), None)

    def not_flushed(self, load: Line) -> str:
        other = self.behind(load, "msr", load.event.rest[0])
        synced = self.behind(other, "isb") if other else None
        return "no TLBI that takes all under it is complete there" + (f" since {synced.name}" if synced else "")


def held_by(load: Line, tag: Tag, why: str) -> Held:
    """A register write that loaded a root under a tag, and what of it still holds at its PE."""
    event = load.event
    return Held(load, f"{event.rest[0]} of PE {event.pe}: {load.name} loaded the root {hex(event.base)} under {tag.name}; {why}")


def held_by_left(program: Program, log: Log, refusal: Verdict) -> list[Held]:
    """The tags that the reported root left: who gave it up, and at each PE where it is left the register write that loaded it."""
    tags, found = Tags(program, log, refusal), []
    for left in left_against(program, log, refusal):
        line = log.line(left.given_up)
        at = f" at PE {ranges(list(left.pes))}" if left.pes else ""
        frees = f"; `{left.flush}` and a DSB for it would free that" if left.flush else ""
        found.append(Held(line, f"{line.name} gave up the root {hex(left.page)}, which left {left.tag.name}{at}{frees}"))
        found += [held_by(load, left.tag, tags.not_flushed(load)) for load in map(log.line, map(left.loaded.get, left.pes))]
    return found[:1 + TOLD]


def held_at(program: Program, log: Log, refusal: Verdict) -> list[Held]:
    """What still holds at a refused line, of the rules that ask for it."""
    if refusal.name == "tag-conflict" and (found := held_by_left(program, log, refusal)):
        return found
    if refusal.name in OF_PLACES:
        return Places(program, log, refusal).search()
    return Tags(program, log, refusal).search() if refusal.name in OF_TAGS else []
