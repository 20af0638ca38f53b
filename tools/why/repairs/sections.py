# SPDX-License-Identifier: Apache-2.0
"""Whether a change stays in the sections of what is broken and refused, or takes the flush of another place.

A section is what a PE does about one change of the tables, by locks, by labels, or by barriers.
"""
from __future__ import annotations

from collections.abc import Iterator
from dataclasses import dataclass
from enum import Enum

from why.log import words
from why.repairs.changes import FLUSHING, Change, Edit, Kind, Move, Put, Swap
from why.repairs.flushes import is_about_tags
from why.log.lines import Event, Log, Numbers, event_of
from why.repairs.scene import Scene

# So far a section goes, in lines.
LONGEST = 4096


def own(log: Log, at: int, step: int, last: int) -> Iterator[tuple[int, Event]]:
    """The lines of the PE of a line from there on, or backwards, with their numbers."""
    pe = log.line(at).event.pe
    end = min(last, at + LONGEST) + 1 if step > 0 else max(1, at - LONGEST)
    for number in range(at + step, end, step):
        event = event_of(log.bytes_of(number).decode("latin-1"))
        if event.pe == pe:
            yield number, event


def critical(log: Log, at: int, last: int) -> range:
    """From the `lock` before a line to the `unlock` behind it; the line alone where its PE holds no lock."""
    begin = next(((number, event) for number, event in own(log, at, -1, last) if event.word in ("lock", "unlock")), None)
    if begin is None or begin[1].word == "unlock":
        return range(at, at + 1)
    end = next((number for number, event in own(log, at, 1, last) if event.word == "unlock" and event.lock == begin[1].lock), last)
    return range(begin[0], end + 1)


def labelled(log: Log, at: int, last: int) -> range:
    """The lines around one until the first with another label; the line alone where it has none."""
    label = log.line(at).event.label
    if not label:
        return range(at, at + 1)

    def end(step: int) -> int:
        reached = at
        for number, event in own(log, at, step, last):
            if event.label not in ("", label):
                break
            reached = number
        return reached

    return range(end(-1), end(1) + 1)


def flushed(log: Log, at: int, last: int) -> range:
    """From a write to its flush: until the next write of its PE behind a barrier or TLBI, and of a valid value until
    the next."""
    ends = log.line(at).event.word != "w" or bool(log.line(at).event.value & 1)
    for number, event in own(log, at, 1, last):
        if event.word in ("w", "init") and ends:
            return range(at, number)
        ends |= event.word in FLUSHING
    return range(at, last + 1)


@dataclass(frozen=True)
class Part:
    """Lines in a row, of which those of one PE count, or all."""

    pe: int | None
    lines: range

    def has(self, at: int, pe: int) -> bool:
        return at in self.lines and self.pe in (None, pe)


def sections(log: Log, at: int) -> list[Part]:
    """What a line's PE does in its critical section; where there is none what it does under one label and up to the
    flush, with what others do there."""
    under_lock = critical(log, at, log.last_event)
    if len(under_lock) > 1:
        return [Part(log.event(at).pe, under_lock)]
    return [Part(None, part(log, at, log.last_event)) for part in (labelled, flushed)]


def is_flush(edit: Edit) -> bool:
    """Whether a barrier or TLBI is put in."""
    return isinstance(edit, Put) and edit.text.split(" ")[0] in FLUSHING


def takes_over(edit: Edit) -> bool:
    """Whether a TLBI that is there for something else is altered."""
    return isinstance(edit, Swap) and edit.text.startswith("tlbi ") and edit.kind is not Kind.BROADCAST


class Nearness(Enum):
    """Where a change belongs: to what a break's PE does about it, to what the refused line's PE does, or to
    something else, the flush of another place."""

    AT_BREAK = "at a break"
    AT_REFUSED = "at the refused line"
    BORROWED = "borrowed"


class Home:
    """The sections of the breaks and of the refused line. The breaks are the last writes at the places that hold a
    value; where there is none the refused line stands for them, and every line is at home. It does so, too, under a lock
    where the break is what is missing."""

    def __init__(self, log: Log, scene: Scene):
        self.log, self.scene = log, scene
        written = [one.last_write.at for one in (scene, *scene.narrowed) if one.last_write]
        self.since, self.is_everywhere = min(written, default=scene.refused.at), not written
        at_refused = sections(log, scene.refused.at)
        self.is_locked_make = scene.refusal.name == "break-before-make" and at_refused[0].pe is not None
        self.lacks_break = scene.lacks_break and self.is_locked_make
        cleared = [at for at in written if not log.event(at).value & 1]
        self.at_clears = [*at_refused, *(part for at in cleared for part in sections(log, at))]
        self.breaks = [scene.refused.at] if self.lacks_break else written or [scene.refused.at]
        self.at_breaks = at_refused if self.lacks_break else [part for at in written for part in sections(log, at)]
        self.parts = [*self.at_breaks, *at_refused]

    def __contains__(self, at: int) -> bool:
        return self.is_everywhere or any(part.has(at, self.log.event(at).pe) for part in self.parts)

    def flushing(self, first: int) -> list[int]:
        """The barriers and TLBIs at home behind a line and before the refused one."""
        lines = {at for part in self.parts for at in part.lines if first < at < self.scene.refused.at}
        return sorted(at for at in lines if self.log.bytes_of(at).split(b" ")[0].decode() in FLUSHING and at in self)

    def without_others(self, numbers: Numbers) -> list[int]:
        """These lines with the barriers and TLBIs behind the breaks that are at home, and without the others; none
        where every line is at home."""
        if self.is_everywhere:
            return []
        own = {*self.flushing(self.since)}
        is_other = lambda at: at > self.since and self.log.event(at).word in FLUSHING and at not in own
        return sorted(own | {at for at in numbers if not is_other(at)})

    def nearness(self, change: Change) -> Nearness:
        if not all(self.has_edit(edit) for edit in change.edits):
            return Nearness.BORROWED
        new = [edit for edit in change.edits if is_flush(edit)]
        is_at_break = self.is_everywhere or all(self.is_put(edit, self.at_breaks) for edit in new)
        return Nearness.AT_BREAK if is_at_break else Nearness.AT_REFUSED

    def is_put(self, edit: Put, parts: list[Part]) -> bool:
        """Whether an event is put in inside of one of these parts, by its PE."""
        pe = event_of(edit.text).pe
        return any(part.has(at, pe) for part in parts for at in (edit.after, edit.after + 1))

    def has_edit(self, edit: Edit) -> bool:
        """Whether an edit stays at home. One that doesn't takes another place's flush."""
        if edit.kind is Kind.HEADER or self.is_everywhere:
            return not (self.scene.is_about_left and takes_over(edit))
        if isinstance(edit, Put):
            if self.is_locked_make and edit.text.startswith("w "):
                return self.is_put(edit, self.at_clears)
            return not is_flush(edit) or self.is_put(edit, self.parts)
        refused, event = self.scene.refused, self.log.line(edit.at).event
        if isinstance(edit, Move) and edit.at == refused.at:
            crossed = [line for line in self.scene.later if line.at <= edit.after and line.event.word in FLUSHING]
            own = [line.at for line in crossed if line.event.pe == refused.event.pe]
            return all(at in self for at in own) and bool(own or not crossed)
        if isinstance(edit, Swap) and event.word == "tlbi" and is_about_tags(self.scene):
            return words.is_of_tag(event.operation)
        return event.word not in FLUSHING or edit.at in self
