# SPDX-License-Identifier: Apache-2.0
"""From a refused log to what is held, its small log, and the least changes after which it gets past its line: found
by trying, and judged by the program."""
from __future__ import annotations

from collections.abc import Iterator
from dataclasses import dataclass, field, replace
from functools import cached_property

from why.asking.effort import Effort
from why.asking.holding import Held, held_at
from why.asking.least import FEW, Shrinker, reduced_in_time
from why.asking.mapping import TABLE_MAPPED, mapping_at
from why.asking.program import Program, Verdict
from why.log.lines import Line, Lines, Log, Numbers, header_of
from why.repairs.changes import Change, Put
from why.repairs.flushes import whole_sequences
from why.repairs.judge import ACCEPTED_ALL, Judge, Repair
from why.repairs.scene import Scene
from why.repairs.search import Repairer, positions, varied
from why.repairs.sections import Home
from why.repairs.strictness import Strictness

__all__ = ["ACCEPTED_ALL", "Repair", "Repairer", "Study", "Studying", "positions", "studied", "varied"]

LATER, LATER_OWN, LATER_LINES = 12, 24, 512
# A log of so many events up to the refused line is judged as it is.
WHOLE = 20_000
# So many barriers and TLBIs behind a break are shown in the small log.
SHOWN = 8
# The part of the time behind which the small log is taken as it is, and that in which the lines are found that changes
# need besides.
SHRUNK, REDUCED = 0.3, 0.1


@dataclass
class Study:
    """What was found of a refused log. `furthest` is, where nothing passes, the change that gets furthest, and
    `cut_off` what wasn't tried to its end."""

    program: Program
    log: Log
    refusal: Verdict
    scene: Scene
    small: Lines
    repairs: list[Repair]
    loading: Numbers
    held: list[Held]
    stricter: list[str]
    repairer: Repairer | None
    furthest: Repair | None = None
    cut_off: list[str] = field(default_factory=list)
    effort: Effort = field(default_factory=Effort)
    shrinker: Shrinker | None = None

    @property
    def header(self) -> str:
        return self.log.header

    @property
    def refused(self) -> Line:
        return self.small[-1]


class Studying:
    """A study under way: each part of it is found when it is asked for."""

    def __init__(self, program: Program, log: Log, refusal: Verdict, effort: Effort | None = None):
        self.program, self.log, self.refusal = program, log, refusal
        self.effort = effort or Effort()
        self.shrinker = Shrinker(program, log, refusal)
        self.cut_short = ""

    # ---- what is at hand

    @cached_property
    def held(self) -> list[Held]:
        return (mapping_at if self.refusal.name == TABLE_MAPPED else held_at)(self.program, self.log, self.refusal)

    @cached_property
    def later(self) -> Lines:
        """Lines behind the refused one: the next ones, and more of its own PE."""
        first = self.refusal.line + 1
        next_ones = range(first, min(self.log.last_event, self.refusal.line + LATER) + 1)
        pe = self.log.bytes_of(self.refusal.line).split(b" ")[1]
        own = [at for at in range(first, min(self.log.last_event, self.refusal.line + LATER_LINES) + 1)
               if self.log.bytes_of(at).split(b" ")[1:2] == [pe]]
        return self.log.lines(sorted({*next_ones, *own[:LATER_OWN]}))

    @cached_property
    def scene(self) -> Scene:
        index = self.shrinker.index
        lines = self.all_lines if len(self.all_lines) <= FEW else index.candidates([one.line.at for one in self.held])
        places = tuple(one.place for one in self.held if one.place is not None)
        return Scene(header_of(self.log.header), self.log.lines(lines), self.later, self.refusal, index.tags_near(),
                     places, holding=index.holders)

    @property
    def all_lines(self) -> range:
        return range(2, self.refusal.line + 1)

    # ---- which lines are judged

    @cached_property
    def ideal(self) -> Change | None:
        """A whole flush before the refused line, of all or of what is held, with which the log gets past that; None
        where none does."""
        judge = Judge(self.program, self.log, self.scene, self.all_lines)
        whole = [family.choices for family in whole_sequences(self.scene)]
        passes = lambda change: judge.answer_to(change).whole.accepted
        return next((change for choices in whole[::-1] for change in choices if passes(change)), None)

    def passes_ideally(self, numbers: Numbers) -> bool:
        """Whether these lines have what the repaired log needs: with a whole flush they get past the refused line,
        as the log does."""
        judge = Judge(self.program, self.log, self.scene, numbers)
        return self.ideal is None or judge.answer_to(self.ideal).whole.accepted

    def is_kept(self, numbers: Numbers) -> bool:
        return self.shrinker.holds(numbers) and self.passes_ideally(numbers)

    @cached_property
    def front(self) -> Numbers:
        """The first lines to try that have what is needed: those of which the small log is a part."""
        since = min((one.line.at for one in self.held), default=self.refusal.line)
        fronts = (numbers for numbers in self.shrinker.fronts(since) if not self.effort.is_over_by(SHRUNK))
        tries = map(self.shrinker.mended, fronts)
        return next((numbers for numbers in tries if numbers and self.passes_ideally(numbers)), self.all_lines)

    @property
    def judged(self) -> Numbers:
        return self.all_lines if len(self.all_lines) <= WHOLE else self.front

    # ---- the small log

    @cached_property
    def small(self) -> Numbers:
        """Lines of which none can be left out for that they are refused as the log is, and have what the repaired
        log needs; with the lines that are held, and barriers and TLBIs behind the break, where these leave that as
        it is."""
        held = [one.line.at for one in self.held]
        needed, kept = set(), self.front
        for more in (held, *([at] for at in held), self.about_break, *self.loads):
            wider = sorted({*kept, *more})
            if self.is_kept(wider):
                kept, needed = wider, needed.union(more)
        is_over = lambda: self.effort.is_over_by(SHRUNK)
        least = reduced_in_time(self.log, kept, lambda numbers: needed <= {*numbers} and self.is_kept(numbers), is_over)
        self.cut_short = "the small log has lines that it may not need" if is_over() else ""
        return least

    @property
    def loads(self) -> list[list[int]]:
        """The last register writes of the PEs that flush there, each with the lines that make its root."""
        index = self.shrinker.index
        return [index.with_its_root(register) for register in index.loads_of(self.about_break)]

    @cached_property
    def about_break(self) -> list[int]:
        """The first barriers and TLBIs behind a clear, in the sections of the breaks."""
        home = Home(self.log, self.scene)
        cleared = [at for at in home.breaks if not (self.log.event(at).value or 0) & 1]
        return home.flushing(min(cleared, default=self.refusal.line))[:SHOWN]

    # ---- the changes

    @cached_property
    def study(self) -> Study:
        """The study with what is known before any change is tried."""
        small, loading = self.log.lines(self.small), self.shrinker.index.loading()
        return Study(self.program, self.log, self.refusal, self.scene, small, [], loading, self.held, [], None,
                     effort=self.effort, shrinker=self.shrinker)

    def found(self) -> Iterator[Repair]:
        """The changes as they are found. Where those that pass the lines which are judged don't get the whole log
        past the refused line, all lines are judged."""
        study = self.study
        for numbers in (self.judged, self.all_lines):
            study.repairer = Repairer(self.program, self.log, self.scene, numbers, self.front, self.effort)
            for repair in study.repairer.found():
                study.repairs.append(replace(repair, note=use_after_free(self.shrinker, repair.change)))
                yield study.repairs[-1]
            if study.repairs or self.effort.is_over or numbers == self.all_lines:
                break

    def with_repairs(self) -> Numbers:
        """The small log and what the repairs alter besides, where it is refused as it is and gets past its last line
        by each of them."""
        repairs, repairer = self.study.repairs, self.study.repairer
        touched = {at for repair in repairs for at in repair.change.touched if at < self.refusal.line}
        altered = sorted({*self.small, *touched})
        pass_all = lambda numbers: all(repairer.passes(repair.change, numbers) for repair in repairs)
        has_all = lambda numbers: self.shrinker.holds(numbers) and pass_all(numbers)
        if has_all(altered):
            return altered
        is_over = self.effort.behind(REDUCED)
        fronts = (sorted({*numbers, *altered}) for numbers in self.shrinker.fronts(self.refusal.line))
        start = next((numbers for numbers in fronts if not is_over() and has_all(numbers)), None)
        if start:
            has_these = lambda numbers: {*altered} <= {*numbers} and has_all(numbers)
            return reduced_in_time(self.log, start, has_these, is_over)
        return altered if self.shrinker.holds(altered) else self.small

    def ended(self) -> Study:
        """All of it, behind the changes that were found."""
        study = self.study
        study.stricter = Strictness(self.program, self.log, self.refusal, self.scene, self.held).named()
        study.furthest = None if study.repairs else study.repairer.furthest
        study.small = self.log.lines(self.with_repairs())
        study.cut_off = [text for text in (self.cut_short, study.repairer.cut_off) if text]
        return study


def refused_from(shrinker: Shrinker, since: int) -> int | None:
    """The first line behind which the refused line is refused alike, from one on behind which it isn't; None where
    it is there too."""
    holds = lambda at: shrinker.holds([*range(2, at + 1), shrinker.refusal.line])
    if holds(since):
        return None
    left = shrinker.refusal.line - 1
    while left - since > 1:
        middle = (since + left) // 2
        since, left = (since, middle) if holds(middle) else (middle, left)
    return left


def use_after_free(shrinker: Shrinker, change: Change) -> str:
    """What an `init` before a write in its page hides, where that page was linked and left its tree."""
    index, page = shrinker.index, shrinker.index.refused.page
    links = [link.at for link in index.pages[(page or 0) >> 12].links if link.at < index.last]
    zeroes = any(isinstance(edit, Put) and edit.text.endswith(f" {hex(page or 0)}") for edit in change.edits)
    if index.refused.word != "w" or shrinker.refusal.name != "not-fresh" or not zeroes or not links:
        return ""
    left = refused_from(shrinker, links[-1])
    return f"this hides a use after free, unless the page was given out anew: bbm refuses the write so from {shrinker.log.line(left).name} " \
        "on, where the page left its tree" if left else ""


def studied(program: Program, log: Log, refusal: Verdict, effort: Effort | None = None) -> Study:
    studying = Studying(program, log, refusal, effort)
    for _ in studying.found():
        pass
    return studying.ended()
