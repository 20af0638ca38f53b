# SPDX-License-Identifier: Apache-2.0
"""The search for the least changes after which a refused log gets past its line: in which order they are tried and
told."""
from __future__ import annotations

from collections import Counter
from collections.abc import Callable, Iterable, Iterator
from dataclasses import replace
from functools import cached_property
from itertools import islice

from why.asking.effort import Effort
from why.asking.program import Answer, Program
from why.log.lines import Log, Numbers, event_of
from why.repairs.changes import FLUSHING, NOTHING, Change, Edit, Kind, Move, Put, Swap, position_of
from why.repairs.flushes import Family, is_about_tags
from why.repairs.judge import Judge, Repair
from why.repairs.scene import Scene
from why.repairs.sections import Home, Nearness
from why.repairs.tries import LARGEST, families, first_families, last_resort

WANTED, ALIKE = 3, 2
RANKED = 8
CHOICES = 8
# A TLBI that the log has so often may be a repeat.
OFTEN = 64
# So many changes are tried with which the lines that are judged alone get past the refused one.
MOST_FAILED = 24
# Among so many next lines a change only puts the refusal off.
PUT_OFF = 12
# What may stand in the wrong place for a reason.
MOVED_FIRST = ("unlock", "init")


class Repairer:
    """Tries changes of a scene, and of the log that it was taken from, judged by the lines of these numbers; those
    of the front are fewer, and about the refusal alone."""

    def __init__(self, program: Program, log: Log, scene: Scene, numbers: Numbers | None = None, front: Numbers = (),
                 effort: Effort | None = None):
        self.program, self.log, self.scene = program, log, scene
        self.judge = Judge(program, log, scene, scene.numbers if numbers is None else numbers)
        self.effort = effort or Effort()
        self.home = Home(log, scene)
        self.alone = self.home.without_others(front)
        if self.alone and not self.is_alike(self.judge.in_lines(NOTHING, self.alone)):
            self.alone = []
        self.failed: list[Change] = []
        self.repairs: dict[Nearness, list[Repair]] = {nearness: [] for nearness in Nearness}
        self.furthest: Repair | None = None
        self.cut_off = ""

    # ---- what passes

    def passes(self, change: Change, numbers: Numbers | None = None) -> bool:
        if numbers is not None:
            return self.judge.in_lines(change, numbers).accepted
        judged = self.judge.answer_to(change)
        if not judged.whole.accepted and not self.is_alike(judged.whole):
            self.furthest = max(filter(None, (self.furthest, judged)), key=lambda one: (one.reach, -one.change.size))
        return judged.whole.accepted

    def is_alike(self, answer: Answer) -> bool:
        """Whether the same rule still refuses a line at the same place."""
        found, old = answer.refusal, self.scene.refusal
        return found is not None and (found.rule, found.at) == (old.rule, old.at)

    def puts_off(self, repair: Repair) -> bool:
        """Whether the same rule refuses one of the next lines at the same place."""
        return self.is_alike(repair.whole) and repair.next_line <= self.scene.refused.at + PUT_OFF

    def in_front(self, change: Change, last: int) -> Repair:
        return self.judge.in_front(change, last)

    def gets_past(self, change: Change) -> bool:
        """Whether the front part of the whole log gets past the refused line with the change."""
        return self.in_front(change, (self.scene.later or self.scene.lines)[-1].at).reach > self.scene.refused.at

    def repair_of(self, family: Family) -> Repair | None:
        """The first change of a family that passes, in the whole log too; of those that have to be compared the one
        with which it gets furthest. One that goes by the flush of another place is taken where there is no other."""
        if not all(map(self.passes, family.probes)):
            return None
        repairs, borrowing = [], []
        for change in islice(filter(self.passes, family.choices), CHOICES):
            stands_alone = self.stands_alone(change)
            if not self.is_needed(change, self.stands_alone if stands_alone else self.passes):
                continue
            if not self.gets_past(change):
                self.failed.append(change)
                continue
            (repairs if stands_alone else borrowing).append(self.in_front(change, self.log.last_event))
            if repairs and (not family.furthest or repairs[-1].whole.accepted):
                break
        return max(repairs or borrowing[:1], key=lambda repair: repair.reach, default=None)

    def stands_alone(self, change: Change) -> bool:
        """Whether a change passes without the barriers and TLBIs of other sections behind the break, where it can be
        asked so and it is about such."""
        moves_flush = any(isinstance(edit, Move) and self.log.event(edit.at).word in FLUSHING for edit in change.edits)
        if not self.alone or not (change.flushes or moves_flush):
            return self.passes(change)
        return self.judge.in_lines(change, sorted({*self.alone, *change.touched})).accepted

    def nearness(self, change: Change) -> Nearness:
        return self.home.nearness(change) if self.stands_alone(change) else Nearness.BORROWED

    def is_needed(self, change: Change, passes: Callable[[Change], bool]) -> bool:
        """Whether no edit of the change can be left out, but a lock that is given back."""
        gives_back = lambda edit: isinstance(edit, Put) and edit.text.startswith("unlock ")
        others = [change.but(i) for i, edit in enumerate(change.edits) if not gives_back(edit)]
        return change.size == 1 or not any(map(passes, others))

    # ---- in which order

    @cached_property
    def tlbis(self) -> Counter:
        """How often the log has each TLBI, whichever PE issues it."""
        return Counter(event_of(line.decode("latin-1")).rest for line in self.log.parts if line.startswith(b"tlbi "))

    def alters_repeat(self, change: Change) -> bool:
        """Whether it alters a TLBI that the log has so often that it is about no place of its own, as one that a
        processor's erratum asks for behind each other one."""
        altered = [self.log.event(edit.at) for edit in change.edits if isinstance(edit, Swap) and edit.at > 1]
        return any(event.word == "tlbi" and self.tlbis[event.rest] >= OFTEN for event in altered)

    def newness(self, change: Change) -> int:
        """0 where it alters, or moves for a reason, what stands there; 1 where all of it is put in, and 2 where it
        is of both or else."""
        def has_reason(edit: Edit) -> bool:
            if isinstance(edit, Move):
                return self.log.event(edit.at).word in MOVED_FIRST
            return isinstance(edit, Swap) and edit.kind is not Kind.VALUE

        if all(map(has_reason, change.edits)):
            return 0
        return 1 if all(isinstance(edit, Put) for edit in change.edits) else 2

    def order(self, repair: Repair) -> tuple:
        """An ISB alone first, those that alter a repeat last and before them TLBIs for all under a tag, which may
        hide other bugs; of these those with which the whole log gets furthest, those of what stands there, those
        next to the break, and other moves last where it isn't about tags."""
        change = repair.change
        return (not change.synchronises, self.alters_repeat(change), bool(change.idea), -repair.reach,
                self.newness(change), self.farness(change), change.moves and not is_about_tags(self.scene))

    def found_with(self, tries: Iterable[Family]) -> None:
        """Adds the changes that pass, of which none shares an edit's site with one before of the same home."""
        found: dict[Nearness, list[Repair]] = {nearness: [] for nearness in Nearness}
        for family in self.effort.ahead(tries, self.ask_about):
            new = tuple(change for change in family.choices if self.is_new(change, found))
            repair = self.repair_of(replace(family, choices=new)) if new else None
            if repair is not None:
                found[Nearness.BORROWED if self.puts_off(repair) else self.nearness(repair.change)].append(repair)
            if len(found[Nearness.AT_BREAK]) == RANKED or len(self.failed) >= MOST_FAILED:
                break
        for nearness, repairs in found.items():
            self.repairs[nearness] += sorted(repairs, key=self.order)

    def is_new(self, change: Change, found: dict[Nearness, list[Repair]]) -> bool:
        nearness = self.home.nearness(change)
        known = [*self.repairs[nearness], *found[nearness]]
        is_wanted = nearness is Nearness.AT_BREAK or len(known) < WANTED
        return is_wanted and not any(old.change.shares(change) for old in known)

    def ask_about(self, family: Family) -> None:
        """What is asked of a family first."""
        self.judge.answer_to((*family.probes, *family.choices)[0])

    def found(self) -> Iterator[Repair]:
        """At most three repairs as they are found, the smallest first, and of one size those with which the whole
        log gets furthest; those at a break before those at the refused line, and those that borrow another place's
        flush where there is no other."""
        at_break, told = self.repairs[Nearness.AT_BREAK], 0
        for size in range(LARGEST + 1):
            self.found_with(families(self.scene, size) if size else first_families(self.scene))
            chosen = varied(self.near(at_break))
            yield from chosen[told:]
            told = len(chosen)
            if self.effort.is_over:
                self.cut_off = f"the search, at changes of {max(1, size)} {'lines' if size > 1 else 'line'}"
            if self.cut_off or told == WANTED or self.is_answered(chosen) or len(self.failed) >= MOST_FAILED:
                break
        yield from varied([*self.near(at_break), *self.near(self.repairs[Nearness.AT_REFUSED])])[told:]
        if not at_break and not self.repairs[Nearness.AT_REFUSED]:
            yield from varied(self.repairs[Nearness.BORROWED]) or self.left_out()

    def is_answered(self, chosen: list[Repair]) -> bool:
        """Whether one of these gets the whole log accepted, and doesn't by a TLBI for all that may hide other bugs."""
        return any(repair.whole.accepted and (is_about_tags(self.scene) or not repair.change.idea) for repair in chosen)

    def left_out(self) -> list[Repair]:
        """Lines left out, where nothing else passes."""
        self.found_with(last_resort(self.scene))
        return varied([repair for repairs in self.repairs.values() for repair in repairs])

    def near(self, repairs: list[Repair]) -> list[Repair]:
        """Those that aren't further from the break than the first."""
        return [repair for repair in repairs if self.farness(repair.change) <= self.farness(repairs[0].change)]

    def farness(self, change: Change) -> int:
        """How far from a break a change is: 0 among its next lines, and then by the number of digits of the
        distance; 0 for an ISB, which belongs to a register write."""
        if change.synchronises:
            return 0
        digits = lambda broken: max(abs(position_of(edit) - broken).bit_length() for edit in change.edits)
        return min(digits(broken) // 4 for broken in self.home.breaks)


def varied(repairs: list[Repair]) -> list[Repair]:
    """The first three, of which no more than two change things of the same kinds, and no two do the same by one TLBI
    for all."""
    chosen: list[Repair] = []
    for repair in repairs:
        alike = [one for one in chosen if one.change.kinds == repair.change.kinds]
        same = [one for one in chosen if repair.change.idea and one.change.idea == repair.change.idea]
        if not same and len(alike) < ALIKE and len(chosen) < WANTED:
            chosen.append(repair)
    return chosen


def positions(repairs: list[Repair]) -> set[int]:
    """The lines at which the repairs change something, those too behind which they put something in."""
    return {position_of(edit) for repair in repairs for edit in repair.change.edits}
