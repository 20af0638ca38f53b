# SPDX-License-Identifier: Apache-2.0
"""Every refusal of a log: behind each the log is judged on, with the best change of `why` that gets it past the line.

The change is made at each line that has the same label and word, so that a wrong line of the source is one finding.
"""
from __future__ import annotations

import re
from collections.abc import Iterable
from dataclasses import dataclass, field, replace
from enum import Enum

from why.asking.danger import Danger, danger_of
from why.asking.effort import SECONDS, Effort
from why.asking.program import Answer, Program
from why.log.lines import Log, Numbers
from why.repairs.changes import NOTHING, Change, edited
from why.repairs.sites import Cause, cause_of, everywhere
from why.repairs.study import ACCEPTED_ALL, Repair, Study, studied

COUNT = re.compile(rb"end ([0-9]+)")


class Stop(Enum):
    """Why a log isn't judged to its end, by what is said of it."""

    NO_CHANGE = "no change was found that gets past it"
    NO_TIME = "the time was over (--seconds) before a change was found that gets past it"
    MOST = "so many changes were searched for as --most says"
    UNJUDGED = "the line can't be judged"


@dataclass
class Found:
    """A refusal of the log with the changes of those before it, and the change that gets past it, where one is found,
    with where that is made, the change at all lines, and at how many; and whether the refusal is real. Lines are
    those of the log that was given, but for those of the study and of a run."""

    answer: Answer
    repair: Repair | None
    cause: Cause | None = None
    change: Change = NOTHING
    times: int = 1
    study: Study | None = None
    numbers: Numbers = ()
    danger: Danger | None = None

    @property
    def is_cut_off(self) -> bool:
        """Whether time ended the search for a change."""
        return bool(self.study and self.study.repairer.cut_off)

    def is_like(self, other: Found) -> bool:
        """Whether both are one wrong line of the source, met at the same make."""
        mine, its = self.answer.refusal, other.answer.refusal
        if not self.cause or not other.cause or not mine.label:
            return False
        is_alike = (mine.rule, mine.label, self.cause.shape) == (its.rule, its.label, other.cause.shape)
        return is_alike and self.repair.change.kinds == other.repair.change.kinds


@dataclass
class Findings:
    """The findings in order, and what the program says of the log with the changes of all of them; why it wasn't
    judged on, where it wasn't; and the log with all changes, with the numbers of its lines in the log that was
    given."""

    found: list[Found]
    last: Answer
    stop: Stop | None = None
    changed: bytes = b""
    numbers: Numbers = ()

    @classmethod
    def of_answer(cls, answer: Answer) -> Findings:
        """Those of a log that no rule refuses."""
        return cls([], answer, None if answer.accepted else Stop.UNJUDGED)


def in_given(change: Change, numbers: Numbers) -> Change:
    """A change of a log whose lines have these numbers in the log that was given, by these."""
    number = lambda at: numbers[at - 1]
    moved = lambda edit: {name: number(getattr(edit, name)) for name in ("at", "after") if hasattr(edit, name)}
    return Change(tuple(replace(edit, **moved(edit)) for edit in change.edits))


def joined(changes: Iterable[Change]) -> Change:
    """All of these changes as one."""
    return Change(tuple(edit for change in changes for edit in change.edits))


def ended(data: bytes) -> tuple[Log, bytes]:
    """The log up to its first `end` line, without that, and what stands from there on."""
    at = data.find(b"\nend ") + 1
    return (Log(data[:at]), data[at:]) if at else (Log(data), b"")


def with_change(log: Log, tail: bytes, change: Change) -> tuple[bytes, list[int]]:
    """The log as the change leaves it, with its own end, and the numbers of its lines in the log that was given. The
    count of the `end` line goes with what is put in and left out."""
    last = log.last_event
    data, numbers = edited(log, range(2, last + 1), change)
    rest = b"\n".join(log.parts[last:]) + tail
    count = COUNT.match(rest)
    if count:
        rest = b"end %d" % (int(count.group(1)) + len(numbers) - last) + rest[count.end():]
    return data[:data.rindex(b"\nend ") + 1] + rest, [*numbers, *range(last + 1, last + 2 + rest.count(b"\n"))]


def told_in_given(answer: Answer, numbers: Numbers) -> Answer:
    """The answer with the number of its line in the log that was given."""
    if answer.line is None:
        return answer
    line = numbers[min(answer.line, len(numbers)) - 1]
    return Answer(answer.status, re.sub(r" line \d+", f" line {line}", answer.text, count=1))


def reach_of(answer: Answer, numbers: Numbers) -> int:
    """How far a log gets, by the lines of the log that was given."""
    return ACCEPTED_ALL if answer.accepted else numbers[min(answer.line or 1, len(numbers)) - 1]


@dataclass
class Searcher:
    """Judges a log on behind its refusals, with so many seconds for each change, and so many runs at once. `change` is
    all that was changed, by lines of the log that was given."""

    program: Program
    data: bytes
    seconds: float = SECONDS
    jobs: int = 1
    change: Change = NOTHING
    log: Log = field(init=False)
    tail: bytes = field(init=False)

    def __post_init__(self):
        self.log, self.tail = ended(self.data)
        self.take(NOTHING)

    def take(self, change: Change) -> None:
        """Makes a change, by lines of the log that was given."""
        self.change += change
        self.data, self.numbers = with_change(self.log, self.tail, self.change)
        self.changed = Log(self.data) if not self.tail else ended(self.data)[0]

    def answer(self) -> Answer:
        return self.program.check(self.data)

    def by_given(self, change: Change) -> Change | None:
        """A change of the log as it is by the lines of the log that was given; None where these can't tell it."""
        own = in_given(change, self.numbers)
        tail = self.data[len(self.changed.data):]
        is_alike = with_change(self.changed, tail, change)[0] == with_change(self.log, self.tail, self.change + own)[0]
        return own if is_alike else None

    def reach(self, own: Change) -> int:
        data, numbers = with_change(self.log, self.tail, self.change + own)
        return reach_of(self.program.check(data), numbers)

    def pass_by(self, answer: Answer) -> Found:
        """Gets past a refusal by the first change of `why` that can be told by lines of the log that was given, made
        at all lines that are like its own where the log gets as far so."""
        effort, numbers = Effort(self.seconds, self.jobs), self.numbers
        study = studied(self.program, self.changed, answer.refusal, effort)
        danger = danger_of(self.program, self.changed, answer.refusal, study.shrinker)
        found = Found(told_in_given(answer, numbers), None, study=study, numbers=numbers, danger=danger)
        for repair in study.repairs:
            own = self.by_given(repair.change)
            if own is None:
                continue
            cause = cause_of(self.changed, repair.change)
            found.repair, found.cause = replace(repair, change=own), cause and replace(cause, at=numbers[cause.at - 1])
            found.change = self.made_everywhere(repair.change, own, cause, found) if cause else own
            self.take(found.change)
            break
        return found

    def made_everywhere(self, change: Change, own: Change, cause: Cause, found: Found) -> Change:
        more = everywhere(self.changed, change, cause)
        wide = self.by_given(joined([change, *more])) if more else None
        if wide is None or self.reach(wide) < self.reach(own):
            return own
        found.times += len(more)
        return wide


def findings_of(searcher: Searcher, first: Answer, most: int) -> Findings:
    """The findings by at most so many changes; the first answer is that to the log as it was given."""
    found, answer, stop = [], first, None
    for _ in range(most):
        if not answer.refusal:
            break
        new = searcher.pass_by(answer)
        alike = next((one for one in found if one.is_like(new)), None)
        if alike:
            alike.times, alike.change = alike.times + new.times, alike.change + new.change
        else:
            found.append(new)
        if new.repair is None:
            stop = Stop.NO_TIME if new.is_cut_off else Stop.NO_CHANGE
            break
        answer = searcher.answer()
    if stop is None and not answer.accepted:
        stop = Stop.MOST if answer.refusal else Stop.UNJUDGED
    return Findings(found, told_in_given(answer, searcher.numbers), stop, searcher.data, searcher.numbers)
