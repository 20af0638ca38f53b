# SPDX-License-Identifier: Apache-2.0 OR GPL-2.0-or-later
"""Which normalisations a trace needs, by the program's answers."""
from __future__ import annotations

from collections import Counter
from collections.abc import Collection, Iterator, Sequence
from itertools import combinations

from converter import normalisations
from converter.checker import judge, program_of
from converter.conversion import Conversion, Plan
from converter.facts import Facts
from converter.forms import form_of
from converter.log import Log, kind_of
from converter.normalisations import about
from converter.report import misfits
from converter.words import Asked

MOST_TOGETHER = 3  # normalisations that are tried at once


def convert(facts: Facts, plan: Plan, lines: Sequence[str]) -> tuple[Conversion, Log]:
    log = Log()
    conversion = Conversion(facts, plan, log.add)
    for index, line in enumerate(lines):
        conversion.take(index, line)
    return conversion, log


class Search:
    """A trace that is converted once, and once more where its log begins late, and judged with as many normalisations
    as need be."""

    def __init__(self, asked: Asked, lines: Sequence[str], facts: Facts) -> None:
        self.program = program_of(asked.check) if asked.suggest else None
        self.given_header = asked.header
        self.world, self.lines, self.facts = asked.world, lines, facts
        self.names = [name for name in normalisations.of_world(normalisations.ALL, asked.world.name)
                      if name != "snapshot" and normalisations.is_of_version(name, asked.header)]
        self.words = [] if asked.header else normalisations.of_world(normalisations.premises(), asked.world.name)
        self.begin("snapshot" in asked.allow)

    def begin(self, late: bool) -> None:
        form = form_of(self.header(["snapshot"] if late else []))
        assert form is not None
        self.conversion, self.log = convert(self.facts, Plan(form, late), self.lines)

    def judged(self, allow: Collection[str]) -> Counter[str]:
        """How many lines of each kind there are with these normalisations."""
        return Counter(kind_of(self.log.lines[number]) for number in self.log.told(allow))

    def header(self, allow: Collection[str]) -> str:
        return self.given_header or self.facts.header(allow)

    def start(self) -> str:
        assert self.facts.start is not None
        return f"trace line {self.facts.start + 1}, where the first {self.world.first} is loaded"

    def misfits(self, allow: Collection[str]) -> list[str]:
        return misfits(self.conversion, self.header(allow), allow)

    def verdict(self, allow: Collection[str], upto: int | None = None) -> tuple[str, int | None]:
        """The answer, and the line of the trace that it is about, or None where the log is accepted."""
        assert self.program
        numbers = self.log.told(allow, upto)
        answer, verdict = judge(self.program, self.log.text(self.header(allow), numbers))
        if not verdict.line:
            return answer, None
        at = verdict.line - 2
        return answer, self.log.origins[numbers[at]] if 0 <= at < len(numbers) else 0

    def is_before(self, allow: Collection[str], origin: int) -> bool:
        """Whether a line of the trace is one that `snapshot` would leave out."""
        return "snapshot" not in allow and self.facts.start is not None and origin < self.facts.start

    def begins_with_others(self, allow: Collection[str]) -> bool:
        """Whether a kernel has roots of another form, as that of its identity map, before a snapshot would begin."""
        can_begin_late = not self.world.is_hyp and "snapshot" not in allow and self.facts.start is not None
        return can_begin_late and bool(self.misfits(allow))

    def sets(self, allow: Collection[str], origin: int) -> Iterator[list[str]]:
        """What may get past a line of the trace: the fewest first, of those without a further word of the header before
        all others."""
        made = self.log.names_before(origin)
        others = [name for name in self.names if name in made and name not in allow]
        words = [word for word in self.words if word not in allow]
        for count in range(len(words) + 1):
            for some in combinations(words, count):
                for size in range(MOST_TOGETHER + 1):
                    for names in combinations(others, size):
                        yield [*some, *names]

    def past(self, allow: Collection[str], origin: int) -> list[str]:
        """The first of these with which the log gets past a line of the trace, or nothing."""
        sets = (names for names in self.sets(allow, origin) if names)
        return next((names for names in sets if self.verdict([*allow, *names], origin)[1] is None), [])

    def needless(self, allow: Collection[str], given: Collection[str]) -> str | None:
        """One that a later one has made needless."""
        for name in [name for name in allow if name not in given and name != "snapshot"]:
            if self.verdict([other for other in allow if other != name])[1] is None:
                return name
        return None


class Suggesting:
    """Prints the normalisations that each refusal needs, and adds them to those that are allowed.

    What `snapshot` leaves out isn't judged, so it gets past nothing. A kernel's boot isn't in the profile, so its log
    begins behind it where nothing else helps, which is said; a hypervisor's can begin at the reset.
    """

    def __init__(self, search: Search, allow: list[str]) -> None:
        self.search, self.allow, self.given = search, allow, tuple(allow)

    def is_accepted(self) -> bool:
        """Whether the log is accepted with all that was found."""
        if self.search.begins_with_others(self.allow):
            print("\n".join(self.search.misfits(self.allow)))
            self.take_snapshot()
        if self.search.misfits(self.allow):
            return False
        answer, origin = self.search.verdict(self.allow)
        while origin is not None:
            print(f"{answer}\n    trace line {origin + 1}: {self.search.lines[origin]}")
            if not self.gets_past(origin):
                return False
            answer, origin = self.search.verdict(self.allow)
        self.drop_needless()
        return True

    def gets_past(self, origin: int) -> bool:
        """Adds what gets past a refusal, or leaves out what is before a snapshot. Answers whether it did."""
        names = self.search.past(self.allow, origin)
        is_before = self.search.is_before(self.allow, origin)
        if names:
            print(f"    gets past it: {','.join(names)}")
        elif is_before and not self.search.world.is_hyp:
            self.take_snapshot()
            return not self.search.misfits(self.allow)
        else:
            print("    no normalisation gets past it: a bug of the guest, or something that isn't in the profile")
            if is_before:
                print(f"    --allow snapshot would leave it out unjudged, with all else before {self.search.start()}")
        for name in names:
            self.add(name)
        return bool(names)

    def drop_needless(self) -> None:
        while needless := self.search.needless(self.allow, self.given):
            print(f"needless behind the others: {needless}")
            self.allow.remove(needless)

    def add(self, name: str) -> None:
        print(f"        {about(name)}")
        self.allow.append(name)

    def take_snapshot(self) -> None:
        print(f"    not got past, but left out, as the boot: snapshot begins at {self.search.start()}")
        self.add("snapshot")
        self.search.begin(True)
