# SPDX-License-Identifier: Apache-2.0
"""Changes of a log: what a repair puts in, changes or moves, by the line numbers of the log that was given."""
from __future__ import annotations

from array import array
from bisect import bisect_left, bisect_right
from collections.abc import Iterable, Sequence
from dataclasses import dataclass
from enum import Enum
from itertools import accumulate
from typing import Union

from why.log.lines import Log, Numbers, joined
from why.log.words import is_of_tag


FLUSHING = ("dsb", "tlbi")


class Kind(Enum):
    """What a change changes, as the tests name it too."""

    PUT_IN = "put in"
    MOVED = "moved"
    LEFT_OUT = "left out"
    BROADCAST = "broadcast"
    OPERATION = "operation"
    ADDRESS = "address"
    HINT = "hint"
    TAG = "tag"
    RANGE = "range"
    OPERAND = "operand"
    OPTION = "option"
    PE = "pe"
    VALUE = "value"
    PLACE = "place"
    LOCK = "lock"
    ROOT_KIND = "kind"
    HEADER = "header"


@dataclass(frozen=True)
class Put:
    """An event put in behind a line, and why. `text` has no label; `step` tells the second TLBI of two from one that
    takes all."""

    after: int
    text: str
    step: int = 1
    kind: Kind = Kind.PUT_IN
    why: str = ""


@dataclass(frozen=True)
class Swap:
    """A line with other words, and what is wrong with it where that isn't seen in these; the first line is the
    header."""

    at: int
    text: str
    kind: Kind
    why: str = ""


@dataclass(frozen=True)
class Move:
    """A line moved behind another one."""

    at: int
    after: int
    kind: Kind = Kind.MOVED


@dataclass(frozen=True)
class Drop:
    """A line left out."""

    at: int
    kind: Kind = Kind.LEFT_OUT


Edit = Union[Put, Swap, Move, Drop]


def position_of(edit: Edit) -> int:
    """The line at which an edit changes something."""
    return edit.after if isinstance(edit, Put) else edit.at


def site_of(edit: Edit) -> tuple:
    """What an edit changes, in whichever way."""
    return (Put, edit.text.split(" ")[0], edit.step) if isinstance(edit, Put) else (type(edit), edit.at)


@dataclass(frozen=True)
class Change:
    """Some edits that are made together."""

    edits: tuple[Edit, ...]

    @property
    def size(self) -> int:
        return len(self.edits)

    @property
    def kinds(self) -> list[str]:
        return sorted(edit.kind.value for edit in self.edits)

    @property
    def idea(self) -> frozenset[str]:
        """The TLBIs for all under a tag that it puts in, at whichever line; one that only reaches more PEs counts
        for none."""
        words_of = (edit.text.split(" ") for edit in self.edits if isinstance(edit, (Put, Swap))
                    and edit.text.startswith("tlbi ") and edit.kind is not Kind.BROADCAST)
        return frozenset(fields[2] for fields in words_of if is_of_tag(fields[2]))

    @property
    def touched(self) -> set[int]:
        """The event lines that the edits speak of; a put event speaks of none."""
        return {edit.at for edit in self.edits if not isinstance(edit, Put)} - {1}

    @property
    def synchronises(self) -> bool:
        """Whether it is an ISB that is put in, and nothing else."""
        return bool(self.edits) and all(isinstance(edit, Put) and edit.text.startswith("isb ") for edit in self.edits)

    @property
    def flushes(self) -> bool:
        """Whether it puts in or alters a barrier or TLBI."""
        return any(isinstance(edit, (Put, Swap)) and edit.text.split(" ")[0] in FLUSHING for edit in self.edits)

    @property
    def moves(self) -> bool:
        return any(isinstance(edit, Move) for edit in self.edits)

    def __add__(self, other: Change) -> Change:
        return Change(self.edits + other.edits)

    def shares(self, other: Change) -> bool:
        """Whether both change one thing."""
        return not {*map(site_of, self.edits)}.isdisjoint(map(site_of, other.edits))

    def but(self, position: int) -> Change:
        """Without the edit at this position."""
        return Change(self.edits[:position] + self.edits[position + 1:])


NOTHING = Change(())


def one(edit: Edit) -> Change:
    return Change((edit,))


def puts(after: int, *texts: str) -> Change:
    """Events put in one behind the other, each an edit of its own."""
    return Change(tuple(Put(after, text) for text in texts))


def moved_to(edit: Edit) -> int:
    """The line behind which an edit leaves something."""
    return edit.at if isinstance(edit, (Swap, Drop)) else edit.after


def made_in(keys: list[int], parts: list[bytes], change: Change) -> list[int]:
    """Makes a change in lines of these numbers, and gives for each line that is left its number in the log that was
    given; what is put in has that of the line before it."""
    given = [*keys]
    for edit in sorted(change.edits, key=lambda edit: not isinstance(edit, Swap)):
        at, text = position_of(edit), b""
        if not isinstance(edit, Put):
            old = bisect_left(keys, at)
            if keys[old:old + 1] != [at]:
                continue
            text = parts[old]
            del keys[old], parts[old], given[old]
        if not isinstance(edit, Drop):
            after = moved_to(edit)
            new = bisect_right(keys, after)
            keys.insert(new, after)
            parts.insert(new, text if isinstance(edit, Move) else edit.text.encode("latin-1"))
            given.insert(new, at)
    return given


@dataclass(frozen=True)
class Edited:
    """A log with a change, as parts that follow each other, and the numbers of its lines in the log that was given."""

    parts: tuple[bytes | memoryview, ...]
    keys: Sequence[int]
    given: list[int]
    first: int
    last: int

    def number(self, line: int) -> int:
        """The number in the log that was given of a line; of what comes behind the last line that of this."""
        at = line - 1
        if self.first <= at < self.first + len(self.given):
            return self.given[at - self.first]
        old = at if at < self.first else at - len(self.given) + self.last - self.first
        return self.keys[min(old, len(self.keys) - 1)]


class Piece:
    """Lines of a log, their header first, as bytes in which changes are made: what a change doesn't touch stays one
    part."""

    def __init__(self, log: Log, numbers: Numbers):
        self.log = log
        self.keys = range(1, numbers.stop) if isinstance(numbers, range) and numbers.start == 2 else [1, *numbers]
        parts = [log.parts[at - 1] for at in self.keys]
        self.offsets = array("Q", accumulate((len(part) + 1 for part in parts), initial=0))
        self.data = memoryview(b"\n".join([*parts, b""]))

    def edited(self, change: Change) -> Edited:
        near = [at for edit in change.edits for at in (position_of(edit), moved_to(edit))] or [self.keys[-1]]
        first, last = bisect_left(self.keys, min(near)), bisect_right(self.keys, max(near))
        keys = [*self.keys[first:last]]
        parts = [self.log.parts[at - 1] for at in keys]
        given = made_in(keys, parts, change)
        middle = b"".join(part + b"\n" for part in parts)
        end = b"end %d\n" % (len(self.keys) - 1 + len(given) - (last - first))
        offsets = self.offsets
        whole = self.data[:offsets[first]], middle, self.data[offsets[last]:], end
        return Edited(whole, self.keys, given, first, last)


def edited(log: Log, numbers: Iterable[int], change: Change) -> tuple[bytes, list[int]]:
    """The log of the lines of these numbers as the change leaves it, and the number in the log that was given of
    each of its lines; what is put in has that of the line before it."""
    keys = [1, *numbers]
    parts = [log.parts[at - 1] for at in keys]
    given = made_in(keys, parts, change)
    return joined(parts), given
