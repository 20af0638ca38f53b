# SPDX-License-Identifier: Apache-2.0
"""A log as this tool holds it: the header and the event lines, each under its number in the log that was given.

The forms are those of docs/FORMAT.md. Nothing is judged here: a line that isn't well formed is for the program to name.
"""
from __future__ import annotations

from collections.abc import Iterator, Sequence
from dataclasses import dataclass, field, replace
from functools import lru_cache

PAGE_BYTES = 4096
ADDRESS_BITS = 0x0000_FFFF_FFFF_F000
WITH_PAGE = {"init", "null", "root", "unroot"}


@dataclass(frozen=True)
class Event:
    """The words of an event line: `pe` is its PE, `rest` what stands behind that, and `label` is empty where there is none."""

    word: str
    pe: int
    rest: tuple[str, ...]
    label: str = ""

    def __str__(self) -> str:
        return " ".join([self.plain, *([f"@{self.label}"] if self.label else [])])

    @property
    def plain(self) -> str:
        """The line without its label."""
        return " ".join([self.word, str(self.pe), *self.rest])

    @property
    def page(self) -> int | None:
        """The page that the line names, or that of its place."""
        if self.word in WITH_PAGE or self.word == "w":
            return number(self.rest[0 if self.word == "w" else -1]) & ~(PAGE_BYTES - 1)
        return None

    @property
    def place(self) -> int | None:
        return number(self.rest[0]) if self.word == "w" else None

    @property
    def value(self) -> int | None:
        return number(self.rest[1]) if self.word in ("w", "msr") else None

    @property
    def next_page(self) -> int | None:
        """The page that a written value names where it is one of a table; a page at level 3 is written alike."""
        return self.value & ADDRESS_BITS if self.word == "w" and self.value & 3 == 3 else None

    @property
    def base(self) -> int | None:
        """The page that a register write names as its root."""
        return self.value & 0x0000_FFFF_FFFF_FFFE & ADDRESS_BITS if self.word == "msr" else None

    @property
    def lock(self) -> str | None:
        """The lock that the line takes or gives back, or that of a declared root; None where there is none."""
        if self.word in ("lock", "unlock"):
            return self.rest[0]
        return self.rest[1] if self.word == "root" and self.rest[1] != "-" else None

    @property
    def operation(self) -> str | None:
        return self.rest[0] if self.word == "tlbi" else None

    @property
    def operand(self) -> int | None:
        return number(self.rest[1]) if self.word == "tlbi" and len(self.rest) > 1 else None


def number(text: str | bytes) -> int:
    """A number of a line; 0 where it can't be read."""
    try:
        return int(text, 0)
    except ValueError:
        return 0


@lru_cache(maxsize=1 << 16)
def event_of(line: str) -> Event:
    fields = line.split(" ")
    label = fields.pop()[1:] if fields[-1].startswith("@") else ""
    word, pe, *rest = [*fields, "", ""][:max(2, len(fields))]
    return Event(word, number(pe), tuple(padded(word, rest)), label)


def padded(word: str, rest: list[str]) -> list[str]:
    """The fields, at least as many as the readers above look at: a line that isn't well formed may have fewer."""
    least = {"root": 3, "w": 2, "msr": 2}.get(word, 1)
    return rest + [""] * (least - len(rest)) if word != "isb" else rest


# The words of a header in their order, each with the first version that has it; before `WITH_WORDS` the first is a field.
WORDS, WITH_WORDS = {"cnp": 2, "unflushed": 5, "inorder": 5, "isolated": 5}, 5
# The words of one world alone.
OF_WORLD = {"inorder": "kernel", "isolated": "hyp"}


def words_of(world: str) -> tuple[str, ...]:
    """The words that a header of the world may say, in their order."""
    return tuple(word for word in WORDS if OF_WORLD.get(word, world) == world)


@dataclass(frozen=True)
class Header:
    """The fields of the first line: `starts` are what stands between the PEs and the words, and `words` those that are said."""

    version: int
    world: str
    pes: int
    starts: tuple[str, ...]
    words: tuple[str, ...]

    def __str__(self) -> str:
        is_field = 1 < self.version < WITH_WORDS and not self.shares
        return " ".join(["bbmlog", str(self.version), self.world, str(self.pes), *self.starts, *self.words, *["-"] * is_field])

    def saying(self, word: str) -> Header:
        """The header with this word too, of the first version that has it where this one is older."""
        words = tuple(said for said in WORDS if said == word or said in self.words)
        return replace(self, version=max(self.version, WORDS[word]), words=words)

    @property
    def is_kernel(self) -> bool:
        return self.world == "kernel"

    @property
    def shares(self) -> bool:
        return "cnp" in self.words

    @property
    def unflushed(self) -> bool:
        return "unflushed" in self.words

    @property
    def asids_of_ttbr1(self) -> bool:
        """Whether TTBR1_EL1 has the ASID under which the roots of TTBR0_EL1 are read."""
        return self.is_kernel and self.starts[2] == "ttbr1"

    @property
    def pairs(self) -> bool:
        """Whether an ASID is readable by the two root registers of one moment: by `inorder`, which says nothing elsewhere."""
        return self.asids_of_ttbr1 and "inorder" in self.words

    def start_of(self, kind: str) -> int:
        """The level at which walks of a root of this kind start."""
        return number(self.starts[{"el2": 0, "s2": 1, "ttbr0": 0, "ttbr1": 1}[kind]])

    def pages_of(self, kind: str) -> int:
        return number(self.starts[2]) if kind == "s2" and not self.is_kernel else 1

    def pages_at(self, kind: str, page: int) -> range:
        """The pages of a root, by its first."""
        return range(page, page + self.pages_of(kind) * PAGE_BYTES, PAGE_BYTES)


def for_questions(line: str) -> str:
    """The header line of a log with made writes behind it: without `isolated`, by which rule 18 alone is judged. So nothing is said of
    what a made value maps, and all else is as it was."""
    header = header_of(line)
    words = tuple(word for word in header.words if word != "isolated")
    return line if words == header.words else str(replace(header, words=words))


def header_of(line: str) -> Header:
    fields = line.split(" ")
    fields += ["0"] * (7 - len(fields))
    version = number(fields[1])
    words = tuple(word for word in fields[7:] if version >= WORDS.get(word, version + 1))
    return Header(version, fields[2], number(fields[3]), tuple(fields[4:7]), words)


@dataclass
class Locks:
    """The locks of declared roots, and which PE holds each lock."""

    named: dict[str, None] = field(default_factory=dict)
    held: dict[str, int] = field(default_factory=dict)

    def take(self, event: Event) -> None:
        if event.word == "lock":
            self.held[event.lock] = event.pe
        elif event.word == "unlock":
            self.held.pop(event.lock, None)
        elif event.lock is not None:
            self.named[event.lock] = None


@dataclass(frozen=True)
class Line:
    """An event line, and its number in the log that was given."""

    at: int
    text: str

    @property
    def event(self) -> Event:
        return event_of(self.text)

    @property
    def name(self) -> str:
        """How a text names the line: by its number, and its label where it has one."""
        label = self.event.label
        return f"line {self.at} @{label}" if label else f"line {self.at}"


Lines = tuple[Line, ...]
# the numbers of lines, in order
Numbers = Sequence[int]


def joined(parts) -> bytes:
    """The log of a header and event lines, with the right `end` line."""
    parts = [*parts]
    return b"\n".join([*parts, b"end %d\n" % (len(parts) - 1)])


def written(header: str, lines) -> bytes:
    return joined(text.encode("latin-1") for text in (header, *(line.text for line in lines)))


class Log:
    """The bytes of a log, cut at its newlines once. Event i of `events` stands on line i + 2."""

    def __init__(self, data: bytes):
        self.data = data
        self.parts = data.split(b"\n")

    @property
    def header(self) -> str:
        return self.parts[0].decode("latin-1")

    @property
    def last_event(self) -> int:
        """The number of the last whole line that isn't the `end` line: the header's 1 where there is no event."""
        whole = len(self.parts) - 1
        return whole - 1 if whole > 1 and self.parts[whole - 1].startswith(b"end ") else whole

    def bytes_of(self, at: int) -> bytes:
        return self.parts[at - 1]

    def line(self, at: int) -> Line:
        return Line(at, self.parts[at - 1].decode("latin-1"))

    def event(self, at: int) -> Event:
        return self.line(at).event

    def lines(self, numbers) -> Lines:
        return tuple(self.line(at) for at in numbers)

    def cut(self, numbers: Numbers) -> bytes:
        """The log of the lines of these numbers alone."""
        return joined([self.parts[0], *(self.parts[at - 1] for at in numbers)])

    def until(self, last: int) -> bytes:
        """The log up to the line of this number, and with it."""
        return joined(self.parts[:last])


class Before:
    """The front part of a log up to a line, for questions behind it."""

    def __init__(self, log: Log, last: int):
        self.log, self.last, self.events, self.header = log, last, last - 1, log.header

    def lines(self) -> Iterator[tuple[int, bytes]]:
        return enumerate(self.log.parts[1:self.last], 2)

    def with_tail(self, tail: list[bytes]) -> list[bytes]:
        return [joined([for_questions(self.header).encode("latin-1"), *self.log.parts[1:self.last], *tail])]
