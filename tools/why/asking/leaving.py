# SPDX-License-Identifier: Apache-2.0
"""Tags that a root left when it was given up: what TLBs may still keep under a VMID, an ASID, the EL2 regime or the upper range.

The log's register writes give the candidates: for each tag the root that was readable under it last, where that was given up
since. The program is asked by a register write behind the log, of a new root under the tag; or of one that is declared on the page
anew. Rule 12 refuses it at the page of the root that left the tag. Where it does so behind a flush at all other PEs, the tag is left
at this one. And a flush behind which it is accepted frees the tag. So each statement is an answer of the program.
"""
from __future__ import annotations

from collections import defaultdict
from collections.abc import Iterable, Iterator
from dataclasses import dataclass, field, replace
from itertools import count, product
from typing import NamedTuple

from why.asking.program import Program, Unable, Verdict
from why.log import words
from why.log.lines import ADDRESS_BITS, PAGE_BYTES, Before, Event, Header, Line, Log, event_of, header_of

TAG_CONFLICT = 12
# A register keeps at most so many readable values, so that a log which reaches that limit takes no more memory.
MOST_VALUES, MOST_PAIRS = 9, 17
OF_TAGS = frozenset((b"msr", b"isb", b"root", b"unroot", b"init", b"null"))
WORD_OF_KIND = {"el2": "el2", "s2": "vmid", "ttbr0": "asid", "ttbr1": "ttbr1"}
NAMES = {"el2": "the EL2 regime", "s2": "VMID {}", "ttbr0": "ASID {}", "ttbr1": "the upper range"}
REGISTER_OF_KIND = {kind: register for register, kind in words.KIND_OF_REGISTER.items()}


@dataclass(frozen=True)
class Tag:
    """A tag, by the kind of its roots, and its number, 0 where there is but one tag of the kind."""

    kind: str
    number: int = 0

    @property
    def word(self) -> str:
        return WORD_OF_KIND[self.kind]

    @property
    def name(self) -> str:
        return NAMES[self.kind].format(self.number)

    @property
    def flush(self) -> str:
        """The least TLBI that takes all under the tag at every PE, whichever PE issues it."""
        if self.kind == "ttbr0":
            return f"aside1{words.BROADCAST} {hex(self.number << words.ASID_SHIFT)}"
        return words.WIDEST[self.kind] + words.BROADCAST


@dataclass(frozen=True)
class Left:
    """A tag that may be left: the page of the root that was given up and the line that did it, for each PE the line by which the
    root was loaded under the tag; and where the program says that it is left, at which PEs, and a TLBI that frees it."""

    tag: Tag
    page: int
    given_up: int
    loaded: dict[int, int]
    pes: tuple[int, ...] = ()
    flush: str = ""


class Loaded(NamedTuple):
    """A value of a root register, and the line that wrote it, 0 where none did."""

    at: int = 0
    value: int = 0


@dataclass
class Registers:
    """The values of the root registers of each PE that may be read, the newest last; and of the two registers of EL1 those that
    stood together at one moment (the standings of `inorder`)."""

    values: dict[tuple[int, str], list[Loaded]] = field(default_factory=dict)
    pairs: dict[int, list[tuple[Loaded, Loaded]]] = field(default_factory=dict)

    def of(self, pe: int, register: str) -> list[Loaded]:
        return self.values.get((pe, register), [Loaded()])

    def pairs_of(self, pe: int) -> list[tuple[Loaded, Loaded]]:
        return self.pairs.get(pe, [(Loaded(), Loaded())])

    def write(self, at: int, event: Event) -> None:
        key = event.pe, event.rest[0]
        self.values[key] = [*self.of(*key), Loaded(at, event.value)][-MOST_VALUES:]
        newest = tuple(self.of(event.pe, REGISTER_OF_KIND[kind])[-1] for kind in words.KINDS["kernel"])
        self.pairs[event.pe] = [*self.pairs_of(event.pe), newest][-MOST_PAIRS:]

    def synchronise(self, pe: int) -> None:
        for kept in (self.pairs.get(pe), *(self.values.get((pe, register)) for register in words.KIND_OF_REGISTER)):
            if kept:
                del kept[:-1]


class Tags:
    """For each tag the root that was readable under it last, and for each tag whose root was given up since what may be left."""

    def __init__(self, header: Header):
        self.header, self.registers = header, Registers()
        self.roots: dict[int, str] = {}
        self.loaded: dict[Tag, dict[int, int]] = {}
        self.page_of: dict[Tag, int] = {}
        self.tags_by_page: dict[int, set[Tag]] = defaultdict(set)
        self.left: dict[Tag, Left] = {}
        self.pages: set[int] = set()

    def take(self, at: int, line: bytes) -> None:
        if line.split(b" ", 1)[0] not in OF_TAGS:
            return
        event = event_of(line.decode("latin-1"))
        if event.word == "msr":
            self.registers.write(at, event)
            self.read(event.pe)
        elif event.word == "isb":
            self.registers.synchronise(event.pe)
        elif event.word == "root":
            self.roots[event.page] = event.rest[0]
        elif event.word == "unroot":
            self.give_up(at, event.page)
        else:
            self.pages.add(event.page)

    def loads_at(self, pe: int, kind: str) -> Iterator[tuple[Loaded, int]]:
        """The values by which a PE may read a root of a kind, each with the number of a tag under which it may."""
        mine = self.registers.of(pe, REGISTER_OF_KIND[kind])
        if kind in ("el2", "ttbr1"):
            return ((load, 0) for load in mine)
        if kind == "s2" or not self.header.asids_of_ttbr1:
            return ((load, load.value >> words.ASID_SHIFT) for load in mine)
        both = self.registers.pairs_of(pe) if self.header.pairs else product(mine, self.registers.of(pe, REGISTER_OF_KIND["ttbr1"]))
        return ((load, other.value >> words.ASID_SHIFT) for load, other in both)

    def read(self, pe: int) -> None:
        """What a PE may read behind a register write of it."""
        for kind in words.KINDS[self.header.world]:
            for load, number in self.loads_at(pe, kind):
                base = load.value & ADDRESS_BITS
                if self.roots.get(base) == kind:
                    self.load(Tag(kind, number), base, pe, load.at)

    def load(self, tag: Tag, page: int, pe: int, at: int) -> None:
        if self.page_of.get(tag) != page or tag in self.left:
            self.tags_by_page[self.page_of.get(tag, page)].discard(tag)
            self.page_of[tag], self.loaded[tag] = page, {}
            self.left.pop(tag, None)
        self.tags_by_page[page].add(tag)
        self.loaded[tag][pe] = at

    def loads_against(self, refused: Line) -> dict[int, Tag]:
        """The lines by which roots are readable under the tags that a register write gives to other ones, or for an `unroot` under
        those of its root, each with the tag; of each PE the last. The event is taken."""
        pages, loaded, tags = dict(self.page_of), dict(self.loaded), list(self.tags_by_page.get(refused.event.page, ()))
        held = [tag for tag in pages if tag not in self.left]
        self.take(refused.at, refused.text.encode("latin-1"))
        if refused.event.word == "msr":
            tags = [tag for tag in held if self.page_of[tag] != pages[tag]]
        last: dict[int, tuple[int, Tag]] = {}
        for tag in tags:
            last |= {pe: (at, tag) for pe, at in loaded[tag].items() if at > last.get(pe, (0, tag))[0]}
        return dict(last.values())

    def give_up(self, at: int, page: int) -> None:
        self.roots.pop(page, None)
        for tag in self.tags_by_page.pop(page, ()):
            self.left[tag] = Left(tag, page, at, self.loaded[tag])


def tags_of(front) -> Tags:
    """The tags of the front part of a log."""
    tags = Tags(header_of(front.header))
    for at, line in front.lines():
        tags.take(at, line)
    return tags


class Asker:
    """Asks about candidates behind the front part of a log, by register writes of PE 0."""

    def __init__(self, program: Program, front, tags: Tags):
        self.program, self.front, self.tags, self.header = program, front, tags, tags.header
        joined = self.header.pages_of("s2") * PAGE_BYTES
        unused = (page for page in count(joined, joined) if not any(page + i in tags.pages for i in range(0, joined, PAGE_BYTES)))
        self.root, self.null = next(unused), next(unused)

    def new_root(self, kind: str) -> list[str]:
        return [*(f"init 0 {hex(page)}" for page in self.header.pages_at(kind, self.root)), f"root 0 {kind} - {hex(self.root)}"]

    def load(self, left: Left) -> list[str]:
        """The root of a question loaded under the tag. A register of EL1 is written behind a TTBR0_EL1 of 0, and an ASID of TTBR1_EL1
        stands beside a null page there."""
        kind, register, number = left.tag.kind, REGISTER_OF_KIND[left.tag.kind], left.tag.number << words.ASID_SHIFT
        base = left.page if self.tags.roots.get(left.page) == kind else self.root
        lower, upper = REGISTER_OF_KIND["ttbr0"], REGISTER_OF_KIND["ttbr1"]
        away = [f"msr 0 {lower} 0x0", "isb 0"] if self.header.is_kernel else []
        if kind == "ttbr0" and self.header.asids_of_ttbr1:
            return [*away, f"msr 0 {upper} {hex(number | self.null)}", "isb 0", f"msr 0 {lower} {hex(base)}", "isb 0"]
        return [*away, f"msr 0 {register} {hex(number | base)}", "isb 0"]

    def refused(self, asked: list[Left], before: Iterable[str] = ()) -> int:
        """Which of the questions, all of one kind, is the first that rule 12 refuses, at the page of its root: their number where
        none is."""
        kind, starts = asked[0].tag.kind, []
        null = [f"init 0 {hex(self.null)}", f"null 0 {hex(self.null)}"] if kind == "ttbr0" else []
        tail = ["isb 0", *before, *null, *self.new_root(kind)]
        for left in asked:
            starts.append(len(tail))
            tail += self.load(left)
        answer = self.program.feed(("check",), self.front.with_tail([text.encode() for text in tail]))
        if answer.accepted:
            return len(asked)
        row = answer.refusal.line - self.front.events - 2 if answer.refusal else -1
        position = sum(start <= row for start in starts) - 1
        if position < 0 or answer.refusal.rule != TAG_CONFLICT or answer.refusal.at != asked[position].page:
            raise Unable(answer.status, f"what was asked behind the log's end has no answer: {answer.first}")
        return position

    def found(self, candidates: list[Left]) -> list[Left]:
        """Those of the candidates, all of one kind, that are left."""
        found = []
        while candidates:
            position = self.refused(candidates)
            found += map(self.with_pes, candidates[position:position + 1])
            candidates = candidates[position + 1:]
        return self.with_flushes(found) if found else []

    def with_pes(self, left: Left) -> Left:
        """At which PEs it is left; of several none is told where TLBIs of one PE alone reach none."""
        if len(left.loaded) == 1 or self.header.shares:
            return replace(left, pes=tuple(left.loaded) if len(left.loaded) == 1 else ())
        local = {pe: [f"tlbi {pe} {words.WIDEST[left.tag.kind]}", f"dsb {pe} nsh"] for pe in left.loaded}
        others = lambda pe: [text for other in local if other != pe for text in local[other]]
        return replace(left, pes=tuple(pe for pe in sorted(left.loaded) if self.refused([left], others(pe)) == 0))

    def with_flushes(self, found: list[Left]) -> list[Left]:
        """Each with the TLBI that frees it, by what is accepted behind all of these."""
        flushes = [*dict.fromkeys(f"tlbi 0 {left.tag.flush}" for left in found), f"dsb 0 {words.COMPLETING}"]
        freed = self.refused(found, flushes)
        return [replace(left, flush=left.tag.flush) for left in found[:freed]] + found[freed:]


def left_tags(program: Program, front) -> list[Left]:
    """The tags that are left behind the front part of an accepted log, in the order in which their roots were given up."""
    if not header_of(front.header).unflushed:
        return []
    tags = tags_of(front)
    return found_of(Asker(program, front, tags), list(tags.left.values()))


def found_of(asker: Asker, candidates: list[Left]) -> list[Left]:
    by_kind = defaultdict(list)
    for left in candidates:
        by_kind[left.tag.kind].append(left)
    found = [left for alike in by_kind.values() for left in asker.found(alike)]
    return sorted(found, key=lambda left: (left.given_up, left.tag.number))


def left_against(program: Program, log: Log, refusal: Verdict) -> list[Left]:
    """The tags that the root which rule 12 reports has left, and under which the refused register write would be readable."""
    if not header_of(log.header).unflushed:
        return []
    front = Before(log, refusal.line - 1)
    tags = tags_of(front)
    asker, before = Asker(program, front, tags), dict(tags.left)
    tags.take(refusal.line, log.bytes_of(refusal.line))
    return found_of(asker, [left for tag, left in before.items() if tag not in tags.left and left.page == refusal.at])
