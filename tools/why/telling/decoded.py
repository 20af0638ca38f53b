# SPDX-License-Identifier: Apache-2.0
"""What a line names, in words: of a write the address that its place translates, the tag, the level, and what it
replaces by what; of a TLBI its operand with its hint, and what it covers of a place. It is told by the log's own
lines; the program alone judges.
"""
from __future__ import annotations

import textwrap
from collections.abc import Iterable
from dataclasses import dataclass, replace
from enum import Enum

from why.asking.places import LAST_LEVEL, WITH_BLOCKS
from why.asking.trees import Spot, Trees, bits_of
from why.log import words
from why.log.lines import Before, Event, Log
from why.telling.lanes import Chart, Effect

SIZES = {0: "512 GiB", 1: "1 GiB", 2: "2 MiB", 3: "4 KiB"}
ADDRESSES = {"el2": "VA", "s2": "IPA", "ttbr0": "VA", "ttbr1": "VA"}
REGIMES = {"el2": "EL2", "s2": "VMID", "ttbr0": "ASID", "ttbr1": "the upper range"}


class Cover(Enum):
    """What a TLBI has to do with a place, and how that is said."""

    WHOLE = "covers the place"
    REGIME = "is of another regime than the place"
    TAG = "is of another tag than the place"
    ADDRESS = "names another address than the place has"
    HINT = "has the hint of another level than the place has"
    LAST_LEVEL = "takes the last level alone, and the place had a table"


MISSES = (Cover.REGIME, Cover.TAG, Cover.ADDRESS)


@dataclass(frozen=True)
class Told:
    """What is said of a line: its words, and of a TLBI what it has to do with the place."""

    text: str
    cover: Cover | None = None

    @property
    def full(self) -> str:
        return self.text + (f"; it {self.cover.value}" if self.cover else "")


def value_told(value: int, level: int) -> str:
    """What a value is at a level, with how much it maps."""
    if not value & 1:
        return "nothing"
    if value & 2 and level < LAST_LEVEL:
        return "table"
    is_leaf = value & 2 or level in WITH_BLOCKS
    return f"{SIZES[level]} {'page' if level == LAST_LEVEL else 'block'}" if is_leaf else "nothing (bits 01)"


def tag_told(kind: str, tags: Iterable[int]) -> str:
    """The tags under which a root was loaded."""
    numbers = " or ".join(map(str, tags))
    if kind in ("s2", "ttbr0"):
        return f"{REGIMES[kind]} {numbers}" if numbers else f"no {REGIMES[kind]} yet"
    return "at EL2" if kind == "el2" else "in the upper range"


class Decoder:
    """Says what lines name, by the lines before them."""

    def __init__(self, front):
        self.trees = Trees(front)

    def spot(self, spot: Spot) -> str:
        """What a place translates."""
        tag = tag_told(spot.kind, self.trees.tags.get(spot.root, ()))
        return f"{ADDRESSES[spot.kind]} {hex(spot.address)}, {tag}, level {spot.level}"

    def write(self, event: Event) -> Told | None:
        """What is said of a write; nothing of one in a page that is in no tree there."""
        spot, old = self.trees.spot(event.place), self.trees.last_value(event.place)
        if spot is None:
            return None
        was_cleared = bool(old) and bool(self.trees.tables.cleared_at(event.place))
        was = value_told(old, spot.level) + (", cleared," if was_cleared and event.value & 1 else "")
        return Told(f"{self.spot(spot)}: {was} to {value_told(event.value, spot.level)}")

    def tlbi(self, event: Event, place: int | None) -> Told:
        operation = words.base_of(event.operation)
        parts = [f"all of {self.regime(event, operation)}" if event.operand is None else self.operand(event, operation)]
        if not words.is_broadcast(event.operation):
            parts.append(f"at PE {event.pe} alone")
        spot = self.trees.spot(place) if place is not None else None
        return Told(", ".join(parts), spot and self.cover(event, operation, spot, self.trees.last_value(place)))

    def regime(self, event: Event, operation: str) -> str:
        if words.is_of_el2(operation):
            return "EL2"
        if operation == "alle1":
            return "EL1 and stage 2"
        return self.vmid(event) if not self.trees.header.is_kernel else "EL1"

    def vmid(self, event: Event) -> str:
        vmid = self.trees.tag_of(event.pe)
        pe = f"PE {event.pe}"
        return f"the VMID of {pe}, which loaded none" if vmid is None else f"VMID {vmid}, that of {pe}"

    def operand(self, event: Event, operation: str) -> str:
        """The fields of an operand."""
        operand = words.Operand(event.operation, event.operand)
        if operation == "aside1":
            return f"all of ASID {operand.asid}"
        is_s2, hint = "ipas2" in operation, operand.hint
        what = f"{'IPA' if is_s2 else 'VA'} {operand.page}"
        what += f" and on, {operand.pages} pages" if words.is_range(operation) else ""
        tag = f"ASID {operand.asid}" if operation in words.BY_ASID else self.vmid(event) if is_s2 else ""
        level = f"hint level {hint} ({SIZES[hint]})" if hint is not None else "no hint"
        last = "the last level" if operation in words.LAST_LEVEL else ""
        return ", ".join(filter(None, (what, tag, level, last)))

    # ---- what a TLBI covers of a place

    def cover(self, event: Event, operation: str, spot: Spot, old: int) -> Cover:
        if words.is_of_el2(operation) != (spot.kind == "el2") or "ipas2" in operation and spot.kind != "s2":
            return Cover.REGIME
        if self.is_of_other_tag(event, operation, spot):
            return Cover.TAG
        if words.is_of_tag(operation) or spot.kind == "s2" and "ipas2" not in operation:
            return Cover.WHOLE
        return self.cover_of_page(words.Operand(event.operation, event.operand), operation, spot, old)

    def is_of_other_tag(self, event: Event, operation: str, spot: Spot) -> bool:
        tags = self.trees.tags.get(spot.root, ())
        if spot.kind == "s2" and operation != "alle1":
            vmid = self.trees.tag_of(event.pe)
            return vmid is not None and bool(tags) and vmid not in tags
        by_asid = spot.kind == "ttbr0" and operation in words.BY_ASID
        return by_asid and bool(tags) and event.operand >> words.ASID_SHIFT not in tags

    def cover_of_page(self, operand: words.Operand, operation: str, spot: Spot, old: int) -> Cover:
        mask, size = (operand.bits + 1 << words.PAGE_SHIFT) - 1, 1 << bits_of(spot.level)
        first, begin = operand.address, spot.address & mask
        if not (first < begin + size and begin < first + (operand.pages << words.PAGE_SHIFT)):
            return Cover.ADDRESS
        if operand.hint is not None and operand.hint != spot.level:
            return Cover.HINT
        is_table = value_told(old, spot.level) == "table"
        return Cover.LAST_LEVEL if is_table and operation in words.LAST_LEVEL else Cover.WHOLE


def told_lines(log: Log, wanted: dict[int, int | None]) -> dict[int, Told]:
    """What is said of each of these lines that is a write or a TLBI; of a TLBI for the place that stands with it."""
    decoder, found, since = Decoder(Before(log, 1)), {}, 2
    for at, place in sorted(wanted.items()):
        for number in range(since, at):
            decoder.trees.take(number, log.bytes_of(number))
        since, event = max(since, at), log.event(at)
        if event.word == "w":
            found[at] = decoder.write(event)
        elif event.word == "tlbi":
            found[at] = decoder.tlbi(event, place)
    return {at: one for at, one in found.items() if one}


def texts_of(log: Log, wanted: dict[int, int | None]) -> dict[int, str]:
    """The same, each with the name of its line."""
    return {at: f"{log.line(at).name}: {one.full}" for at, one in told_lines(log, wanted).items()}


def marked(chart: Chart, log: Log) -> Chart:
    """The chart in which a TLBI that has nothing to do with the place looks different from one that has."""
    flushes = {row.line.at: chart.place for row in chart.rows if row.event.word == "tlbi" and chart.place is not None}
    misses = {at for at, one in told_lines(log, flushes).items() if one.cover in MISSES}
    aside = lambda row: replace(row, effects=dict.fromkeys(row.effects, Effect.ASIDE))
    return replace(chart, rows=[aside(row) if row.line.at in misses else row for row in chart.rows])


def part(parts) -> list[str]:
    """The part of `why` on what the lines of the small log name: its heading, and a text for each write and TLBI."""
    study, place = parts.study, next(iter(parts.study.scene.places), None)
    told = texts_of(study.log, {line.at: place for line in study.small}).values()
    about = f"; the place is {hex(place)}" if place is not None else ""
    how = {"width": parts.style.width, "initial_indent": "  ", "subsequent_indent": "    ", "break_long_words": False}
    return [parts.head(f"What the lines name{about}"), *(textwrap.fill(text, **how) for text in told)] if told else []
