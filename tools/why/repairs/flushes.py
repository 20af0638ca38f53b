# SPDX-License-Identifier: Apache-2.0
"""Barriers and TLBIs that may be missing or wrong between a break and what comes after it, and register writes before a
flush.

Each try is what stands before the TLBI, the TLBI, and what stands behind it; each of the three may stay as it is.
"""
from __future__ import annotations

from collections.abc import Iterator
from dataclasses import dataclass, replace

from why.log import words
from why.repairs.changes import NOTHING, Change, Kind, Put, Swap, one, puts
from why.log.lines import ADDRESS_BITS, Event, Line
from why.repairs.scene import Scene

SWITCHING = 5
# Before so many barriers of its PE a clear that is missing is tried.
CLEARED = 4


@dataclass(frozen=True)
class Family:
    """Changes of one size, the least first; the first that passes stands for all, or with `furthest` the one with
    which the whole log gets furthest. `probes` are tried before them, the one that does most first: where one
    doesn't pass, less doesn't."""

    choices: tuple[Change, ...]
    probes: tuple[Change, ...] = ()
    furthest: bool = False

    def __add__(self, more: Change) -> Family:
        """The family with more edits behind each change."""
        extended = lambda changes: tuple(change + more for change in changes)
        return replace(self, choices=extended(self.choices), probes=extended(self.probes))


@dataclass(frozen=True)
class Flush:
    """A TLBI as it is, changed or put in: the changes, the widest of them, by which PE, and on or behind which line."""

    choices: tuple[Change, ...]
    widest: Change
    pe: int
    at: int
    is_new: bool = False


def with_words(line: Line, rest: tuple[str, ...], kind: Kind, pe: int | None = None, why: str = "") -> Change:
    """The line with other fields, its label as it was."""
    event = line.event
    text = Event(event.word, event.pe if pe is None else pe, rest, event.label)
    return one(Swap(line.at, str(text), kind, why))


def with_pe(line: Line, pe: int) -> Change:
    return with_words(line, line.event.rest, Kind.PE, pe)


# ---- the operands

def operands(scene: Scene, event: Event) -> Iterator[tuple[int, Kind]]:
    """Other operands of a TLBI: without its hint, with the right one, of the place's address, of a tag, of a longer
    range."""
    operand = words.Operand(event.operation, event.operand)
    if operand.hint is not None:
        yield from ((operand.hinted(spot.level), Kind.HINT) for spot in scene.spots if spot.level)
        yield operand.without_hint(), Kind.HINT
    yield from ((longer, Kind.RANGE) for longer in operand.longer())
    for spot in scene.spots:
        yield operand.at(spot.address), Kind.ADDRESS
        yield words.Operand(event.operation, operand.without_hint()).at(spot.address), Kind.ADDRESS
        if words.base_of(event.operation) in words.BY_ASID:
            yield from ((words.Operand(event.operation, operand.at(spot.address)).of_asid(tag), Kind.ADDRESS) for tag in scene.tags)
    if words.base_of(event.operation) in words.BY_ASID:
        yield from ((operand.of_asid(tag), Kind.TAG) for tag in scene.tags)


def operations(event: Event) -> Iterator[tuple[str, Kind]]:
    """Other operations in the place of one: its broadcast form, that for every level, and those that take more."""
    base = words.base_of(event.operation)
    every_level = words.LAST_LEVEL.get(base, base)
    suffix = words.BROADCAST
    yield base + suffix, Kind.BROADCAST
    yield every_level + (suffix if words.is_broadcast(event.operation) else ""), Kind.OPERATION
    yield every_level + suffix, Kind.OPERATION
    for wider in words.WIDER.get(every_level, []):
        yield wider + suffix, Kind.OPERATION


def operand_for(scene: Scene, event: Event, operation: str) -> tuple[str, ...]:
    """The operand of an event under another operation."""
    base = words.base_of(operation)
    if base not in words.WITH_OPERAND:
        return ()
    if base == "aside1":
        asid = event.operand >> words.ASID_SHIFT if words.base_of(event.operation) in words.BY_ASID else (scene.tags or [0])[0]
        return (hex(asid << words.ASID_SHIFT),)
    if words.is_range(event.operation) and not words.is_range(operation):
        return (hex(words.Operand(operation, 0).at(words.Operand(event.operation, event.operand).address)),)
    operand = event.operand or 0
    return (hex(operand if base in words.BY_ASID else operand & (1 << words.ASID_SHIFT) - 1),)


def changes_of_tlbi(scene: Scene, line: Line) -> tuple[Change, ...]:
    """What a TLBI of the log may be changed to, the least first."""
    event, tried = line.event, {}
    tries = []
    if event.operand is not None:
        tries += [((event.operation, hex(value)), kind) for value, kind in operands(scene, event)]
    tries += [((operation, *operand_for(scene, event, operation)), kind) for operation, kind in operations(event)]
    tries += [(tuple(text.split(" ")), Kind.OPERATION) for kind in scene.kinds for text in tlbis_for(scene, kind)]
    tries.sort(key=lambda item: item[1] is not Kind.BROADCAST)
    for rest, kind in tries:
        if rest != event.rest:
            tried.setdefault(rest, kind)
    why = other_vmid(scene, line)
    return tuple(with_words(line, rest, kind, None, why) for rest, kind in tried.items())


# ---- TLBIs that are put in, and those that are there

def is_about_tags(scene: Scene) -> bool:
    return scene.event.word in ("msr", "unroot")


def tlbis_for(scene: Scene, kind: str) -> list[str]:
    """TLBIs that may take the place, or all under a tag where it is about tags, the least first, without their PE."""
    spots = [] if is_about_tags(scene) else [spot for spot in scene.spots if spot.kind == kind]
    pages = [words.Operand("ipas2e1" if kind == "s2" else "vae1", 0).at(spot.address) for spot in spots]
    if kind == "el2":
        return [*(f"vae2is {hex(page)}" for page in pages), "alle2is"]
    if kind == "s2":
        second = [] if is_about_tags(scene) else [words.SECOND_STEP]
        return [*second, *(f"ipas2e1is {hex(page)}" for page in pages), "vmalls12e1is", "alle1is"]
    tags = scene.tags if kind == "ttbr0" else []
    by_asid = [f"vae1is {hex(tag << 48 | page)}" for page in pages for tag in tags]
    return [*by_asid, *(f"vaae1is {hex(page)}" for page in pages), *(f"aside1is {hex(tag << 48)}" for tag in tags), "vmalle1is"]


def positions(scene: Scene) -> list[tuple[int, int]]:
    """Behind which lines a TLBI may be put in, and by which PE: before and behind each near DSB by that PE, behind
    the break and the last ISBs, and before the refused line; there first where a tag was left, since its flush is
    put off until the tag is used again."""
    near = scene.near("dsb")
    found = [(at, line.event.pe) for line in near for at in (line.at, line.at - 1)]
    synced = [line.at for line in scene.in_window("isb")[-2:]] if is_about_tags(scene) else []
    ends = [*(line.at for line in near), *synced, scene.refused.at - 1]
    first = [(scene.refused.at - 1, scene.event.pe)] if scene.is_about_left else []
    broken = [(scene.last_write.at, scene.last_write.event.pe)] if scene.last_write else []
    return list(dict.fromkeys([*first, *found, *broken, *((at, pe) for pe in scene.pes[:2] for at in ends)]))


def flushes(scene: Scene) -> Iterator[Flush]:
    """The TLBIs that are there, as they are, with other words, and of another PE; then those that are put in."""
    for line in scene.near("tlbi"):
        yield Flush((NOTHING,), NOTHING, line.event.pe, line.at)
        for kind in scene.kinds:
            widest = with_words(line, (words.WIDEST[kind] + words.BROADCAST,), Kind.OPERATION)
            yield Flush(changes_of_tlbi(scene, line), widest, line.event.pe, line.at)
        for pe in scene.pes:
            if pe != line.event.pe:
                yield Flush((with_pe(line, pe),), with_pe(line, pe), pe, line.at)
    for kind in scene.kinds:
        widest, second = words.WIDEST[kind] + words.BROADCAST, words.SECOND_STEP if kind == "s2" else ""
        for at, pe in positions(scene):
            puts_one = [Put(at, f"tlbi {pe} {text}", 2 if text == second else 1) for text in tlbis_for(scene, kind)]
            yield Flush(tuple(map(one, puts_one)), puts(at, f"tlbi {pe} {widest}"), pe, at, True)


def broadcast(scene: Scene) -> Iterator[Family]:
    """A local TLBI with the suffix `is`, alone or with the DSB behind it: tried before any change of a line that may
    be right."""
    for line in scene.near("tlbi"):
        if words.is_broadcast(line.event.operation):
            continue
        wide = with_words(line, (line.event.operation + words.BROADCAST, *line.event.rest[1:]), Kind.BROADCAST)
        behind = [dsb for dsb in scene.in_window("dsb") if dsb.at > line.at and dsb.event.pe == line.event.pe][:1]
        yield Family((wide, *(wide + with_words(dsb, (words.COMPLETING,), Kind.OPTION) for dsb in behind)))


def loads_of_s2(scene: Scene) -> list[Event]:
    """The register writes that load the stage 2 roots of the places."""
    roots = {spot.root for spot in scene.spots if spot.kind == "s2"}
    return [line.event for line in scene.of_word("msr") if line.event.base in roots]


def other_vmid(scene: Scene, line: Line) -> str:
    """That a TLBI acts under another VMID than the places have, by the last register writes; nothing where it
    doesn't."""
    written = [before.event for before in scene.of_word("msr") if before.at < line.at and before.event.pe == line.event.pe]
    values = [event.value >> words.ASID_SHIFT for event in written if event.rest[0] == "vttbr_el2"]
    place = [event.value >> words.ASID_SHIFT for event in loads_of_s2(scene)]
    is_other = values and place and values[-1] not in place and not words.is_of_el2(line.event.operation)
    return f"acts under VMID {values[-1]}, and the place is under VMID {place[-1]}" if is_other else ""


def under_its_vmid(scene: Scene) -> Iterator[Family]:
    """The VMID of the places at the PE of a TLBI under another one: an `msr` and an `isb` before the break."""
    for line in scene.near("tlbi") if scene.last_write else ():
        why, pe = other_vmid(scene, line), line.event.pe
        if why:
            switch = Put(scene.last_write.at - 1, f"msr {pe} vttbr_el2 {loads_of_s2(scene)[-1].rest[1]}", why=f"{line.name} {why}")
            yield Family((one(switch) + puts(switch.after, f"isb {pe}"),))


# ---- what stands before and behind a TLBI

def options_of(line: Line, pe: int) -> list[Change]:
    """A DSB with another option, or of another PE."""
    if line.event.pe != pe:
        return [with_pe(line, pe)]
    return [with_words(line, (option,), Kind.OPTION) for option in words.OPTIONS if (option,) != line.event.rest]


def publications(scene: Scene, flush: Flush) -> Iterator[Change]:
    """What may stand before the TLBI so that the break is published."""
    yield NOTHING
    broken = scene.last_write
    if broken is None:
        return
    pe = broken.event.pe
    clear = f"w {pe} {broken.event.rest[0]} 0x0"
    barrier = f"dsb {pe} {words.PUBLISHING}"
    for line in [line for line in scene.in_window("dsb") if broken.at < line.at < flush.at][-2:]:
        yield from options_of(line, pe)
    yield puts(broken.at, barrier)
    if broken.event.value & 1:
        yield puts(broken.at, clear)
        yield puts(broken.at, clear, barrier)


def elsewhere(scene: Scene) -> list[tuple[str, str]]:
    """Register writes that lead away from a root: to a declared null page, those of the log that name another root,
    and 0."""
    written = [tuple(line.event.rest) for line in scene.of_word("msr") if line is not scene.refused]
    given_up = scene.refusal.at
    others = [(register, value) for register, value in written if int(value, 16) & ADDRESS_BITS not in (given_up, 0)]
    zeros = [(register, "0x0") for register, _ in written]
    if scene.event.word == "msr":
        zeros.append((scene.event.rest[0], "0x0"))
    nulls = [("ttbr0_el1", hex(line.event.page)) for line in scene.of_word("null") if any(register == "ttbr0_el1" for register, _ in zeros)]
    return list(dict.fromkeys([*nulls, *others, *zeros]))


def away(pes: list[int], register: str, value: str) -> list[str]:
    """Another value and an ISB at each of these PEs."""
    return [text for pe in pes for text in (f"msr {pe} {register} {value}", f"isb {pe}")]


def switches(scene: Scene, flush: Flush) -> Iterator[Change]:
    """What may stand before the TLBI so that no PE uses the tag any more: an ISB, or another root and an ISB."""
    yield NOTHING
    if scene.is_about_left:
        return
    behind = flush.at if flush.is_new else flush.at - 1
    pes = list(dict.fromkeys(line.event.pe for line in scene.of_word("msr")))[-SWITCHING:]
    for pe in pes:
        yield puts(behind, f"isb {pe}")
    for pe in pes:
        for register, value in elsewhere(scene)[:3]:
            yield puts(behind, *away([pe], register, value))


def completions(scene: Scene, flush: Flush) -> Iterator[Change]:
    """What may stand behind the TLBI so that it is complete."""
    yield NOTHING
    later = [line for line in scene.in_window("dsb") if line.at > flush.at][:2]
    for line in later:
        yield from options_of(line, flush.pe)
    yield puts(flush.at, f"dsb {flush.pe} {words.COMPLETING}")


def fullest(scene: Scene, flush: Flush) -> tuple[Change, ...]:
    """A flush with all that may stand around it: where that doesn't pass, less of it doesn't; none where it is about
    tags."""
    broken = scene.last_write
    if is_about_tags(scene) or broken is None or broken.at > flush.at:
        return ()
    clear = [f"w {broken.event.pe} {broken.event.rest[0]} 0x0"] if broken.event.value & 1 else []
    begin = puts(broken.at, *clear, f"dsb {broken.event.pe} {words.PUBLISHING}")
    return (begin + flush.widest + puts(flush.at, f"dsb {flush.pe} {words.COMPLETING}"),)


def sequences(scene: Scene, size: int) -> Iterator[Family]:
    """Each way to a complete flush that takes so many edits."""
    before = switches if is_about_tags(scene) else publications
    for flush in flushes(scene):
        if not flush.choices:
            continue
        width, full = flush.choices[0].size, fullest(scene, flush)
        ends = [end for end in completions(scene, flush) if end.size + width <= size]
        for begin in before(scene, flush):
            for end in ends:
                if begin.size + width + end.size == size:
                    choices = tuple(begin + choice + end for choice in flush.choices)
                    yield Family(choices, (*full, begin + flush.widest + end))


def whole_sequences(scene: Scene) -> Iterator[Family]:
    """All four steps at once before the refused line: where the log has none of them."""
    event, is_limbo = scene.event, scene.refusal.name == "limbo-make"
    pes, barrier = [event.pe], f"dsb {event.pe} {words.PUBLISHING}"
    if is_about_tags(scene):
        pes = loading(scene)
        heads = [away(pes, register, value) for register, value in elsewhere(scene)]
    else:
        cleared = [[f"w {event.pe} {hex(place)} 0x0", barrier] for place in scene.places]
        heads = [[barrier]] if is_limbo else [[barrier], *cleared] if scene.is_about_leaves else cleared
    for kind in scene.kinds:
        for head in heads:
            for text in tlbis_for(scene, kind):
                flush = [f"tlbi {pes[-1]} {text}", f"dsb {pes[-1]} {words.COMPLETING}"]
                yield Family(tuple(puts(scene.refused.at - 1, *scene.under_locks(*head, *flush, *tail)) for tail in tails(scene)))


def missing_breaks(scene: Scene) -> Iterator[Family]:
    """The clear that is missing, before a flush that the refused line's PE makes; and a whole sequence."""
    if scene.lacks_break:
        pe, clear = scene.event.pe, f"w {scene.event.pe} {hex(scene.event.place)} 0x0"
        own = [line.at for line in scene.in_window("dsb") if line.event.pe == pe]
        yield from [Family(tuple(puts(at - 1, clear) for at in own[:-CLEARED - 1:-1]))] if own else []
        yield from whole_sequences(scene)


def tails(scene: Scene) -> list[list[str]]:
    """What stands behind a whole sequence: where a page has to be made zero then, that which is reported, or all
    those of a root."""
    event, of_pages = scene.event, lambda pages: [f"init {scene.event.pe} {hex(page)}" for page in pages]
    if scene.refusal.name == "limbo-make":
        return [of_pages([event.page])]
    if not scene.is_about_leaves:
        return [[]]
    every = scene.header.pages_at(event.rest[0], event.page) if event.word == "root" else range(0)
    return [of_pages([scene.reported])] + ([of_pages(every)] if len(every) > 1 else [])


def loading(scene: Scene) -> list[int]:
    """The PEs that have the reported root in a register, or where that is the new one another root under its tag;
    else that of the refused line."""
    event, at = scene.event, scene.refusal.at
    last = {(line.event.pe, line.event.rest[0]): line.event for line in scene.of_word("msr") if line is not scene.refused}
    tag_of = lambda event: (event.rest[0], event.value >> words.ASID_SHIFT)
    is_left = lambda old: tag_of(old) == tag_of(event) and old.base not in (0, at) if event.base == at else old.base == at
    return [pe for (pe, _), old in last.items() if is_left(old)][-SWITCHING:] or [event.pe]
