# SPDX-License-Identifier: Apache-2.0
"""What may be changed in a small log so that it gets past its last line, rule by rule: the tries of a repair, by size.

A rule chooses what is tried, and nothing more. Whether a try passes the program says.
"""
from __future__ import annotations

from collections.abc import Callable, Iterable, Iterator
from dataclasses import replace
from itertools import combinations

from why.asking.places import LAST_LEVEL
from why.log import words
from why.log.lines import ADDRESS_BITS, PAGE_BYTES, Header, Line
from why.repairs.changes import Change, Drop, Kind, Move, Swap, one, puts
from why.repairs.flushes import Family, away, broadcast, elsewhere, is_about_tags, loading, operands, sequences
from why.repairs.flushes import missing_breaks, tlbis_for, under_its_vmid, whole_sequences, with_pe, with_words
from why.repairs.scene import Scene

NEAR = 8
LARGEST = 4
NG, CONTIGUOUS = 1 << 11, 1 << 52
# How much a leaf may map, by its bits 1:0.
SPANS = {1: (PAGE_BYTES << 18, PAGE_BYTES << 9), 3: (PAGE_BYTES,)}
LEFT_OUT = {"root", "lock", "unlock", "null", "isb", "init"}
BY_FLUSHES = ("break-before-make", "limbo-make", "tag-conflict", "root-in-use")


# ---- lines that stand in the wrong place

def moves(scene: Scene) -> Iterator[Change]:
    refused, near = scene.refused, scene.in_window("dsb", "tlbi", "isb", "msr")[-NEAR:]
    yield from (one(Move(refused.at, line.at)) for line in scene.later)
    yield from (one(Move(line.at, refused.at - 1)) for line in scene.later if line.event.word != "w")
    yield from (one(Move(line.at, refused.at)) for line in scene.in_window("unlock")[-NEAR:])
    for line in near:
        yield from (one(Move(line.at, after)) for after in goals(scene, line) if after not in (line.at, line.at - 1))
    yield from (one(Move(refused.at, at)) for at in before_what_broke(scene))


def goals(scene: Scene, line: Line) -> list[int]:
    """Behind which lines a barrier, a TLBI or a register write may stand: before and behind another one, of those
    that are next."""
    words_near = {"isb": ("tlbi", "msr"), "tlbi": ("dsb", "isb"), "dsb": ("tlbi", "w"), "msr": ("tlbi",)}[line.event.word]
    goals_near = [goal.at for goal in scene.in_window(*words_near) if goal is not line]
    others = sorted(goals_near, key=lambda at: abs(at - line.at))
    return [after for at in others[:NEAR] for after in (at - 1, at)]


def before_what_broke(scene: Scene) -> list[int]:
    """Behind which lines the refused one may stand to come before what it collides with."""
    page = scene.event.page
    broke = [line.at for line in scene.lines[:-1] if line.event.word == "unroot" and not scene.is_about_left or
             line.event.word == "w" and line.event.place in scene.places and not line.event.value & 1]
    declared = [line.at for line in scene.lines[:-1] if line.event.word == "null" and line.event.page == page]
    return [at - 1 for at in (*broke[-2:], *declared) if at > 2]


def synchronised(scene: Scene) -> Iterator[Change]:
    """An ISB behind a register write, so that its PE doesn't use a root under two tags."""
    yield from (puts(line.at, f"isb {line.event.pe}") for line in scene.of_word("msr")[-NEAR:] if line is not scene.refused)


def both_synchronised(scene: Scene) -> Iterator[Change]:
    """ISBs behind two register writes of the refused line's PE: where a root and its ASID stand in two registers."""
    mine = [line for line in scene.of_word("msr")[-NEAR:] if line is not scene.refused and line.event.pe == scene.event.pe]
    yield from (puts(one_line.at, f"isb {scene.event.pe}") + puts(other.at, f"isb {scene.event.pe}") for one_line, other in combinations(mine, 2))


# ---- locks

def doubled(scene: Scene) -> Iterator[Change]:
    """A line that says the same as the refused one, left out."""
    if scene.event.word in LEFT_OUT:
        yield from (one(Drop(line.at)) for line in scene.lines[:-1] if line.event.plain == scene.event.plain)


def no_lock(scene: Scene) -> Iterator[Change]:
    behind, pe, held = scene.refused.at - 1, scene.event.pe, scene.holders
    for lock in scene.locks:
        if lock in held:
            yield with_pe(scene.refused, held[lock])
        yield puts(behind, f"lock {pe} {lock}")
        yield from (with_words(line, (lock,), Kind.LOCK) for line in scene.of_word("lock") if line.event.pe == pe)
        if lock in held:
            yield puts(behind, f"unlock {held[lock]} {lock}", f"lock {pe} {lock}")


def lock_busy(scene: Scene) -> Iterator[Change]:
    lock, holder = scene.event.lock, scene.holders.get(scene.event.lock)
    if holder is not None:
        yield puts(scene.refused.at - 1, f"unlock {holder} {lock}")
        yield from (with_words(line, (lock,), Kind.LOCK) for line in scene.of_word("unlock") if line.event.pe == holder)
        yield from doubled(scene)


def lock_not_mine(scene: Scene) -> Iterator[Change]:
    event, held = scene.event, scene.holders
    if event.lock in held:
        yield with_pe(scene.refused, held[event.lock])
    yield from (with_words(scene.refused, (lock,), Kind.LOCK) for lock, pe in held.items() if pe == event.pe)
    yield puts(scene.refused.at - 1, f"lock {event.pe} {event.lock}")


# ---- pages and what is written in them

def made_zero(scene: Scene) -> list[int]:
    """The pages that may need an `init`: that which is reported, and those that the line names."""
    pages = [scene.reported, scene.event.page, scene.event.next_page, scene.event.base]
    return list(dict.fromkeys(page for page in pages if page))


def zeroed(scene: Scene, page: int) -> Change:
    """An `init` of a page before the refused line."""
    return puts(scene.refused.at - 1, f"init {scene.event.pe} {hex(page)}")


def other_value(line: Line, value: int) -> Change:
    return with_words(line, (*line.event.rest[:-1], hex(value)), Kind.VALUE)


def linking(scene: Scene) -> list[Line]:
    """The writes that link a page, the last first; before them those that link the page which is reported, and
    before all one of that page itself."""
    lines = [line for line in scene.lines[::-1] if line.event.next_page is not None]
    return sorted(lines, key=lambda line: (line.event.next_page != scene.reported, line.event.page != scene.reported))[:NEAR]


def with_link(scene: Scene, line: Line, page: int) -> Change:
    """A write that links another page, one that was just made zero."""
    value = line.event.value & ~line.event.next_page | page
    return puts(line.at - 1, f"init {scene.event.pe} {hex(page)}") + other_value(line, value)


def both_linked_elsewhere(scene: Scene) -> Iterator[Change]:
    first, second = scene.unused_pages(2)
    yield from (with_link(scene, one_line, first) + with_link(scene, other, second)
                for one_line, other in combinations(linking(scene), 2))


def was_used(scene: Scene, page: int) -> bool:
    """Whether a page was never made zero, was a root or hung below one: then an `init` is what may be missing. What was
    written in another page would be lost by it."""
    is_zeroed = any(line.event.word == "init" and line.event.page == page for line in scene.lines[:-1])
    return not is_zeroed or page in scene.roots or page in scene.links and scene.spot(scene.links[page]) is not None


def not_fresh(scene: Scene) -> Iterator[Change]:
    """An `init`, or another page linked."""
    yield from (zeroed(scene, page) for page in made_zero(scene) if was_used(scene, page))
    page, = scene.unused_pages(1)
    yield from (with_link(scene, line, page) for line in linking(scene))


def rewritten_fresh(scene: Scene) -> Iterator[Change]:
    yield zeroed(scene, scene.event.page)
    before = [line for line in scene.lines[:-1] if line.event.place == scene.event.place]
    yield from (other_value(line, scene.event.value) for line in before[-1:])


def null_written(scene: Scene) -> Iterator[Change]:
    """The write in a page of a root that is there, or in one of its own, which a root can be made of."""
    inside, (new,) = scene.event.place % PAGE_BYTES, scene.unused_pages(1)
    in_page = lambda page: with_words(scene.refused, (hex(page + inside), scene.event.rest[1]), Kind.PLACE)
    yield from (in_page(page) for page, (kind, _) in scene.roots.items() if kind == "ttbr0")
    yield zeroed(scene, new) + in_page(new)


def at_place(scene: Scene) -> list[Line]:
    """The last write at the place that is reported."""
    return [line for line in scene.lines if line.event.word == "w" and line.event.place == scene.refusal.at][-1:]


def bad_kind(scene: Scene) -> Iterator[Change]:
    yield from (other_value(line, line.event.value & ~CONTIGUOUS) for line in at_place(scene))


def global_user(scene: Scene) -> Iterator[Change]:
    yield from (other_value(line, line.event.value | NG) for line in at_place(scene))


def page_in_use(scene: Scene) -> Iterator[Change]:
    event, page = scene.event, scene.refusal.at
    first = next((root for root in (page, event.page) if root in scene.roots), page)
    given_up = puts(scene.refused.at - 1, *scene.under_locks(f"unroot {event.pe} {hex(first)}"))
    yield from (zeroed(scene, zero) for zero in made_zero(scene))
    yield given_up
    yield from doubled(scene)
    yield given_up + zeroed(scene, page)


# ---- leaves over tables

def made_clean(scene: Scene) -> Iterator[Change]:
    """The last `init` of the page that is reported, moved before the refused line, or a further one there."""
    made = [line for line in scene.lines[:-1] if line.event.word == "init" and line.event.page == scene.reported]
    yield from (one(Move(line.at, scene.refused.at - 1)) for line in made[-1:])
    yield zeroed(scene, scene.reported)


def mapped_elsewhere(scene: Scene) -> Iterator[Change]:
    """Another output, in which no page is that the log names, for what may be a leaf that maps the page which is
    reported."""
    why = f"maps the page {hex(scene.reported)}, which is a table"
    for line in scene.of_word("w")[::-1]:
        for span in SPANS.get(line.event.value & 3, ()):
            if line.event.value & ADDRESS_BITS == scene.reported & -span:
                value = line.event.value & ~ADDRESS_BITS | scene.unused_output(span)
                yield with_words(line, (line.event.rest[0], hex(value)), Kind.VALUE, why=why)


def linked_elsewhere(scene: Scene) -> Iterator[Change]:
    """Another page linked in the place of the one that is reported."""
    page, = scene.unused_pages(1)
    is_leaf = lambda line: (spot := scene.spot(line.event.place)) is not None and spot.level == LAST_LEVEL
    yield from (with_link(scene, line, page) for line in linking(scene) if line.event.next_page == scene.reported and not is_leaf(line))


def table_mapped(scene: Scene) -> Iterator[Change]:
    """A page that was mapped is made clean; else a leaf that comes over a table maps another one."""
    return made_clean(scene) if scene.held else mapped_elsewhere(scene)


# ---- registers and tags

def root_of_kind(scene: Scene) -> str:
    if scene.event.word == "msr":
        return words.KIND_OF_REGISTER.get(scene.event.rest[0], "el2")
    return (scene.kinds or words.KINDS[scene.header.world])[0]


def no_root(scene: Scene) -> Iterator[Change]:
    event, kind = scene.event, root_of_kind(scene)
    page = event.base if event.word == "msr" else event.page
    declared = puts(scene.refused.at - 1, f"root {event.pe} {kind} - {hex(page)}")
    yield from (with_words(line, (kind, *line.event.rest[1:]), Kind.ROOT_KIND)
                for line in scene.of_word("root") if line.event.page == page)
    yield declared
    if event.word == "msr":
        yield from (other_value(scene.refused, event.value & ~page | other) for other, (of, _) in scene.roots.items() if of == kind)
    yield zeroed(scene, page) + declared


def other_tag(scene: Scene) -> Iterator[Change]:
    """An ASID or VMID in the refused line that no register write has. What a root left is flushed instead."""
    if scene.is_about_left:
        return
    event, register = scene.event, "vttbr_el2" if not scene.header.is_kernel else f"{scene.header.starts[2]}_el1"
    free = next(tag for tag in range(1, len(scene.tags) + 2) if tag not in scene.tags)
    if event.word == "msr" and event.rest[0] == register:
        yield other_value(scene.refused, event.value & (1 << words.ASID_SHIFT) - 1 | free << words.ASID_SHIFT)


def switched_away(scene: Scene) -> Iterator[Change]:
    """Another value and an ISB at each PE that has the root loaded, which is enough under `unflushed`."""
    yield from (puts(scene.refused.at - 1, *away(loading(scene), *other)) for other in elsewhere(scene))


def unsynced_vmid(scene: Scene) -> Iterator[Change]:
    pe = scene.event.pe
    written = [line.at for line in scene.of_word("msr") if line.event.pe == pe]
    yield from (puts(at, f"isb {pe}") for at in dict.fromkeys([*written[-1:], scene.refused.at - 1]))
    yield with_words(scene.refused, ("alle1is",), Kind.OPERATION)


def other_operands(scene: Scene) -> Iterator[Family]:
    """Other operands of a TLBI that has one which none may have: of these the one with which the whole log gets
    furthest."""
    event = scene.event
    operand = words.Operand(event.operation, event.operand)
    tried = {operand.without_hint(): Kind.HINT, words.shifted(event.operand): Kind.OPERAND}
    if operand.asid == words.SIGN or not operand.address:
        tried = {words.shifted(event.operand): Kind.OPERAND}
    if words.is_range(event.operation):
        aligned = operand.aligned()
        tried = {aligned: Kind.OPERAND, aligned & ~words.RANGE_HINT: Kind.OPERAND,
                 event.operand & ~(3 << 46) | words.GRANULE_4K: Kind.OPERAND,
                 event.operand & ~(3 << 46) & ~words.RANGE_HINT | words.GRANULE_4K: Kind.HINT, **tried}
    bare = operand.without_hint()
    tried |= {value: Kind.OPERAND for value in (bare & ~(0xFF << 36), bare & words.VA_BITS, bare & words.IPA_BITS) if value not in tried}
    choices = [(value, kind) for value, kind in (*tried.items(), *operands(scene, event)) if value != event.operand]
    yield Family(tuple(with_words(scene.refused, (event.operation, hex(value)), kind) for value, kind in choices), furthest=True)


def other_header(header: Header) -> Change:
    return one(Swap(1, str(header), Kind.HEADER))


def worlds(scene: Scene) -> Iterator[Change]:
    """The other header, or the words of this one."""
    event, header = scene.event, scene.header
    world, last = ("hyp", "1") if header.is_kernel else ("kernel", "ttbr0")
    if event.word == "msr" and event.value & 1 and header.version > 1 and not header.shares:
        yield other_header(header.saying("cnp"))
        yield other_value(scene.refused, event.value & ~1)
    yield other_header(replace(header, world=world, starts=(*header.starts[:2], last)))
    if event.word == "root":
        yield from (with_words(scene.refused, (kind, *event.rest[1:]), Kind.ROOT_KIND) for kind in words.KINDS[header.world])


def wrong_world(scene: Scene) -> Iterator[Change]:
    yield from worlds(scene)
    if scene.event.word == "root":
        yield from (zeroed(scene, scene.event.page) + change for change in worlds(scene))


# ---- what is tried with so many edits

TRIES: dict[str, Callable[[Scene], Iterator[Change]]] = {
    "wrong-world": wrong_world, "no-lock": no_lock, "null-written": null_written, "not-fresh": not_fresh,
    "rewritten-fresh": rewritten_fresh, "bad-kind": bad_kind, "global-user": global_user, "page-in-use": page_in_use,
    "no-root": no_root, "root-in-use": switched_away, "unsynced-vmid": unsynced_vmid, "lock-busy": lock_busy,
    "lock-not-mine": lock_not_mine, "tag-conflict": other_tag, "table-mapped": table_mapped,
}


def each(changes: Iterable[Change]) -> Iterator[Family]:
    yield from (Family((change,)) for change in changes)


def of_rule(scene: Scene, size: int) -> Iterator[Family]:
    """The tries of the rule that refuses the line."""
    rule, reported = scene.refusal.name, scene.reported
    if rule == "not-fresh" and size > 1 and reported in made_zero(scene) and was_used(scene, reported):
        yield from (flushed + zeroed(scene, reported) for flushed in sequences(scene, size - 1))
    if rule in TRIES:
        yield from each(change for change in TRIES[rule](scene) if change.size == size)
    if rule == "bad-operand" and size == 1:
        yield from other_operands(scene)
    if rule in (*BY_FLUSHES, "page-in-use") or scene.is_about_leaves and scene.held:
        yield from sequences(scene, size)
    if scene.is_about_leaves and scene.held and size > 1:
        yield from (flushed + zeroed(scene, reported) for flushed in sequences(scene, size - 1))


def before_the_load(scene: Scene) -> Iterator[Family]:
    """Where a tag was left, its flush right before the line that uses the tag again."""
    at, pe = scene.refused.at - 1, scene.event.pe
    for kind in scene.kinds[:1] if scene.is_about_left else ():
        flushes = [(f"tlbi {pe} {text}", f"dsb {pe} {words.COMPLETING}") for text in tlbis_for(scene, kind)]
        yield Family(tuple(puts(at, *flush) for flush in flushes))


def families(scene: Scene, size: int) -> Iterator[Family]:
    """What is tried with so many edits; with `LARGEST` whole sequences."""
    if size == LARGEST:
        yield from largest(scene)
        return
    if size == 1:
        yield from each(moves(scene))
        yield from each(synchronised(scene))
        yield from before_the_load(scene)
    if size == 2 and scene.header.asids_of_ttbr1 and is_about_tags(scene):
        yield from each(both_synchronised(scene))
    for other in scene.narrowed:
        yield from sequences(other, size)
    yield from of_rule(scene, size)


def first_families(scene: Scene) -> Iterator[Family]:
    """What is tried first, of whatever size: where it passes, the lines around it are right."""
    for one_scene in (scene, *scene.narrowed):
        yield from broadcast(one_scene)
        yield from under_its_vmid(one_scene)
    yield from missing_breaks(scene)


def largest(scene: Scene) -> Iterator[Family]:
    """Whole sequences, which have more than three edits: tried where nothing smaller passes."""
    rule = scene.refusal.name
    if rule in TRIES:
        yield from each(change for change in TRIES[rule](scene) if change.size >= LARGEST)
    if rule in (*BY_FLUSHES, "page-in-use") or scene.is_about_leaves and scene.held:
        yield from whole_sequences(scene)
    if rule == "not-fresh":
        yield from each(both_linked_elsewhere(scene))
    if scene.is_about_leaves:
        yield from each(linked_elsewhere(scene))


def last_resort(scene: Scene) -> Iterator[Family]:
    """Lines left out, which is tried where nothing else passes."""
    yield from each(one(Drop(line.at)) for line in scene.lines[:-1][::-1] if line.event.word in LEFT_OUT)
