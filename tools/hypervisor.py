# SPDX-License-Identifier: Apache-2.0
"""Logs of a small hypervisor at EL2 with guests, PEs that run by turns and locks, and in each of them at most one bug,
planted once.

`story(seed, bug)` makes a log, the same again for a seed; without a bug it keeps the rules. BUGS names the bugs and
what each of them does. `tools/test_repairs.py` judges the logs, and nothing here says what the verdict is.
"""
import random
from dataclasses import dataclass, field

from stories import Header, text_of

PES, VMIDS, FIRST_TABLE, FIRST_OUTPUT, BLOCKS = 4, 3, 0x80000000, 0x200000000, 0x1000000000
HEADER = Header(5, True, PES, (1, 1), 1, "ttbr0", False, unflushed=True, isolated=True)
EL2_LOCK = 0
TABLE, PAGE_LEAF, BLOCK_LEAF = 3, 0x7ff, 0x7fd
# The step of a PE that does nothing for a turn; and for how many turns a lock that is dropped early is open to others.
PAUSE, WINDOW = "", 100
SPAN = {1: 1 << 30, 2: 1 << 21, 3: 1 << 12}
BUGS = {
    "no DSB before the TLBI": "the clear isn't published before its TLBI",
    "local TLBI at EL2": "`vae2` in the place of `vae2is`",
    "another VMID": "the flush doesn't load the VMID of the guest",
    "table cleared before its flush": "the page of a table is made zero when its entry is cleared, before the flush",
    "wrong level hint": "the TLBI of a leaf has the hint of another level",
    "no break": "a block is replaced by a table without a clear and a flush",
    "VMID not flushed": "a VMID goes to a new guest without a flush",
    "lock dropped early": "the lock is given back between the clear of a leaf and its flush",
    "page handed over unflushed": "a guest's page becomes a table without the flush of its leaf",
    "one DSB for two steps": "no DSB stands between `ipas2e1is` and `vmalle1is`",
    "no ISB behind VTTBR": "the flush doesn't wait for the VMID that it loads",
    "table flushed by one page": "a table is taken out under the TLBI of one page",
    "unmap without a flush": "a leaf is cleared, and not flushed",
    "make behind the unlock": "the new value is written when the lock was given back",
    "last level alone": "`ipas2le1is` takes a table out",
    "local second step": "`vmalle1` in the place of `vmalle1is`",
}


@dataclass
class Table:
    """A table: its page, its level, the first address below it, and what its places hold."""

    page: int
    level: int
    first: int
    held: dict = field(default_factory=dict)

    def place(self, number):
        return self.page + 8 * number

    def address(self, number):
        return self.first + number * SPAN[self.level]


@dataclass
class Guest:
    vmid: int
    root: Table
    is_dying: bool = False
    users: int = 0
    unmapped: tuple = (None, 0)

    @property
    def lock(self):
        return self.vmid

    @property
    def register(self):
        return self.vmid << 48 | self.root.page

    def has(self, table):
        """Whether a table of level 3 is linked."""
        return any(held is table for middle in self.root.held.values() for held in middle.held.values())


class Hypervisor:
    """What every PE sees: the guests, the pages and the locks; and what each PE does, as steps that are events of
    its own."""

    def __init__(self, chance, bug, nth):
        self.chance, self.bug, self.nth, self.met = chance, bug, nth, 0
        self.lines, self.holders, self.guests, self.loaded = [], {}, {}, dict.fromkeys(range(PES))
        self.next_table, self.next_output, self.next_block = FIRST_TABLE, FIRST_OUTPUT, BLOCKS
        self.free, self.handed = [], []
        self.stale = set()
        self.el2 = Table(self.table_page(), 1, 0)

    def slips(self, bug):
        """Whether the bug is planted here: where it fits for so many a time."""
        if bug != self.bug:
            return False
        self.met += 1
        return self.met == self.nth

    # ---- pages

    def table_page(self):
        """A page that is in no tree: one that was freed, one that a guest gave back, or a new one."""
        if self.handed and self.chance.random() < 0.5:
            return self.handed.pop()
        if self.free and self.chance.random() < 0.7:
            return self.free.pop(0)
        self.next_table += 4096
        return self.next_table - 4096

    def output(self):
        self.next_output += 4096
        return self.next_output - 4096

    def block(self):
        self.next_block += SPAN[2]
        return self.next_block - SPAN[2]

    def new_table(self, level, first):
        page = self.table_page()
        yield f"init {page:#x} @alloc_table"
        yield "dsb ishst @alloc_table"
        return Table(page, level, first)

    # ---- one guest's tables, under its lock

    def descend(self, guest, number):
        """The table of level 2 below a place of the root, made where there is none."""
        return (yield from self.child(guest.root, number))

    def child(self, above, number):
        if number not in above.held:
            below = yield from self.new_table(above.level + 1, above.address(number))
            yield f"w {above.place(number):#x} {below.page | TABLE:#x} @link_table"
            yield "dsb ishst @link_table"
            above.held[number] = below
        return above.held[number]

    def flush(self, pe, guest, table, number, is_table=False):
        """The flush of a place that was cleared: by address in two steps, of a table by one that takes all."""
        switches = self.loaded[pe] is not guest and not self.slips("another VMID")
        if switches:
            yield f"msr vttbr_el2 {guest.register:#x} @flush_enter"
            if not self.slips("no ISB behind VTTBR"):
                yield "isb @flush_enter"
        if not self.slips("no DSB before the TLBI"):
            yield "dsb ishst @flush"
        if is_table and not self.slips("table flushed by one page") and not self.slips("last level alone"):
            yield "tlbi vmalls12e1is @flush_all"
            yield "dsb ish @flush_all"
        else:
            yield from self.by_address(table, number, is_table)
        if switches:
            old = self.loaded[pe]
            yield f"msr vttbr_el2 {old.register if old else 0:#x} @flush_leave"
            yield "isb @flush_leave"

    def by_address(self, table, number, is_table):
        level = table.level if not self.slips("wrong level hint") else 5 - table.level
        hint = 0 if is_table else (4 | level) << 44
        last = "l" if is_table and self.bug == "last level alone" else ""
        yield f"tlbi ipas2{last}e1is {table.address(number) >> 12 | hint:#x} @flush_page"
        if not self.slips("one DSB for two steps"):
            yield "dsb ish @flush_page"
        yield f"tlbi vmalle1{'' if self.slips('local second step') else 'is'} @flush_page"
        yield "dsb ish @flush_page"

    def take_out(self, pe, guest, table, number, is_table=False):
        """The break of a place and its flush. What it held is given back."""
        yield f"w {table.place(number):#x} 0x0 @break"
        held = table.held.pop(number)
        if is_table and self.slips("table cleared before its flush"):
            yield f"init {held.page:#x} @free_table"
        if is_table or not self.slips("unmap without a flush"):
            yield from self.flush(pe, guest, table, number, is_table)
        return held

    # ---- what a PE does for a guest

    def map_page(self, pe, guest):
        yield f"lock {guest.lock} @map"
        table = yield from self.child(guest.root, self.chance.randrange(3))
        number = self.chance.randrange(5)
        if not isinstance(table.held.get(number), int):
            table = yield from self.child(table, number)
            number = self.chance.randrange(6)
            if guest.has(guest.unmapped[0]) and self.chance.random() < 0.5:
                table, number = guest.unmapped
            if number not in table.held:
                table.held[number] = value = self.output() | PAGE_LEAF
                yield f"w {table.place(number):#x} {value:#x} @map"
                yield "dsb ishst @map"
        yield f"unlock {guest.lock} @map"

    def leaf_of(self, guest):
        """A table of level 3 and the number of a leaf there; None where the guest has none."""
        found = [(last, number) for middle in guest.root.held.values() for last in middle.held.values()
                 if isinstance(last, Table) for number in last.held]
        return self.chance.choice(found) if found else None

    def unmap_page(self, pe, guest):
        yield f"lock {guest.lock} @unmap"
        found = self.leaf_of(guest)
        if found:
            if self.slips("lock dropped early"):
                yield from self.unmap_unlocked(pe, guest, *found)
                return
            held = yield from self.take_out(pe, guest, *found)
            guest.unmapped = found
            if self.chance.random() < 0.3:
                self.handed.append(held & 0xfffffffff000)
        yield f"unlock {guest.lock} @unmap"

    def unmap_unlocked(self, pe, guest, table, number):
        """The lock is given back too early, and the flush comes late."""
        yield f"w {table.place(number):#x} 0x0 @break"
        del table.held[number]
        yield f"unlock {guest.lock} @unmap"
        guest.unmapped = table, number
        yield from [PAUSE] * WINDOW
        yield from self.flush(pe, guest, table, number)

    def hand_over(self, pe, guest):
        """A guest's page is taken from it, and is the next table."""
        yield f"lock {guest.lock} @donate"
        found = self.leaf_of(guest)
        if found:
            table, number = found
            output = table.held.pop(number) & 0xfffffffff000
            yield f"w {table.place(number):#x} 0x0 @donate"
            if not self.slips("page handed over unflushed"):
                yield from self.flush(pe, guest, table, number)
            yield f"init {output:#x} @donate"
            middle = self.chance.choice(list(guest.root.held.values()))
            free = [other for other in range(5, 512) if other not in middle.held]
            middle.held[free[0]] = Table(output, 3, middle.address(free[0]))
            yield f"w {middle.place(free[0]):#x} {output | TABLE:#x} @donate"
            yield "dsb ishst @donate"
        yield f"unlock {guest.lock} @donate"

    def move_page(self, pe, guest):
        """Another page in the place of one: break, flush, make."""
        yield f"lock {guest.lock} @move"
        found = self.leaf_of(guest)
        if found:
            table, number = found
            yield from self.take_out(pe, guest, table, number)
            table.held[number] = self.output() | PAGE_LEAF
            yield from self.make(guest, table.place(number), table.held[number])
        else:
            yield f"unlock {guest.lock} @move"

    def make(self, guest, place, value):
        """The new value, and the lock given back."""
        steps = [f"w {place:#x} {value:#x} @make", "dsb ishst @make", f"unlock {guest.lock} @make"]
        yield from (steps[2], *steps[:2]) if self.slips("make behind the unlock") else steps

    def map_block(self, pe, guest):
        yield f"lock {guest.lock} @map_block"
        table = yield from self.child(guest.root, self.chance.randrange(3))
        free = [number for number in range(5) if number not in table.held]
        if free:
            number = self.chance.choice(free)
            table.held[number] = self.block() | BLOCK_LEAF
            yield f"w {table.place(number):#x} {table.held[number]:#x} @map_block"
            yield "dsb ishst @map_block"
        yield f"unlock {guest.lock} @map_block"

    def inner(self, guest, kind):
        """A table of level 2 and the number of a place there that holds a table, or a block."""
        found = [(middle, number) for middle in guest.root.held.values() for number, held in middle.held.items()
                 if isinstance(held, kind)]
        return self.chance.choice(found) if found else None

    def split_block(self, pe, guest):
        yield f"lock {guest.lock} @split"
        found = self.inner(guest, int)
        if not found:
            yield f"unlock {guest.lock} @split"
            return
        table, number = found
        block = table.held[number] & 0xfffffffff000
        below = yield from self.new_table(3, table.address(number))
        for inside in self.chance.sample(range(6), 3):
            below.held[inside] = block + 4096 * inside | PAGE_LEAF
            yield f"w {below.place(inside):#x} {below.held[inside]:#x} @fill"
        if not self.slips("no break"):
            yield from self.take_out(pe, guest, table, number)
        table.held[number] = below
        yield from self.make(guest, table.place(number), below.page | TABLE)

    def join_block(self, pe, guest):
        yield f"lock {guest.lock} @join"
        found = self.inner(guest, Table)
        if not found:
            yield f"unlock {guest.lock} @join"
            return
        table, number = found
        freed = yield from self.take_out(pe, guest, table, number, True)
        table.held[number] = self.block() | BLOCK_LEAF
        yield from self.make(guest, table.place(number), table.held[number])
        self.free.append(freed.page)

    # ---- what a PE does for itself

    def enter(self, pe, guest):
        """The guest runs on this PE for a while."""
        yield f"lock {guest.lock} @vcpu_load"
        is_new = not guest.is_dying
        if is_new:
            yield f"msr vttbr_el2 {guest.register:#x} @vcpu_load"
            yield "isb @vcpu_load"
            self.loaded[pe] = guest
        yield f"unlock {guest.lock} @vcpu_load"

    def map_private(self, pe):
        """A block of the hypervisor itself, or another one in the place of one."""
        yield f"lock {EL2_LOCK} @hyp_map"
        number = self.chance.randrange(1, 6)
        place = self.el2.place(number)
        if number in self.el2.held:
            yield f"w {place:#x} 0x0 @hyp_unmap"
            yield "dsb ishst @hyp_unmap"
            suffix = "" if self.slips("local TLBI at EL2") else "is"
            yield f"tlbi vae2{suffix} {self.el2.address(number) >> 12:#x} @hyp_unmap"
            yield "dsb ish @hyp_unmap"
        self.el2.held[number] = value = self.chance.randrange(1, 64) << 30 | 0x701
        yield f"w {place:#x} {value:#x} @hyp_map"
        yield "dsb ishst @hyp_map"
        yield f"unlock {EL2_LOCK} @hyp_map"

    # ---- guests that come and go

    def create(self, pe, vmid):
        if vmid in self.stale and not self.slips("VMID not flushed"):
            yield "tlbi alle1is @create"
            yield "dsb ish @create"
            self.stale.clear()
        root = yield from self.new_table(1, 0)
        yield f"root s2 {vmid} {root.page:#x} @create"
        self.guests[vmid] = Guest(vmid, root)

    def leave(self, pe):
        """A PE leaves a guest that dies."""
        yield "msr vttbr_el2 0x0 @vcpu_put"
        yield "isb @vcpu_put"
        self.loaded[pe] = None

    def destroy(self, pe, guest):
        yield f"lock {guest.lock} @destroy"
        yield f"unroot {guest.root.page:#x} @destroy"
        yield f"unlock {guest.lock} @destroy"
        del self.guests[guest.vmid]
        self.stale.add(guest.vmid)
        self.free += [guest.root.page, *(middle.page for middle in guest.root.held.values())]

    # ---- the turns

    FOR_A_GUEST = [map_page, map_page, map_page, unmap_page, move_page, map_block, split_block, join_block, hand_over,
                   enter]

    def task(self, pe):
        """What a PE does next."""
        if self.loaded[pe] and self.loaded[pe].is_dying:
            return self.leave(pe)
        living = [guest for guest in self.guests.values() if not guest.is_dying]
        if len(self.guests) < VMIDS and pe == 0:
            return self.create(pe, next(vmid for vmid in range(1, VMIDS + 1) if vmid not in self.guests))
        for guest in self.guests.values() if pe == 0 else ():
            if guest.is_dying and guest not in self.loaded.values() and not guest.users:
                return self.destroy(pe, guest)
        if pe == 0 and len(living) > 1 and self.chance.random() < 0.1:
            self.chance.choice(living).is_dying = True
        if not living or self.chance.random() < 0.15:
            return self.map_private(pe)
        return self.used(pe, self.chance.choice(living), self.chance.choice(self.FOR_A_GUEST))

    def used(self, pe, guest, task):
        """A task for a guest, which isn't destroyed before its end."""
        guest.users += 1
        yield from task(self, pe, guest)
        guest.users -= 1

    def say(self, pe, event):
        word, rest = event.split(" ", 1)
        self.lines.append(f"{word} {pe} {rest}")
        if word == "lock":
            self.holders[int(rest.split()[0])] = pe
        elif word == "unlock":
            del self.holders[int(rest.split()[0])]

    def boot(self):
        self.say(0, f"init {self.el2.page:#x} @boot")
        self.say(0, f"root el2 {EL2_LOCK} {self.el2.page:#x} @boot")
        for pe in range(PES):
            self.say(pe, f"msr ttbr0_el2 {self.el2.page:#x} @boot")
            self.say(pe, "isb @boot")
            self.say(pe, "msr vttbr_el2 0x0 @boot")
            self.say(pe, "isb @boot")

    def run(self, events):
        """The PEs by turns, each at its next event, until there are so many lines and nothing is under way."""
        self.boot()
        running, waiting = {}, {}
        while len(self.lines) < events or running:
            pe = self.chance.randrange(PES)
            if pe not in running and len(self.lines) < events:
                running[pe] = self.task(pe)
            if pe in running:
                self.step(pe, running, waiting)
        return self.lines

    def step(self, pe, running, waiting):
        """The next event of a PE, unless it waits for a lock."""
        event = waiting.pop(pe) if pe in waiting else next(running[pe], None)
        if event is None:
            del running[pe]
        elif event.startswith("lock ") and int(event.split()[1]) in self.holders:
            waiting[pe] = event
        elif event != PAUSE:
            self.say(pe, event)


def story(seed, bug=None, events=None):
    """The lines of a log, its header first."""
    chance = random.Random(f"{bug} {seed}")
    events = events or chance.choice([200, 400, 800, 1600, 3200])
    machine = Hypervisor(chance, bug, chance.randrange(1, 8))
    return [text_of(HEADER), *machine.run(events)]


def log_of(lines):
    return "\n".join([*lines, f"end {len(lines) - 1}", ""]).encode()
