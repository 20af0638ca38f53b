# SPDX-License-Identifier: Apache-2.0
"""Structured logs: the events of a kernel or a hypervisor that keeps the rules, with slips that break one. `tools/fuzz`
and `tools/try` judge them, and nothing here says what the verdict is.

`structured(chance, events)` makes a log. `chance` is a random.Random, so that a seed gives the same log again.
"""
from collections import namedtuple

Header = namedtuple("Header", "version hyp pes starts pages asids cnp unflushed inorder isolated", defaults=(False, False, False))
Root = namedtuple("Root", "page kind lock start number")
Table = namedtuple("Table", "root level first above")

REGISTERS = {"el2": "ttbr0_el2", "s2": "vttbr_el2", "ttbr0": "ttbr0_el1", "ttbr1": "ttbr1_el1"}
PUBLISHING = ["ish", "ishst", "sy", "st", "osh", "oshst"]
ANSWERING = ["ish", "ish", "sy", "osh"]
OPTIONS = "sy st ld ish ishst ishld osh oshst oshld nsh nshst nshld".split()
# Operations of a world, with an operand where they have one; RANGES from version 4 on.
FLUSHES = {
    True: ["alle2", "alle1", "vmalle1", "vmalls12e1", "vae2 0x40000", "vale2 0x40001", "ipas2e1 0x0", "ipas2le1 0x40000"],
    False: ["vmalle1", "vae1 0x1000000040001", "vale1 0x40000", "vaae1 0xfffff8000000", "vaale1 0x0", "aside1 0x1000000000000"],
}
RANGES = {
    True: ["rvae2 0x718000040000", "rvale2 0x400000000000", "ripas2e1 0x718000040000", "ripas2le1 0x400000000000"],
    False: ["rvae1 0x1718000040000", "rvale1 0x400000000000", "rvaae1 0x718000040000", "rvaale1 0x401000000000"],
}
LABELS = ["@map", "@mm/map.c:88", "@boot-1_a", "@" + "x" * 32]
# Bits of a descriptor that are in no core.
FREE_BITS = [1 << 7, 1 << 10, 1 << 53, 1 << 54, 1 << 55]


def any_header(chance):
    version = chance.choice([1, 2, 3, 4, 5, 5])
    start = chance.choice([0, 1, 1, 2])
    pes = chance.choice([1, 2, 2, 2, 3, 4, 64, 128 if version > 2 else 64])
    return Header(version, chance.random() < 0.5, pes, (chance.choice([0, 1, 1, 2]), start),
                  1 if start == 0 else chance.choice([1, 1, 2, 4, 16]), chance.choice(["ttbr0", "ttbr1"]),
                  version > 1 and chance.random() < 0.3, *(version > 4 and chance.random() < 0.6 for _ in range(3)))


def text_of(header):
    a, b = header.starts
    rest = f"hyp {header.pes} {a} {b} {header.pages}" if header.hyp else f"kernel {header.pes} {a} {b} {header.asids}"
    return f"bbmlog {header.version} {rest}" + words_of(header)


def words_of(header):
    """What a header says behind its numbers, with the space before it."""
    if header.version < 5:
        return "" if header.version == 1 else " cnp" if header.cnp else " -"
    return " cnp" * header.cnp + " unflushed" * header.unflushed + (" isolated" * header.isolated if header.hyp else " inorder" * header.inorder)


class Story:
    """Events so far, and what they made: roots, linked tables, what places hold, and which root each register names."""

    def __init__(self, chance, header, machine=False):
        self.chance, self.header, self.machine = chance, header, machine
        self.lines, self.roots, self.tables, self.held, self.loaded = [], [], {}, {}, {}
        self.free, self.nulls, self.entries, self.next_page = [], [], 0, 0x40000000

    # ---- lines

    def say(self, line):
        label = self.header.version > 2 and self.chance.random() < 0.3 and not line.startswith("m ")
        self.lines.append(f"{line} {self.chance.choice(LABELS)}" if label else line)

    def pe(self):
        return self.chance.randrange(self.header.pes if self.chance.random() < 0.1 else min(self.header.pes, 4))

    def page(self, joined=1):
        """A page that was in no tree, or one that left its tree; `joined` pages are new, and aligned."""
        if joined == 1 and self.free and self.chance.random() < 0.5:
            return self.free.pop()
        page = -(-self.next_page // (joined * 4096)) * joined * 4096
        self.next_page = page + joined * 4096
        return page

    def fresh_page(self):
        page = self.page()
        self.say(f"init {self.pe()} {page:#x}")
        return page

    # ---- values

    def leaf(self, kind, level, salt=None):
        """A leaf that keeps the rules at the kind and the level, or an invalid value where there is none."""
        if level == 0:
            return 0
        # (the tables are in the first GiB behind the null one)
        least = 2 if kind == "s2" and level == 1 and self.header.isolated else 1
        number = self.chance.randrange(least, 64) if salt is None else salt
        shift = {1: 30, 2: 21, 3: 12}[level]
        user = 0x800 if kind == "ttbr0" or self.chance.random() < 0.3 else 0
        return (number << shift) | 0x700 | user | (3 if level == 3 else 1)

    def invalid(self):
        return self.chance.choice([0, 0, 0, 2, 0x80000000, 0x40001002])

    def place(self, page):
        return page + 8 * self.chance.choice([0, 1, 2, 3, 511])

    # ---- roots and registers

    def kinds(self):
        return ["el2", "s2"] if self.header.hyp else ["ttbr0", "ttbr1"]

    def start_of(self, kind):
        return self.header.starts[kind in ("s2", "ttbr1")]

    def new_root(self, kind=None, lock=None, page=None):
        """A root on pages that are new, or on that page and those behind it."""
        kind = kind or self.chance.choice(self.kinds())
        lock = self.chance.choice([None, None, 1, 2]) if lock is None else lock
        joined = self.header.pages if kind == "s2" else 1
        page, start, pe = self.page(joined) if page is None else page, self.start_of(kind), self.pe()
        for number in range(joined):
            self.say(f"init {pe} {page + 4096 * number:#x}")
        if start and self.chance.random() < 0.3:
            self.store(pe, self.place(page), self.leaf(kind, start))
        root = Root(page, kind, lock, start, self.chance.randrange(1, 5))
        self.say(f"root {pe} {kind} {'-' if lock is None else lock} {page:#x}")
        self.roots.append(root)
        span = 1 << 9 * (4 - start)
        first = (1 << 44) - span if kind == "ttbr1" else 0
        for number in range(joined):
            self.tables[page + 4096 * number] = Table(root, start, first + number * span, None)
        return root

    def root(self, kind=None):
        found = [root for root in self.roots if kind in (None, root.kind)]
        return self.chance.choice(found) if found else self.new_root(kind)

    def load(self, root=None, pe=None, synchronise=True):
        """A register names a root, which under a tag of its own keeps the rules while no other had that."""
        root, pe = root or self.root(), self.pe() if pe is None else pe
        tagged = root.kind == "s2" or root.kind == self.header.asids
        value = root.page | (root.number << 48 if tagged else 0) | (self.header.cnp and self.chance.random() < 0.5)
        self.say(f"msr {pe} {REGISTERS[root.kind]} {value:#x}")
        if synchronise:
            self.say(f"isb {pe}")
        self.loaded[pe, root.kind] = root

    def switch(self):
        """Another process: TTBR0_EL1 names none, TTBR1_EL1 has the new ASID, TTBR0_EL1 the new root, and then comes one ISB."""
        if self.header.hyp or self.header.asids == "ttbr0":
            return self.load()
        pe, root, upper = self.pe(), self.root("ttbr0"), self.loaded.get((self.chance.randrange(2), "ttbr1"))
        none = self.null_page() if self.chance.random() < 0.5 else 0
        writes = [("ttbr0", none), ("ttbr1", (upper.page if upper else 0) | root.number << 48), ("ttbr0", root.page)]
        for kind, value in writes[self.chance.random() < 0.1:]:
            self.say(f"msr {pe} {REGISTERS[kind]} {value:#x}")
        self.loaded[pe, "ttbr0"] = root
        if upper:
            self.loaded[pe, "ttbr1"] = upper
        else:
            self.loaded.pop((pe, "ttbr1"), None)
        if self.chance.random() < 0.9:
            self.say(f"isb {pe}")
        return None

    def null_page(self):
        """A page that stays empty."""
        if not self.nulls or self.chance.random() < 0.3:
            self.nulls.append(self.fresh_page())
            self.say(f"null {self.pe()} {self.nulls[-1]:#x}")
        return self.chance.choice(self.nulls)

    def name_none(self, pe, kind, number=None):
        """A register names a null page, beside this VMID or ASID, or any."""
        number = self.chance.randrange(6) if number is None else number
        value = self.null_page() | number << 48 | (self.header.cnp and self.chance.random() < 0.5)
        self.say(f"msr {pe} {REGISTERS[kind]} {value:#x}")
        self.say(f"isb {pe}")
        self.loaded.pop((pe, kind), None)

    def unload(self, root):
        """Each register that names the root is given 0, or from version 5 on a null page."""
        for (pe, kind), loaded in list(self.loaded.items()):
            if loaded == root and self.header.version > 4 and self.chance.random() < 0.3:
                self.name_none(pe, kind, self.chance.choice([root.number, None]))
            elif loaded == root:
                self.say(f"msr {pe} {REGISTERS[kind]} 0x0")
                self.say(f"isb {pe}")
                del self.loaded[pe, kind]

    # ---- writes

    def store(self, pe, place, value):
        self.say(f"w {pe} {place:#x} {value:#x}")
        self.step_of_a_write(place, value)

    def step_of_a_write(self, place, value):
        table = self.tables.get(place & ~0xfff)
        if not self.machine or table is None or not value & 1 or self.chance.random() < 0.3:
            return
        root = table.root
        for pe in [pe for (pe, kind), loaded in self.loaded.items() if loaded == root]:
            tag = 0 if root.kind == "el2" else root.number
            if table.level == root.start:
                self.say(f"m start {pe} {root.kind} {tag} {place:#x} {value:#x}")
            else:
                self.say(f"m extend {max(1, self.entries)} {place:#x} {value:#x}")
            self.entries += 1
        if root.kind == "s2" and self.entries and self.chance.random() < 0.5:
            self.say(f"m combine {self.entries}")
            self.entries += 1

    def drop_entries(self):
        if self.machine and self.entries and self.chance.random() < 0.8:
            for entry in range(max(1, self.entries - 4), self.entries + 1):
                self.say(f"m drop {entry}")
        elif self.machine and self.entries and self.chance.random() < 0.3:
            self.say(f"m share {self.entries} {self.pe()}")
            self.entries += 1

    def under_lock(self, root, pe, write):
        if root.lock is not None:
            self.say(f"lock {pe} {root.lock}")
        write(pe)
        if root.lock is not None:
            self.say(f"unlock {pe} {root.lock}")

    def table(self, least=0, most=3):
        """A linked table of such a level, and its page."""
        found = [page for page, table in self.tables.items() if least <= table.level <= most]
        if not found:
            return None, None
        page = self.chance.choice(found)
        return page, self.tables[page]

    # ---- what keeps the rules

    def map_a_leaf(self):
        page, table = self.table(1)
        if page is None:
            return
        place = self.place(page)
        if place in self.held:
            value = self.held[place] ^ self.chance.choice(FREE_BITS)
        else:
            value = self.leaf(table.root.kind, table.level)
        self.under_lock(table.root, self.pe(), lambda pe: self.store(pe, place, value))
        self.held[place] = value

    def link_a_table(self):
        page, table = self.table(0, 2)
        if page is None:
            return
        place = self.place(page)
        if place in self.held:
            return
        child = self.fresh_page()
        if table.level < 2 or self.chance.random() < 0.5:
            inner = self.place(child)
            value = self.leaf(table.root.kind, table.level + 1)
            self.store(self.pe(), inner, value)
            self.held[inner] = value
        self.under_lock(table.root, self.pe(), lambda pe: self.store(pe, place, child | 3))
        self.held[place] = child | 3
        first = table.first + ((place & 0xfff) >> 3 << 9 * (3 - table.level))
        self.tables[child] = Table(table.root, table.level + 1, first, place)

    def flushes(self, table, place, is_table):
        """The ways to flush a place at every PE: operations, with the operand where they have one."""
        kind, root, level = table.root.kind, table.root, table.level
        page = table.first + ((place & 0xfff) >> 3 << 9 * (3 - level))
        asid = root.number << 48 if kind == self.header.asids else 0
        hint = (4 | level) << 44 if level and not is_table and self.chance.random() < 0.3 else 0
        last = "" if is_table else self.chance.choice(["", "l"])
        ways = {
            "el2": [["alle2"], [f"va{last}e2 {page | hint:#x}"]],
            "s2": [["alle1"], ["vmalls12e1"], [f"ipas2{last}e1 {page | hint:#x}", "vmalle1"]],
            "ttbr0": [["vmalle1"], [f"vaa{last}e1 {page | hint:#x}"], [f"va{last}e1 {page | hint | asid:#x}"],
                      [f"aside1 {root.number << 48:#x}"]],
            "ttbr1": [["vmalle1"], [f"vaa{last}e1 {page | hint:#x}"]],
        }[kind]
        if self.header.version > 3:
            # NUM 1 and SCALE 0 are four pages; 3 and 3 the most that a leaf of level 1 has.
            size = self.chance.choice([1 << 39, 3 << 44 | 31 << 39])
            field = (page & 0x1fffffffff) | 1 << 46 | size
            name = {"el2": f"rva{last}e2", "s2": f"ripas2{last}e1"}.get(kind, f"rvaa{last}e1")
            ways.append([f"{name} {field:#x}"] + (["vmalle1"] if kind == "s2" else []))
        if is_table:
            ways = [way for way in ways if " " not in way[0] or way[0].startswith("aside1")]
        return self.chance.choice(ways)

    def flush(self, pe, way, everywhere=True):
        """A flush at every PE: by one broadcast, or by each PE for itself."""
        local = everywhere and not self.header.cnp and self.header.pes <= 4 and self.chance.random() < 0.2
        for step in way:
            operation, _, operand = step.partition(" ")
            for issuer in range(self.header.pes) if local else [pe]:
                suffix = "" if local else "is"
                self.say(f"tlbi {issuer} {operation}{suffix} {operand}".rstrip())
                self.drop_entries()
                self.say(f"dsb {issuer} {'nsh' if local else self.chance.choice(ANSWERING)}")

    def held_place(self):
        found = [place for place in self.held if place & ~0xfff in self.tables]
        return self.chance.choice(found) if found else None

    def forget_below(self, page):
        for place in [place for place in self.held if place & ~0xfff == page]:
            value = self.held.pop(place, 0)  # none where the page was met below itself
            below = value & 0xfffffffff000
            if below in self.tables and self.tables[below].above == place:
                self.forget_below(below)
        self.tables.pop(page, None)
        self.free.append(page)

    def replace(self):
        """Break-before-make of a place that holds a leaf or a table."""
        place = self.held_place()
        if place is None:
            return
        table = self.tables[place & ~0xfff]
        below = self.held[place] & 0xfffffffff000
        is_table = below in self.tables and self.tables[below].above == place
        value = self.leaf(table.root.kind, table.level)

        def write(pe):
            self.store(pe, place, self.invalid())
            self.say(f"dsb {pe} {self.chance.choice(PUBLISHING)}")
            self.flush(pe, self.flushes(table, place, is_table))
            self.store(pe, place, value)

        self.under_lock(table.root, self.pe(), write)
        if is_table:
            self.forget_below(below)
        self.held[place] = value
        if not value:
            del self.held[place]

    def several(self):
        """Some places are broken under one flush, and some made again."""
        page, table = self.table(1)
        if page is None:
            return
        places = [place for place, value in self.held.items()
                  if place & ~0xfff == page and value & 0xfffffffff000 not in self.tables]

        def write(pe):
            for place in places:
                self.store(pe, place, 0)
            self.say(f"dsb {pe} ishst")
            self.flush(pe, [self.whole(table.root.kind)])
            for place in places:
                self.held[place] = self.leaf(table.root.kind, table.level)
                self.store(pe, place, self.held[place])

        self.under_lock(table.root, self.pe(), write)

    def whole(self, kind):
        return {"el2": "alle2", "s2": "alle1"}.get(kind, "vmalle1")

    def give_up(self):
        root = self.root()
        if len(self.roots) < 2:
            return
        self.unload(root)
        if not self.header.unflushed or self.chance.random() < 0.2:
            self.flush(self.pe(), [self.whole(root.kind)], False)
        self.under_lock(root, self.pe(), lambda pe: self.say(f"unroot {pe} {root.page:#x}"))
        self.roots.remove(root)
        for page in [page for page, table in self.tables.items() if table.root == root]:
            self.forget_below(page)
        if self.header.unflushed and self.chance.random() < 0.7:
            self.come_after(root)

    def come_after(self, old):
        """A root that was given up, and perhaps unflushed, is declared anew, or another one gets its VMID or ASID."""
        page = old.page if self.chance.random() < 0.6 else None
        joined = self.header.pages if old.kind == "s2" else 1
        if page is not None:
            self.free = [one for one in self.free if not page <= one < page + 4096 * joined]
        if self.chance.random() < 0.7:
            self.flush_left(old)
        new = self.new_root(old.kind, page=page)
        number = old.number if self.chance.random() < 0.7 else new.number
        self.numbered(new, number)
        if self.chance.random() < 0.2:
            self.flush_left(old)
        self.load(self.roots[-1])

    def flush_left(self, old):
        """A flush of all that is kept under the tag of a root that was given up: at every PE, by each for itself, or at one."""
        pe = self.pe()
        ways = {"el2": ["alle2"], "s2": ["alle1", "vmalls12e1"], "ttbr1": ["vmalle1"],
                "ttbr0": ["vmalle1", f"aside1 {old.number << 48:#x}"]}[old.kind]
        way = self.chance.choice(ways + ["vmalle1"] * (self.header.hyp and self.chance.random() < 0.1))
        if way == "vmalls12e1":
            self.name_none(pe, "s2", old.number)
        self.flush(pe, [way], way != "vmalls12e1")

    def numbered(self, root, number):
        """The root that was declared last has this VMID or ASID."""
        self.roots[-1] = root._replace(number=number)
        for page in [page for page, table in self.tables.items() if table.root == root]:
            self.tables[page] = self.tables[page]._replace(root=self.roots[-1])

    def guest_place(self):
        """A place of level 3 of a stage 2 tree that holds nothing, and its root."""
        root = self.root("s2")
        page = root.page
        for level in range(root.start, 3):
            place, child = page + 8 * self.chance.randrange(4, 500), self.fresh_page()
            if place in self.held:
                return None, root
            self.under_lock(root, self.pe(), lambda pe, place=place, child=child: self.store(pe, place, child | 3))
            self.held[place], page = child | 3, child
            first = self.tables[place & ~0xfff].first + ((place & 0xfff) >> 3 << 9 * (3 - level))
            self.tables[child] = Table(root, level + 1, first, place)
        return self.place(page), root

    def lend(self, left_out=None):
        """A page is mapped to a guest, unmapped and flushed, and may become a table then; a step may be left out. The page, if any."""
        place, root = self.guest_place() if self.header.hyp else (None, None)
        if place is None:
            return None
        page = self.page()

        def write(pe):
            self.store(pe, place, page | 0x7ff)
            steps = [lambda: self.store(pe, place, self.invalid()), lambda: self.say(f"dsb {pe} {self.chance.choice(PUBLISHING)}"),
                     lambda: self.flush(pe, self.flushes(self.tables[place & ~0xfff], place, False))]
            for number, step in enumerate(steps):
                if number != left_out:
                    step()

        self.under_lock(root, self.pe(), write)
        return page

    def come_back(self):
        """A guest's page that is flushed and may be a table."""
        page = self.lend() if self.header.isolated else None
        if page is not None:
            self.free.append(page)

    def hand_over(self):
        """A register's root and its tag go to another root."""
        old = self.root()
        self.load(old)
        self.unload(old)
        self.flush(self.pe(), [self.whole(old.kind)], False)
        self.numbered(self.new_root(old.kind), old.number)
        self.load(self.roots[-1])

    def barrier(self):
        option = self.chance.choice(OPTIONS)
        self.say(self.chance.choice([f"dsb {self.pe()} {option}", f"dmb {self.pe()} {option}", f"isb {self.pe()}"]))

    def flush_for_nothing(self):
        ways = FLUSHES[self.header.hyp] + (RANGES[self.header.hyp] if self.header.version > 3 else [])
        operation, _, operand = self.chance.choice(ways).partition(" ")
        self.say(f"tlbi {self.pe()} {operation}{self.chance.choice(['', 'is'])} {operand}".rstrip())

    def reserve(self):
        """An empty page stands for no walk, in TTBR0_EL1, or from version 5 on in any root register."""
        if self.header.version > 4:
            self.name_none(self.pe(), self.chance.choice(self.kinds()))
        elif not self.header.hyp:
            self.name_none(self.pe(), "ttbr0")

    def lock_and_unlock(self):
        pe, lock = self.pe(), self.chance.choice([0, 3, 1023])
        self.say(f"lock {pe} {lock}")
        self.barrier()
        self.say(f"unlock {pe} {lock}")

    GOOD = [map_a_leaf] * 5 + [link_a_table] * 5 + [replace] * 5
    GOOD += [several, load, load, switch, switch, give_up, hand_over, new_root, barrier, flush_for_nothing, reserve, lock_and_unlock, come_back]

    # ---- slips: each is meant to break the rule of its number, where the world has it

    def slip_1(self):
        other = ["ttbr0", "ttbr1"] if self.header.hyp else ["el2", "s2"]
        page = self.fresh_page()
        self.say(self.chance.choice([
            f"root 0 {self.chance.choice(other)} - {page & ~0xffff:#x}",
            f"msr 0 {REGISTERS[self.chance.choice(other)]} {page:#x}",
            "tlbi 0 aside1is 0x1000000000000" if self.header.hyp else "tlbi 0 alle2is",
            f"null 0 {page:#x}", f"msr 0 {REGISTERS[self.kinds()[0]]} {page | 1:#x}"]))

    def slip_2(self):
        root = self.new_root(lock=3)
        self.say(self.chance.choice([f"w {self.pe()} {self.place(root.page):#x} 0x0", f"unroot {self.pe()} {root.page:#x}"]))

    def slip_3(self):
        page = self.fresh_page()
        self.say(f"null 0 {page:#x}")
        self.say(f"w {self.pe()} {self.place(page):#x} 0x{self.chance.choice([0, 1])}")

    def broken_place(self):
        """A place that holds a leaf and was broken, and its table."""
        root = self.root()
        if root.start == 0:
            self.link_a_table()
        page, table = self.table(1)
        if page is None:
            return None, None, 0
        place, pe = self.place(page), self.pe()
        if table.root.lock is not None:
            self.say(f"lock {pe} {table.root.lock}")
        if place not in self.held:
            self.store(pe, place, self.leaf(table.root.kind, table.level))
        self.store(pe, place, self.invalid())
        return place, table, pe

    def slip_4(self):
        place, table, pe = self.broken_place()
        if place is None:
            return
        steps = [f"dsb {pe} ishst"]
        for step in self.flushes(table, place, False):
            operation, _, operand = step.partition(" ")
            steps += [f"tlbi {pe} {operation}is {operand}".rstrip(), f"dsb {pe} ish"]
        del steps[self.chance.randrange(len(steps))]
        for step in steps:
            self.say(step)
        self.store(pe, place, self.leaf(table.root.kind, table.level, 200))

    def slip_5(self):
        self.link_a_table()
        found = [(page, table) for page, table in self.tables.items() if table.above is not None]
        if not found:
            return
        page, table = self.chance.choice(found)

        def write(pe):
            self.store(pe, table.above, self.invalid())
            self.barrier()
            self.store(pe, self.place(page), self.leaf(table.root.kind, table.level) or 3)

        self.under_lock(table.root, self.pe(), write)

    def slip_6(self):
        page, table = self.table(0, 2)
        if page is None or self.chance.random() < 0.3:
            self.say(f"w 0 {self.place(0x7fff0000):#x} 0x0")
            return
        child = self.chance.choice([0x7fff0000, page, table.root.page, self.page()])
        if self.chance.random() < 0.5:
            middle = self.fresh_page()
            self.store(0, middle, child | 3)
            self.store(0, middle + 8, child | 3)
            child = middle
        place = page + 8 * 17
        self.under_lock(table.root, self.pe(), lambda pe: self.store(pe, place, child | 3))

    def slip_7(self):
        page = self.fresh_page()
        self.store(0, page, 0x80000701)
        self.store(self.pe(), page, self.chance.choice([0, 0x80000781, 0xc0000701]))

    def slip_8(self):
        self.flawed(1 << 52)

    def slip_9(self):
        self.flawed(0x800)

    def flawed(self, bit):
        """A leaf with this bit turned, written to a tree or in a page that is attached."""
        page, table = self.table(1) if self.chance.random() < 0.5 else self.table(0, 2)
        if page is None:
            return
        value = self.leaf(table.root.kind, max(1, table.level)) ^ bit
        place = page + 8 * 19
        if table.level < 3 and self.chance.random() < 0.5 or table.level == 0:
            child = self.fresh_page()
            self.store(0, self.place(child), self.leaf(table.root.kind, table.level + 1) ^ bit)
            value = child | 3
        self.under_lock(table.root, self.pe(), lambda pe: self.store(pe, place, value))

    def slip_10(self):
        page, table = self.table()
        page = page or self.root().page
        kind = self.kinds()[0]
        self.say(self.chance.choice([f"init 0 {page:#x}", f"root 0 {kind} - {page:#x}", f"root 0 {kind} - 0x7ffe0000",
                                     f"null 0 {page:#x}"]))

    def slip_11(self):
        page = self.chance.choice([0x7ffd0000, self.fresh_page(), *self.nulls[:1]])
        self.say(self.chance.choice([f"msr 0 {REGISTERS[self.chance.choice(self.kinds())]} {page:#x}", f"unroot 0 {page:#x}",
                                     f"msr 0 {REGISTERS[self.kinds()[1]]} 0x1000000000000"]))

    def slip_12(self):
        kind = self.chance.choice(self.kinds())
        one, two = self.root(kind), self.new_root(kind)
        self.load(one, synchronise=self.chance.random() < 0.5)
        if self.header.unflushed and self.chance.random() < 0.5:
            self.unload(one)
            self.under_lock(one, self.pe(), lambda pe: self.say(f"unroot {pe} {one.page:#x}"))
        self.load(two._replace(number=one.number), synchronise=self.chance.random() < 0.5)

    def slip_13(self):
        root = self.root()
        self.load(root)
        if self.chance.random() < 0.5:
            self.unload(root)
        self.under_lock(root, self.pe(), lambda pe: self.say(f"unroot {pe} {root.page:#x}"))

    def slip_14(self):
        if self.header.hyp:
            root, pe = self.root("s2"), self.pe()
            self.load(root, pe, False)
            operation = self.chance.choice(["vmalle1is", "vmalls12e1", "ipas2e1is 0x40000", "ipas2le1is 0x800000000000"])
            self.say(f"tlbi {pe} {operation}")

    def slip_15(self):
        name = self.chance.choice(["vae2", "ipas2e1"] if self.header.hyp else ["vae1", "vaae1", "vale1"])
        operand = self.chance.choice([0xc00000040000, 0x800000040000, 0xfff8000, 0x1f000000000, 0x7fffffffffff])
        if self.header.version > 3 and self.chance.random() < 0.5:
            name, operand = "r" + name, self.chance.choice([0x40000, 2 << 46, 1 << 46 | 1 << 37 | 3, 1 << 46 | 2 << 37 | 5])
        self.say(f"tlbi {self.pe()} {name}is {operand:#x}")

    def slip_16(self):
        self.say(f"lock {self.pe()} 7")
        self.say(f"lock {self.pe()} 7")

    def slip_17(self):
        if self.header.pes > 1 and self.chance.random() < 0.5:
            self.say("lock 0 9")
            self.say("unlock 1 9")
        else:
            self.say("unlock 0 8")

    def slip_18(self):
        if self.chance.random() < 0.5:
            page = self.lend(self.chance.randrange(3))
            if page is not None:
                self.new_root("el2", page=page)
            return
        page, table = self.table(1)
        if page is not None:
            span = 1 << 39 - 9 * table.level
            value = self.chance.choice([*self.tables]) & -span | 0x700 | (3 if table.level == 3 else 1)
            self.under_lock(table.root, self.pe(), lambda pe: self.store(pe, page + 8 * 21, value))

    def slip_of_values(self):
        """Nine writes of a register by one PE without an ISB."""
        root = self.root()
        for _ in range(9):
            self.load(root, 0, False)

    SLIPS = [slip_1, slip_2, slip_3, slip_4, slip_4, slip_5, slip_6, slip_7, slip_8, slip_9, slip_10, slip_11, slip_12, slip_13,
             slip_14, slip_15, slip_16, slip_17, slip_18, slip_18, slip_of_values]


def spoiled(chance, lines):
    """One line left out, doubled, moved, given to another PE or with another DSB option."""
    lines, at = list(lines), chance.randrange(len(lines))
    way, fields = chance.randrange(5), lines[at].split(" ")
    if way == 0:
        del lines[at]
    elif way == 1:
        lines.insert(at, lines[at])
    elif way == 2 and len(lines) > 1:
        other = chance.randrange(len(lines))
        lines.insert(other, lines.pop(at))
    elif way == 3 and fields[0] != "m":
        fields[1] = "0" if fields[1] != "0" else "1"
        lines[at] = " ".join(fields)
    elif fields[0] == "dsb":
        fields[2] = chance.choice(OPTIONS)
        lines[at] = " ".join(fields)
    return lines


def log_of(header, lines):
    count = sum(not line.startswith("m ") for line in lines)
    return "\n".join([text_of(header), *lines, f"end {count}", ""]).encode()


def structured(chance, events=60, machine=False):
    """A log of at most so many lines between its header and its `end`."""
    header = any_header(chance)
    story = Story(chance, header, machine)
    wanted = chance.randrange(1, events + 1)
    story.new_root()
    slips = chance.random() < 0.6
    while len(story.lines) < wanted:
        chance.choice(Story.GOOD)(story)
        if slips and chance.random() < 0.15:
            chance.choice(Story.SLIPS)(story)
            slips = False
    if slips:
        chance.choice(Story.SLIPS)(story)
    lines = story.lines if len(story.lines) <= events else story.lines[:events]
    for _ in range(chance.choice([0, 0, 1, 2])):
        lines = spoiled(chance, lines) if lines else lines
    return log_of(header, lines[:events])
