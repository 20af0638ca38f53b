# SPDX-License-Identifier: Apache-2.0
"""The logs that `growth` times: made so that the time an event may grow with the log. HOSTILE has each by name, with the
length that it is meant for; a log is made for a number that scales what may grow. `bbm check` accepts each.
"""
import os
import subprocess
import tempfile
from collections import namedtuple
from itertools import chain

from logs import MOST_PAGES, new_page, new_root, page_at, write

# A log: its header, and its events; and what makes one, with the number that it is meant for.
Log = namedtuple("Log", "header events")
Hostile = namedtuple("Hostile", "make number")
HOSTILE = {}

HYP, KERNEL = b"bbmlog 1 hyp 2 1 1 1", b"bbmlog 1 kernel 2 1 1 ttbr0"
HYP_128, KERNEL_128 = b"bbmlog 3 hyp 128 1 1 1 -", b"bbmlog 3 kernel 128 1 1 ttbr0 -"
TABLE, BLOCK, LEAF, USER_BLOCK, USER_LEAF = 0x3, 0x701, 0x703, 0xF41, 0xF43
DSB, FLUSH = b"dsb 0 ish\n", b"tlbi 0 alle2is\n"


def hostile(number):
    """Has the function below stand in HOSTILE, for this number."""
    def keep(make):
        HOSTILE[make.__name__] = Hostile(make, number)
        return make
    return keep


def roots(count, kind, first=0):
    """So many roots of one page each, from this page on."""
    return chain.from_iterable(new_root(page_at(first + i), kind) for i in range(count))


def load(register, number, page):
    """PE 0 gives a root register this VMID or ASID and page, and reads no older value from then on."""
    yield b"msr 0 %s 0x%x\n" % (register, number << 48 | page)
    yield b"isb 0\n"


def clear(places):
    """The places are cleared, and the clears published."""
    yield from (write(place, 0) for place in places)
    yield DSB


def tables(count, root=0):
    """The events that make a tree of EL2 with so many pages of level 3, and those pages."""
    events, pages, number = new_root(page_at(root)), [], root + 1
    for i in range(count):
        if i % 512 == 0:
            middle, number = page_at(number), number + 1
            events += [new_page(middle), write(page_at(root) + 8 * (i // 512), middle | TABLE)]
        events += [new_page(page_at(number)), write(middle + 8 * (i % 512), page_at(number) | TABLE)]
        pages.append(page_at(number))
        number += 1
    return events, pages


def leaves(count):
    """The events that make a tree of EL2 with so many leaves of level 3, and their places."""
    events, pages = tables(-(-count // 512))
    places = [pages[i // 512] + 8 * (i % 512) for i in range(count)]
    return events + [write(place, i << 12 | LEAF) for i, place in enumerate(places)], places


def broken(count):
    """The events that make so many broken places of level 3 in a tree of EL2, with their clears published."""
    events, places = leaves(count)
    return chain(events, clear(places))


# ---- tags that roots hold

@hostile(8000)
def tags_one_root(n):
    """A root of stage 2 that holds n VMIDs, with one broken place, and n TLBIs of one page."""
    def events():
        yield from roots(1, b"s2")
        yield write(page_at(0), BLOCK)
        for vmid in range(n):
            yield from load(b"vttbr_el2", vmid, page_at(0))
        yield from clear([page_at(0)])
        yield from (b"tlbi 0 ipas2e1is 0x%x\n" % page for page in range(n))
    return Log(HYP, events())


@hostile(16000)
def all_tags_flushed(n):
    """A root of stage 2 that holds n VMIDs, and four TLBIs of all of EL1 before one DSB."""
    def events():
        yield from roots(1, b"s2")
        for vmid in range(n):
            yield from load(b"vttbr_el2", vmid, page_at(0))
        yield from [b"tlbi 1 alle1is\n"] * 4
        yield b"dsb 1 ish\n"
    return Log(HYP, events())


@hostile(1024)
def roots_asids(n):
    """1,024 roots of EL1, each with an ASID and a broken place, and n TLBIs of one ASID and page."""
    def events():
        count = min(1024, n)
        yield from roots(count, b"ttbr0")
        yield from (write(page_at(i), USER_BLOCK) for i in range(count))
        for i in range(count):
            yield from load(b"ttbr0_el1", i + 1, page_at(i))
        yield from clear(page_at(i) for i in range(count))
        yield from (b"tlbi 0 vae1is 0x%x\n" % ((i % count + 1) << 48) for i in range(n))
    return Log(KERNEL, events())


@hostile(8000)
def asid_pendings(n):
    """1,024 ASIDs held, and n TLBIs of one ASID by 128 PEs that no DSB answers."""
    def events():
        yield from roots(1024, b"ttbr0")
        for i in range(1024):
            yield from load(b"ttbr0_el1", i + 1, page_at(i))
        yield from (b"tlbi %d aside1is 0x%x\n" % (i // 1024 % 128, (i % 1024 + 1) << 48) for i in range(n))
    return Log(KERNEL_128, events())


@hostile(1000)
def retires(n):
    """A root of stage 2 that holds 16,384 VMIDs, and n roots beside it that come and go."""
    def events():
        yield from roots(1, b"s2")
        for vmid in range(16384):
            yield from load(b"vttbr_el2", vmid, page_at(0))
        for _ in range(n):
            yield from new_root(page_at(1), b"s2")
            yield b"unroot 0 0x%x\n" % page_at(1)
    return Log(HYP, events())


# ---- broken places

@hostile(4000)
def range_over_broken(n):
    """n broken places, and n TLBIs of a range that has none of them."""
    ranges = (b"tlbi 0 rvae2is 0x%x\n" % (1 << 46 | (1 << 30) + 512 * (i % 1000)) for i in range(n))
    return Log(b"bbmlog 4 hyp 2 1 1 1 -", chain(broken(n), ranges))


@hostile(40000)
def whole_per_break(n):
    """n broken places, and one TLBI of all of EL2 for each 64 of them."""
    return Log(HYP, chain(broken(n), [FLUSH] * (n // 64)))


@hostile(20000)
def asid_per_place(n):
    """A root of EL1 with one ASID and n broken places, and one TLBI of the ASID for each 64 of them."""
    def events():
        yield from roots(1, b"ttbr0")
        yield from (new_page(page_at(1)), write(page_at(0), page_at(1) | TABLE))
        for i in range(-(-n // 512)):
            yield from (new_page(page_at(2 + i)), write(page_at(1) + 8 * i, page_at(2 + i) | TABLE))
        places = [page_at(2 + i // 512) + 8 * (i % 512) for i in range(n)]
        yield from (write(place, i << 12 | USER_LEAF) for i, place in enumerate(places))
        yield from load(b"ttbr0_el1", 1, page_at(0))
        yield from clear(places)
        yield from [b"tlbi 0 aside1is 0x%x\n" % (1 << 48)] * (n // 64)
    return Log(KERNEL, events())


@hostile(5000)
def local_dsbs(n):
    """n broken places with a broadcast TLBI, and n DSBs of the PE alone, which don't answer it."""
    return Log(HYP, chain(broken(n), [FLUSH], [b"dsb 0 nsh\n"] * n))


@hostile(5000)
def local_publishes(n):
    """n broken places, and n DSBs that publish their clears to the PE alone."""
    events, places = leaves(n)
    return Log(HYP, chain(events, (write(place, 0) for place in places), [b"dsb 0 nshst\n"] * n))


@hostile(20000)
def dsb_storm(n):
    """n broken places, and n DSBs of 128 PEs in turn."""
    return Log(HYP_128, chain(broken(n), (b"dsb %d ish\n" % (i % 128) for i in range(n))))


@hostile(20000)
def dsb_storm_writers(n):
    """n / 128 places that 128 PEs have cleared, and n DSBs of the PEs alone, in turn."""
    def events():
        made, places = leaves(n // 128 + 1)
        yield from made
        yield from (write(place, 0, pe) for pe in range(128) for place in places)
        yield from (b"dsb %d nsh\n" % (i % 128) for i in range(n))
    return Log(HYP_128, events())


@hostile(20000)
def remarks(n):
    """n / 128 broken places, and four TLBIs of all of EL2 by each of 128 PEs."""
    return Log(HYP_128, chain(broken(n // 128 + 1), (b"tlbi %d alle2is\n" % (i % 128) for i in range(512))))


# ---- pages and tables

@hostile(200)
def unlinks(n):
    """16,000 pages, and n times a page that is linked, unlinked and flushed."""
    def events():
        yield from (new_page(page_at(i)) for i in range(16000))
        yield b"root 0 el2 - 0x%x\n" % page_at(0)
        for _ in range(n):
            yield from linked_and_unlinked(page_at(0), page_at(1))
    return Log(HYP, events())


@hostile(200)
def unlinks_of_tree(n):
    """The same with pages that hang in the tree."""
    def events():
        made, pages = tables(31 * 512)
        spare = pages[-1] + 4096
        yield from made
        yield new_page(spare)
        for _ in range(n):
            yield from linked_and_unlinked(page_at(0) + 8 * 500, spare)
    return Log(HYP, events())


def linked_and_unlinked(place, page):
    """A page is linked at a place, taken away again, flushed and made anew."""
    yield write(place, page | TABLE)
    yield from clear([place])
    yield from (FLUSH, DSB, new_page(page))


@hostile(300)
def unroots(n):
    """16,000 pages, and n times a root that comes and goes."""
    def events():
        yield from (new_page(page_at(i)) for i in range(16000))
        for _ in range(n):
            yield from (b"root 0 el2 - 0x%x\n" % page_at(0), b"unroot 0 0x%x\n" % page_at(0), new_page(page_at(0)))
    return Log(HYP, events())


@hostile(20000)
def inits(n):
    """One page is made n times."""
    return Log(HYP, (new_page(page_at(0)) for _ in range(n)))


@hostile(8000)
def nulls(n):
    """n null pages, of at most 16,384."""
    pages = [page_at(i) for i in range(min(n, MOST_PAGES))]
    return Log(KERNEL, chain.from_iterable((new_page(page), b"null 0 0x%x\n" % page) for page in pages))


@hostile(5000)
def childless(n):
    """A broken table with an empty page below it, and n TLBIs of one page."""
    def events():
        yield from new_root(page_at(0))
        yield from (new_page(page_at(1)), write(page_at(0), page_at(1) | TABLE))
        yield from clear([page_at(0)])
        yield from (b"tlbi 0 vae2is 0x%x\n" % (i % 1000) for i in range(n))
    return Log(HYP, events())


@hostile(2000)
def many_roots_one_page(n):
    """1,000 roots without a broken place, one with 2,000, and n TLBIs of a page that none of them has."""
    pages = (b"tlbi 0 vae2is 0x%x\n" % ((1 << 27) + i % 1000) for i in range(n))
    return Log(HYP, chain(roots(1000, b"el2", first=4000), broken(2000), pages))


@hostile(20)
def deep_links(n):
    """A table with 512 pages below it is linked n times."""
    def events():
        yield from (new_page(page_at(i)) for i in range(515))
        yield b"root 0 el2 - 0x%x\n" % page_at(0)
        for turn in range(n):
            yield new_page(page_at(1))
            if turn:
                yield from (new_page(page_at(2 + i)) for i in range(512))
            yield from (write(page_at(1) + 8 * i, page_at(2 + i) | TABLE) for i in range(512))
            yield write(page_at(0), page_at(1) | TABLE)
            yield from clear([page_at(0)])
            yield from (FLUSH, DSB)
    return Log(HYP, events())


@hostile(4000)
def flood(n):
    """n pages whose hashes collide in a hash table of pages, each written eight times."""
    pages = [int(word, 16) for word in colliding(n)]
    written = (write(page, 0) for _ in range(8) for page in pages)
    return Log(HYP, chain(map(new_page, pages), written))


def colliding(count):
    """So many page addresses, by flood.c, which takes some seconds; it wants the compiler cc."""
    with tempfile.TemporaryDirectory() as folder:
        program, source = os.path.join(folder, "flood"), os.path.join(os.path.dirname(__file__), "flood.c")
        subprocess.run(["cc", "-O2", "-o", program, source], check=True)
        return subprocess.run([program, str(count)], check=True, stdout=subprocess.PIPE, text=True).stdout.split()
