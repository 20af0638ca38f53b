# SPDX-License-Identifier: Apache-2.0
"""The logs that `bench.py` times, each by a function of its own: LOGS by name. A log is made for a number of events, and
says which verdict it must have. The long lengths that each is meant for stand at its function.
"""
from collections import namedtuple
from itertools import chain, count as numbers, islice, repeat

# The header; the events, at least as many as are asked for, or without end; the lines that stand last; and the verdict,
# in which {events} and {line} are the number of events and the last event's line.
Log = namedtuple("Log", "header events last verdict", defaults=((), "accepted {events} events"))

BASE, MOST_PAGES = 0x40000000, 16384


def lines(log, count):
    """The lines of a log of so many events."""
    yield log.header + b"\n"
    yield from islice(chain(log.events, repeat(b"dmb 0 ish\n")), count - len(log.last))
    yield from log.last
    yield b"end %d\n" % count


def verdict(log, count):
    return log.verdict.format(events=count, line=count + 1)


def page_at(number):
    return BASE + 4096 * number


def write(place, value, pe=0):
    return b"w %d 0x%x 0x%x\n" % (pe, place, value)


def new_page(page):
    return b"init 0 0x%x\n" % page


def new_root(page, kind=b"el2", lock=b"-"):
    return [new_page(page), b"root 0 %s %s 0x%x\n" % (kind, lock, page)]


# ---- ordinary logs

def moves(count):
    """Blocks of one EL2 root page are moved one after another."""
    def events():
        yield from new_root(BASE)
        for turn in numbers():
            place, value = BASE + 8 * (turn % 512), ((turn // 512 + 1) << 30) % (1 << 47) + 0x701
            yield write(place, value)
            yield write(place, 0)
            yield from (b"dsb 0 ish\n", b"tlbi 0 alle2is\n", b"dsb 0 ish\n")
    return Log(b"bbmlog 1 hyp 2 1 1 1", events())


def plain(count):
    """Barriers without effect, of 13 bytes a line."""
    return Log(b"bbmlog 1 hyp 16 1 1 1", (b"dmb %d ishst\n" % (10 + event % 6) for event in numbers()))


def rounds(count, seed=3):
    """Blocks of an EL2 root and of a stage 2 root in turn are made, broken and flushed, at stage 2 in two steps."""
    def events():
        yield from new_root(BASE) + new_root(page_at(1), b"s2")
        yield from (b"msr 0 ttbr0_el2 0x40000000\n", b"msr 0 vttbr_el2 0x1000040001000\n", b"isb 0\n")
        for turn in numbers():
            second, index, value = turn % 2, (seed + turn) % 512, turn % 512 * 2**30 + 0x701
            pe, place = 0 if second else turn // 2 % 4, page_at(second) + 8 * index
            flush = b"tlbi 0 ipas2e1is 0x%x\n" % (index << 18) if second else b"tlbi %d vae2is 0x%x\n" % (pe, index << 18)
            yield from (write(place, value, pe), b"dsb %d ishst\n" % pe, write(place, 0, pe), b"dsb %d ishst\n" % pe)
            yield from (flush, b"dsb %d ish\n" % pe)
            yield b"tlbi 0 vmalle1is\n" if second else b"isb %d\n" % pe
            yield b"dsb 0 ish\n" if second else b"dmb %d ish\n" % pe
    return Log(b"bbmlog 1 hyp 4 1 1 1", events())


# ---- large trees, of an EL2 root at level 1

def last_pages(pages):
    """A root, the pages of level 2 and so many of level 3, each linked; and, with each page of level 3, its address."""
    yield None, new_root(BASE)
    used = 1
    for number in range(pages):
        if number % 512 == 0:
            middle, used = page_at(used), used + 1
            yield None, [new_page(middle), write(BASE + 8 * (number // 512), middle | 3)]
        page, used = page_at(used), used + 1
        yield page, [new_page(page), write(middle + 8 * (number % 512), page | 3)]


def leaf(number):
    return number % (1 << 24) << 12 | 0x703


MOST_LAST_PAGES = MOST_PAGES - 1 - 32


def pages_in_order(count):
    """16,384 pages are made, linked and filled one after another. At 8,405,000 events all are full of live places."""
    def events():
        for page, made in last_pages(MOST_LAST_PAGES):
            yield from made
            if page is not None:
                yield from (write(page + 8 * index, leaf(page // 4096 + index)) for index in range(512))
        yield from (write(BASE + 8 * index, index << 30 | 0x701) for index in range(32, 512))
    return Log(b"bbmlog 1 hyp 2 1 1 1", events())


def pages_in_random_order(count):
    """The same, but all pages are linked first, and then the places of level 3 are written in mixed order. At 8,421,000
    events there are 16,384 pages."""
    pages = min(MOST_LAST_PAGES, max(1, (count - 4) // 515))

    def events():
        last = []
        for page, made in last_pages(pages):
            yield from made
            last += [page] if page is not None else []
        for number in range(512 * pages):
            # A prime above their number, so each place comes once.
            page, index = divmod(number * 2654435761 % (512 * pages), 512)
            yield write(last[page] + 8 * index, leaf(number))
    return Log(b"bbmlog 1 hyp 2 1 1 1", events())


def stage_2_in_order(words=b""):
    def log(count):
        def events():
            yield from new_root(BASE, b"s2")
            used, output = 1, numbers(1 << 31, 4096)
            for number in range(MOST_LAST_PAGES):
                if number % 512 == 0:
                    middle, used = page_at(used), used + 1
                    yield from (new_page(middle), write(BASE + 8 * (number // 512), middle | 3))
                page, used = page_at(used), used + 1
                yield from (new_page(page), write(middle + 8 * (number % 512), page | 3))
                yield from (write(page + 8 * index, next(output) | 0x7ff) for index in range(512))
        return Log(b"bbmlog 5 hyp 2 1 1 1" + words, events())
    log.__doc__ = "16,384 pages of a stage 2 tree are made, linked and filled one after another. At 8,402,942 events all are full."
    return log


def places_for(count, uses):
    """How many places of level 3 so many events can make and then use so often, and the pages for them."""
    pages = max(1, -(-count // (512 * (1 + uses) + 3)))
    return min(512 * pages, (count - 10 - 3 * pages) // (1 + uses)), pages


def with_places(places, pages):
    """The events that make a tree with so many live places, and the places."""
    found = []
    def events():
        for page, made in last_pages(pages):
            yield from made
            if page is not None:
                found.extend(page + 8 * index for index in range(min(512, places - len(found))))
        yield from (write(place, leaf(number)) for number, place in enumerate(found))
    return events(), found


def broken_at_once(count):
    """All places are broken, flushed at once, and made again. At 3,006,000 events they are a million."""
    places, pages = places_for(count, 2)

    def events():
        first, found = with_places(places, pages)
        yield from first
        yield from (write(place, 0) for place in found)
        yield from (b"dsb 0 ishst\n", b"tlbi 0 alle2is\n", b"dsb 0 ish\n")
        yield from (write(place, leaf(number + 1)) for number, place in enumerate(found))
    return Log(b"bbmlog 1 hyp 2 1 1 1", events())


def cleared_one_by_one(most):
    def log(count):
        places = min(most, max(1, (count - 20) // 4))

        def events():
            first, found = with_places(places, -(-places // 512))
            yield from first
            for turn in numbers(1):
                yield from (write(place, 0) for place in found)
                yield b"dsb 0 ishst\n"
                yield from (b"tlbi 0 vae2is 0x%x\n" % number for number in range(places))
                yield b"dsb 0 ish\n"
                yield from (write(place, leaf(number + turn)) for number, place in enumerate(found))
        return Log(b"bbmlog 1 hyp 2 1 1 1", events())
    log.__doc__ = f"Again and again: {most} places are cleared, each is flushed by a TLBI of its page, and they are made again."
    return log


# ---- several users

def guests(count):
    """Four guests on a PE each, whose turns cross: one block is moved under the guest's lock, in two steps."""
    def turn(guest, number):
        page = page_at(guest)
        place = page + 8 * (number % 512)
        return (b"lock %d %d @vm:lock\n" % (guest, guest),
                b"w %d 0x%x 0x0 @vm:break\n" % (guest, place), b"dsb %d ishst @vm:break\n" % guest,
                b"tlbi %d ipas2e1is 0x%x @vm:flush\n" % (guest, number % 512 << 18), b"dsb %d ish @vm:flush\n" % guest,
                b"tlbi %d vmalle1is @vm:flush\n" % guest, b"dsb %d ish @vm:flush\n" % guest,
                b"w %d 0x%x 0x%x @vm:make\n" % (guest, place, number % 511 + 1 << 30 | 0x7fd),
                b"unlock %d %d @vm:lock\n" % (guest, guest))

    def events():
        for guest in range(4):
            yield from new_root(page_at(guest), b"s2", b"%d" % guest)
            yield b"msr %d vttbr_el2 0x%x @vm:load\n" % (guest, guest + 1 << 48 | page_at(guest))
            yield b"isb %d @vm:load\n" % guest
        for number in numbers():
            yield from chain.from_iterable(zip(*(turn(guest, number) for guest in range(4))))
    return Log(b"bbmlog 3 hyp 4 1 1 1 -", events())


def user_roots(most):
    return chain.from_iterable(new_root(page_at(number), b"ttbr0") for number in range(most))


def load(pe, asid, root=None):
    return b"msr %d ttbr0_el1 0x%x\n" % (pe, asid + 1 << 48 | page_at(asid if root is None else root))


def asids(count):
    """Two PEs switch among 64 ASIDs, each of a root of its own."""
    def events():
        yield from user_roots(64)
        for turn in numbers():
            yield load(turn % 2, turn * 7 % 64)
            yield b"isb %d\n" % (turn % 2)
    return Log(b"bbmlog 1 kernel 2 0 0 ttbr0", events())


# ---- a real kernel

PROCESSES, FAULTS = 256, 16


def process_pages(process):
    """The pages of a process: its root, a table of level 1, one of level 2, and four of level 3."""
    return [page_at(64 + 7 * process + number) for number in range(7)]


def new_process(process, pe):
    root, one, two, *last = process_pages(process)
    for page in (root, one, two, *last):
        yield b"init %d 0x%x @clear_page\n" % (pe, page)
    for page in last:
        yield from (b"w %d 0x%x 0x%x @set_pte\n" % (pe, page + 8 * index, 0x20000000000fc3 | index << 12) for index in range(16))
    for index, page in enumerate(last):
        yield b"w %d 0x%x 0x%x @pmd_install\n" % (pe, two + 8 * index, page | 3)
    yield b"w %d 0x%x 0x%x @pud_install\n" % (pe, one, two | 3)
    yield b"w %d 0x%x 0x%x @pgd_install\n" % (pe, root, one | 3)
    yield b"dsb %d ishst\n" % pe
    yield b"root %d ttbr0 - 0x%x\n" % (pe, root)


def switch_to(process, pe, isbs=True):
    """Through the reserved table, so that no root is loaded under the ASID of another."""
    for register, value in ((b"ttbr0", page_at(0) | 1), (b"ttbr1", process + 1 << 49 | page_at(1) | 1), (b"ttbr0", process_pages(process)[0] | 1)):
        yield b"msr %d %s_el1 0x%x @cpu_do_switch_mm\n" % (pe, register, value)
        if isbs:
            yield b"isb %d\n" % pe


def switch_in_order(process, pe):
    """The same with one ISB behind the three writes."""
    yield from switch_to(process, pe, False)
    yield b"isb %d\n" % pe


def fault(process, pe, number):
    """A page is copied on write, between an exception entry and a return; and one page of the kernel is flushed."""
    place = process_pages(process)[3 + number % 4] + 8 * (number // 4 % 16)
    page = number % 4 << 9 | number // 4 % 16
    return (b"isb %d\n" % pe, b"dsb %d ld\n" % pe,
            b"w %d 0x%x 0x0 @ptep_clear_flush\n" % (pe, place), b"dsb %d ishst\n" % pe,
            b"tlbi %d vale1is 0x%x @ptep_clear_flush\n" % (pe, process + 1 << 49 | page), b"dsb %d ish\n" % pe,
            b"w %d 0x%x 0x%x @__set_ptes\n" % (pe, place, 0x20000000000fc3 | number % (1 << 20) << 12), b"isb %d\n" % pe,
            b"dsb %d ishst\n" % pe, b"tlbi %d vaale1is 0x%x @__flush_tlb_kernel\n" % (pe, 0xffff8000000 | number % 4096),
            b"dsb %d ish\n" % pe, b"isb %d\n" % pe)


def kernel(count, header=b"bbmlog 4 kernel 4 0 0 ttbr1 cnp", switch=switch_to):
    """The shape of a log of a real kernel: by far most events are barriers and TLBIs for one page, as those of faults, and
    256 processes on four PEs have some two thousand tables. At 2,000,000 events each process ran forty times."""
    def events():
        yield from (new_page(page_at(0)), b"null 0 0x%x\n" % page_at(0))
        yield from new_root(page_at(1), b"ttbr1")
        for turn in numbers():
            process, pe = turn % PROCESSES, turn % 4
            if turn < PROCESSES:
                yield from new_process(process, pe)
            yield from switch(process, pe)
            for number in range(FAULTS):
                yield from fault(process, pe, turn // PROCESSES * FAULTS + number)
    return Log(header, events())


def kernel_unflushed(count):
    """The same log, which says that it may give up roots unflushed."""
    return kernel(count, b"bbmlog 5 kernel 4 0 0 ttbr1 cnp unflushed")


def kernel_inorder(count):
    """The same log of a kernel that switches a process with one ISB, which says that its registers come into use in order."""
    return kernel(count, b"bbmlog 5 kernel 4 0 0 ttbr1 cnp inorder", switch_in_order)


VMIDS = 255


def guest_that_dies(number):
    """A guest is made, run and given up, each on another of four PEs. What TLBs keep of it is flushed with the VMIDs of all,
    once they are used up."""
    page, pe = page_at(1 + number % 64), number % 4
    yield b"init %d 0x%x @vm:create\n" % (pe, page)
    yield b"root %d s2 - 0x%x @vm:create\n" % (pe, page)
    if number % VMIDS == 0:
        yield from (b"tlbi %d alle1is @vm:flush\n" % pe, b"dsb %d ish @vm:flush\n" % pe)
    for index in range(8):
        yield b"w %d 0x%x 0x%x @vm:map\n" % (pe, page + 8 * index, number % 256 << 33 | index << 30 | 0x7fd)
    for value in (number % VMIDS + 1 << 48 | page, 1 << 48 | page_at(0)):
        yield b"msr %d vttbr_el2 0x%x @vm:run\n" % (pe, value)
        yield b"isb %d @vm:run\n" % pe
    yield b"unroot %d 0x%x @vm:destroy\n" % (pe, page)


def guests_that_die(count):
    """Guests that are made and given up unflushed, on 64 pages and under 255 VMIDs in turn, beside a null page."""
    def events():
        yield from (new_page(page_at(0)), b"null 0 0x%x\n" % page_at(0))
        yield from chain.from_iterable(map(guest_that_dies, numbers()))
    return Log(b"bbmlog 5 hyp 4 1 1 1 unflushed", events())


# ---- hostile logs

def linked_by_all(count):
    """Fresh pages that all link one page; the second that becomes a root is refused. At 32,770 events they are 16,383."""
    one, pages = BASE, max(2, min(MOST_PAGES - 1, (count - 3) // 2))
    fresh = ((new_page(page_at(number)), write(page_at(number), one | 3)) for number in range(1, pages + 1))
    last = [b"root 0 el2 - 0x%x\n" % page_at(number) for number in (1, 2)]
    return Log(b"bbmlog 1 hyp 2 1 1 1", chain([new_page(one)], chain.from_iterable(fresh)), last,
               "refused line {line} rule 6 not-fresh at 0x40000000")


def fan_of_512(count):
    """A page whose 512 places link 512 fresh pages whose places all link one more: it is refused as a root. At 264,000
    events there are 262,144 paths to that one."""
    pages = max(2, min(512, (count - 3) // 3))

    def events():
        yield from (new_page(BASE), new_page(page_at(1)))
        for number in range(pages):
            page = page_at(2 + number)
            yield from (new_page(page), write(page, BASE | 3), write(page_at(1) + 8 * number, page | 3))
        for index in range(1, 512):
            yield from (write(page_at(2 + number) + 8 * index, BASE | 3) for number in range(pages))
    return Log(b"bbmlog 1 hyp 2 0 1 1", events(), [b"root 0 el2 - 0x%x\n" % page_at(1)],
               "refused line {line} rule 6 not-fresh at 0x40000000")


def roots_and_flushes(count):
    """1,024 stage 2 roots are loaded in turn, each with a TLBI for its VMID. At 6,200 events each had one turn."""
    roots = max(1, min(1024, count // 6))

    def events():
        yield from chain.from_iterable(new_root(page_at(number), b"s2") for number in range(roots))
        for turn in numbers():
            number = turn % roots
            yield b"msr 0 vttbr_el2 0x%x\n" % (number + 1 << 48 | page_at(number))
            yield from (b"isb 0\n", b"tlbi 0 vmalls12e1is\n", b"dsb 0 ish\n")
    return Log(b"bbmlog 1 hyp 2 1 1 1", events())


def unanswered(count):
    """TLBIs that no DSB answers, over one page with live places. A million at 1,000,514 events."""
    blocks = min(512, count // 4)
    first = chain(new_root(BASE), (write(BASE + 8 * index, index << 30 | 0x701) for index in range(blocks)))
    return Log(b"bbmlog 1 hyp 2 1 1 1", chain(first, (b"tlbi 0 vae2is 0x%x\n" % (number % 512 << 18) for number in numbers())))


def registers(count):
    """VTTBR_EL2 is written, with an ISB behind each time. A million at 2,000,004 events."""
    switch = ((b"msr 0 vttbr_el2 0x%x\n" % (number % 2 + 1 << 48 | page_at(number % 2)), b"isb 0\n") for number in numbers())
    return Log(b"bbmlog 1 hyp 2 1 1 1", chain(new_root(BASE, b"s2"), new_root(page_at(1), b"s2"), chain.from_iterable(switch)))


def long_lines(count):
    """The longest lines that events have, and then one of 200 bytes, whose label is too long."""
    first = [b"init 127 0xfffffffff000\n", b"root 127 el2 1023 0xfffffffff000\n", b"lock 127 1023\n"]
    longest = b"w 127 0xfffffffffff8 0xfffffffffffffffe @%s\n" % (b"x" * 32)
    return Log(b"bbmlog 3 hyp 128 1 1 1 -", chain(first, repeat(longest)), [b"isb 0 @%s\n" % (b"y" * 193)],
               "malformed line {line} cause 13 BadLabel")


def crowd(count):
    """128 PEs load 64 ASIDs in turn, and one is flushed a round; at the end one ASID goes to another root too early."""
    def events():
        yield from user_roots(64)
        for turn in numbers():
            for pe in range(128):
                yield load(pe, (pe + turn) % 64)
                yield b"isb %d\n" % pe
            yield b"tlbi %d aside1is 0x%x\n" % (turn % 128, turn % 64 + 1 << 48)
            yield b"dsb %d ish\n" % (turn % 128)
    last = [load(0, 0), b"isb 0\n", load(1, 0, 1)]
    return Log(b"bbmlog 3 kernel 128 0 0 ttbr0 -", events(), last, "refused line {line} rule 12 tag-conflict at 0x40000000")


LOGS = {
    "moves": moves, "plain": plain, "rounds": rounds,
    "pages_in_order": pages_in_order, "pages_in_random_order": pages_in_random_order, "broken_at_once": broken_at_once,
    "cleared_512": cleared_one_by_one(512), "cleared_4096": cleared_one_by_one(4096), "guests": guests, "asids": asids, "kernel": kernel,
    "kernel_unflushed": kernel_unflushed, "kernel_inorder": kernel_inorder, "guests_that_die": guests_that_die,
    "stage_2_in_order": stage_2_in_order(), "stage_2_isolated": stage_2_in_order(b" isolated"),
    "linked_by_all": linked_by_all, "fan_of_512": fan_of_512, "roots_and_flushes": roots_and_flushes,
    "unanswered": unanswered, "registers": registers, "long_lines": long_lines, "crowd": crowd,
}
