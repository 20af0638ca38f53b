# SPDX-License-Identifier: Apache-2.0
"""Logs that aren't well formed, or that reach a limit: random bytes, logs with bytes or lines changed, a log with a fault of
each cause, and one for each limit. `tools/fuzz` judges them.
"""
import pathlib

import stories

EXAMPLES = pathlib.Path(__file__).resolve().parent.parent / "examples"
LETTERS = b"0123456789abcdefx @-./:_wmisbdtlrnuoklh\n\n\n  "
FIELDS = ["", "0", "1", "00", "-1", "128", "4294967296", "0x0", "0x00", "0X1", "0x", "0x10000000000000000", "0x40000004", "0x40000800",
          "0x1000000000000", "0xffffffffffffffff", "-", "@", "@a b", "@" + "y" * 33, "ish", "el2", "s2", "ttbr0_el1", "alle1is", "vae1",
          "rvae2is", "m", "end", "bbmlog", "\r", "\0", "\xff", "w", "1023", "1024", "65535", "65536"]


def random_bytes(chance):
    size = chance.randrange(0, 400)
    if chance.random() < 0.4:
        return bytes(chance.randrange(256) for _ in range(size))
    letters = bytes(chance.choice(LETTERS) for _ in range(size))
    return letters if chance.random() < 0.4 else stories.text_of(stories.any_header(chance)).encode() + b"\n" + letters


# ---- changes of a log

def of_bytes(chance, log):
    at, way = chance.randrange(len(log) + 1), chance.randrange(4)
    some = bytes([chance.choice([chance.randrange(256), 32, 10, 13, 48])])
    return [log[:at] + some + log[at + 1:], log[:at] + log[at + 1:], log[:at] + some + log[at:], log[:at]][way]


def of_lines(chance, log):
    lines = log.split(b"\n")
    at, other, way = chance.randrange(len(lines)), chance.randrange(len(lines)), chance.randrange(5)
    if way == 0:
        del lines[at]
    elif way == 1:
        lines.insert(other, lines[at])
    elif way == 2:
        lines[at], lines[other] = lines[other], lines[at]
    elif way == 3:
        lines.insert(at, b"")
    else:
        lines[at] = lines[at] + b" " * chance.choice([1, 200 - len(lines[at]) % 200, 201])
    return b"\n".join(lines)


def of_fields(chance, log):
    lines = log.split(b"\n")
    at = chance.randrange(len(lines))
    fields, way = lines[at].split(b" "), chance.randrange(3)
    field, some = chance.randrange(len(fields)), chance.choice(FIELDS).encode("latin-1")
    if way == 0:
        fields[field] = some
    elif way == 1:
        fields.insert(field + 1, some)
    else:
        del fields[field]
    lines[at] = b" ".join(fields)
    return b"\n".join(lines)


def examples():
    return [path.read_bytes() for path in sorted(EXAMPLES.rglob("*.log"))]


def mutated(chance):
    log = chance.choice(examples()) if chance.random() < 0.5 else stories.structured(chance, 30)
    for _ in range(chance.choice([1, 1, 1, 2, 4])):
        log = chance.choice([of_bytes, of_lines, of_fields, of_fields])(chance, log)
    return log


# ---- a fault of each cause

def with_line(log, chance, *lines):
    """The log with some event line replaced by one of these."""
    parts = log.split(b"\n")
    parts[chance.randrange(1, len(parts) - 2)] = chance.choice(lines).encode("latin-1")
    return b"\n".join(parts)


FAULTY_LINES = {
    3: ["x 0", "dsb 0 all", "tlbi 0 alle3", "msr 0 ttbr0_el3 0x0", "root 0 el1 - 0x40000000", "", "m start 0 el2 0 0x0 0x1", "Init 0 0x0"],
    4: ["w 0 0x40000008 1", "w 0 0x40000008 0x01", "w 0 0x40000008 0x10000000000000000", "lock 0 1024", "end 007", "tlbi 0 vae2is @x",
        "w 0 0x40000008 0xA", "msr 0 ttbr0_el2 0x", "root 0 el2 01 0x40000000", "end 4294967296"],
    5: ["isb 200", "isb 00", "isb  0", "isb x", "w -1 0x0 0x0", "tlbi 0x0 alle2", "lock 999999999999999999999 0"],
    6: ["init 0 0x40000800", "w 0 0x40000004 0x0", "init 0 0x1000000000000", "null 0 0", "root 0 el2 - 0x1", "unroot 0 0xfffffffffffff000"],
    7: ["w 0 0x40000008", "init 0", "dsb 0", "tlbi 0", "tlbi 0 vae2is", "end", "isb", "lock 0", "root 0 el2 -"],
    8: ["isb 0 0", "isb 0 ", "end 1 1", "tlbi 0 alle2is 0x0", "w 0 0x40000008 0x0 0x0", "isb 0 @a @b"],
    13: ["isb 0 @", "isb 0 @a+b", "isb 0 @" + "z" * 33, "dsb 0 ish @\xe9", "init 0 0x40000000 @ x"],
}


def labelled_header(chance):
    header = stories.any_header(chance)
    return stories.text_of(header._replace(version=chance.choice([3, 4, 5]))).encode()


def faulty(chance):
    """A log with a fault of one cause."""
    log, cause = stories.structured(chance, 20), chance.choice([1, 2, 3, 4, 5, 6, 7, 8, 9, 10, 11, 13])
    header, _, rest = log.partition(b"\n")
    if rest.count(b"\n") < 2:
        rest = b"isb 0\nend 1\n"
    if cause == 1:
        return chance.choice([b"bbmlog 6", b"bbmlog", b"", b"bbmlog  1", b"bbmlog 01 hyp", b"BBMLOG 1"]) + b"\n" + rest
    if cause == 2:
        fields = header.split(b" ")
        at, words = chance.randrange(2, len(fields)), [b" 1", b" cnp", b" unflushed", b" inorder", b" isolated", b" -"]
        some = [b"x", b"", b"3", b"0", b"129", b"32", b"inorder", b"isolated", fields[at] + b"\r", fields[at] + chance.choice(words)]
        fields[at] = chance.choice(some)
        return b" ".join(fields) + b"\n" + rest
    if cause == 9:
        return log[:chance.randrange(len(log))]
    if cause == 10:
        return header + b"\n" + rest[:rest.rindex(b"end")] + b"end %d\n" % chance.choice([0, 1, 7, 4294967295])
    if cause == 11:
        return log + chance.choice([b"\n", b"x", b"end 0\n", b"\0", log, b"y" * 300])
    if cause == 13:
        header = labelled_header(chance)
    return with_line(header + b"\n" + rest, chance, *FAULTY_LINES[cause])


# ---- limits

def numbered(line, count):
    return "".join(line(number) + "\n" for number in range(count)).encode()


EVENTS = "limit line 2002 events"


def at_a_limit(chance):
    """A log that reaches a limit, where the command has it, or comes near; and the first lines that a judge can say of it:
    one without a limit of events, and one with it."""
    header = stories.text_of(stories.Header(chance.choice([1, 3]), True, 2, (1, 1), 1, "ttbr0", False)).encode() + b"\n"
    body, told = chance.choice([long_line, many_events, many_pages, many_roots, many_values, many_steps])(chance)
    count = sum(not line.startswith(b"m ") for line in body.split(b"\n")[:-1])
    return header + body + b"end %d\n" % count, told


def long_line(chance):
    size = chance.choice([200, 201, 300, 5000])
    told = "malformed line 5 cause 3 UnknownWord" if size == 200 else "limit line 5 line-bytes"
    return b"isb 0\n" * 3 + b"q" * size + b"\n", {told}


def many_events(chance):
    count = chance.choice([1999, 2000, 2001, 2400])
    told = {f"accepted {count} events"} | ({EVENTS} if count > 2000 else set())
    return numbered(lambda number: f"dmb {number % 2} ish", count), told


def many_pages(chance):
    """One page more than can be initialised."""
    return numbered(lambda number: f"init 0 {number * 4096:#x}", 16385), {"limit line 16386 pages", EVENTS}


def many_roots(chance):
    """One root more than can be declared."""
    pair = lambda number: f"init 0 {number * 4096:#x}\nroot 1 el2 - {number * 4096:#x}"
    return numbered(pair, 1025), {"limit line 2051 roots", EVENTS}


def many_values(chance):
    count = chance.choice([8, 9])
    told = "accepted 10 events" if count == 8 else "limit line 12 values"
    return b"init 0 0x0\nroot 0 el2 - 0x0\n" + b"msr 1 ttbr0_el2 0x0\n" * count, {told}


def many_steps(chance):
    """A run, as `follow` reads it: for a judge `m` is no word."""
    return b"m drop 1\n" * chance.choice([1, 1999]) + b"isb 0\n" * 3, {"malformed line 2 cause 3 UnknownWord"}
