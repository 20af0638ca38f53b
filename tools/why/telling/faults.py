# SPDX-License-Identifier: Apache-2.0
"""What is wrong in the line that decided, in words: the field, what it is and what it may be. docs/FORMAT.md has the forms.

The program judges. A fault is told where the first field that doesn't fit here has the cause that the program names.
"""
from __future__ import annotations

import re
from collections.abc import Callable
from dataclasses import dataclass
from itertools import zip_longest

from why.log.lines import WITH_WORDS, Header, header_of, words_of
from why.asking.program import Answer, Verdict, complain
from why.log.stream import Source

VERSIONS, WORLDS = ("1", "2", "3", "4", "5"), ("hyp", "kernel")
PACKED = "the log is {} packed: name it as a file, bbm check LOG"
# How a file begins that is no text of one byte a letter, and what is said of it.
OTHERS = {b"\x1f\x8b": PACKED.format("gzip"), b"\xfd7zXZ\0": PACKED.format("xz"), b"\x28\xb5\x2f\xfd": PACKED.format("zstd"),
          b"\xef\xbb\xbf": "the log begins with a byte order mark, which has no place in it",
          b"\xff\xfe": "the log is in UTF-16, and has to be in ASCII", b"\xfe\xff": "the log is in UTF-16, and has to be in ASCII"}
CRLF = "the line ends with a carriage return and a newline (CRLF), and those of a log with a newline alone: tr -d '\\r' mends it"

EVENTS = {"init": "PE PAGE", "null": "PE PAGE", "root": "PE KIND LOCK PAGE", "unroot": "PE PAGE", "w": "PE PLACE VALUE", "dsb": "PE OPT",
          "dmb": "PE OPT", "isb": "PE", "tlbi": "PE OP XT", "msr": "PE REG VALUE", "lock": "PE LOCK", "unlock": "PE LOCK", "end": "COUNT"}
BY_NAME = ("vae2", "vale2", "ipas2e1", "ipas2le1", "vae1", "vale1", "vaae1", "vaale1")
WITHOUT_OPERAND = ("alle2", "alle1", "vmalle1", "vmalls12e1")
OPERATIONS = (*WITHOUT_OPERAND, *BY_NAME, "aside1")
RANGES = tuple("r" + name for name in BY_NAME)
WORDS = {"KIND": ("el2", "s2", "ttbr0", "ttbr1"), "REG": ("ttbr0_el2", "vttbr_el2", "ttbr0_el1", "ttbr1_el1"),
         "OPT": tuple(domain + what for domain in ("ish", "osh", "nsh") for what in ("", "st", "ld")) + ("sy", "st", "ld")}
DECIMAL, HEX = re.compile("0|[1-9][0-9]*"), re.compile("0x(?:0|[1-9a-f][0-9a-f]{0,15})")
LABEL = re.compile(r"@[A-Za-z0-9./:_-]{1,32}")
# The most that the words with a bound of events take, and which words have none.
LIMITS = {
    "line-bytes": "the line has more than 200 bytes", "pages": "it makes the 16,385th page zero, and the program takes 16,384",
    "roots": "1,024 roots are declared there, and the program takes no more at a time",
    "values": "its PE wrote the register eight times without an ISB, and the program takes no more",
    "events": "{} takes 2,000 events; check, explain and walk take 4,294,967,293", "lines": "the program takes no event on line 4,294,967,295 or later",
    "steps": "follow takes 2,000 steps", "claims": "verify takes 300,000 claims",
}


@dataclass(frozen=True)
class Fault:
    """What is wrong with a field: the cause, and the words."""

    cause: str
    told: str


@dataclass(frozen=True)
class Field:
    """What a field may be, in words, whether a text is that, and the cause where it isn't."""

    told: str
    fits: Callable[[str], object]
    cause: str = "BadNumber"


def listed(values: tuple[str, ...]) -> str:
    return " or ".join(values) if len(values) < 3 else ", ".join(values[:-1]) + " or " + values[-1]


def one_of(*values: str) -> Field:
    return Field(listed(values), values.__contains__, "UnknownWord")


def decimal(most: int, cause: str = "BadNumber", also: str | None = None, least: int = 0) -> Field:
    fits = lambda text: text == also or DECIMAL.fullmatch(text) and least <= int(text) <= most
    return Field(f"a decimal from {least} to {most}" + (f" or {also}" if also else ""), fits, cause)


def address(step: int) -> Field:
    fits = lambda text: HEX.fullmatch(text) and int(text, 16) < 1 << 48 and int(text, 16) % step == 0
    return Field(f"lower-case hex as 0x40000000, a multiple of {step} below 2^48", fits, "BadAddress")


def fault_in(texts: list[str], fields: dict[str, Field], form: str) -> Fault | None:
    """What is wrong first, from the left, in the texts of these fields."""
    for (name, field), text in zip_longest(fields.items(), texts[:len(fields)]):
        if text is None:
            return Fault("MissingField", f"{name} is missing, and may be {field.told}{form}")
        if not field.fits(text):
            return Fault(field.cause, f"{name} is `{text[:40]}`, and may be {field.told}{form}")
    return None


def fault_behind(more: list[str], form: str, takes_label: bool = False, is_early: bool = False) -> Fault | None:
    """What is wrong behind the fields: a label, or what is no label."""
    is_label = takes_label and bool(more) and more[0].startswith("@")
    if is_label and not LABEL.fullmatch(more[0]):
        return Fault("BadLabel", f"the label is `{more[0][:40]}`, and may be @ and 1 to 32 letters, digits, `.`, `/`, `:`, `_` or `-`")
    if not more[is_label:]:
        return None
    early = ": labels come with version 3" if is_early and more[0].startswith("@") else ""
    return Fault("ExtraField", f"`{' '.join(more[is_label:])[:40]}` is a field too many{early}{form}")


# ---- the header

def header_fields(version: str, world: str, texts: list[str]) -> dict[str, Field]:
    """What the fields behind the world may be."""
    level, pages = one_of("0", "1", "2"), one_of("1") if texts[2:3] == ["0"] else one_of("1", "2", "4", "8", "16")
    last = {"S2PAGES": pages} if world == "hyp" else {"ASIDFROM": one_of("ttbr0", "ttbr1")}
    starts = dict.fromkeys(("EL2START", "S2START") if world == "hyp" else ("START0", "START1"), level)
    cnp = {"CNP": one_of("cnp", "-")} if 1 < int(version) < WITH_WORDS else {}
    return {"PES": decimal(64 if version in ("1", "2") else 128, least=1), **starts, **last, **cnp}


def header_fault(words: list[str]) -> str | None:
    """The first field that can't be what it is, of the fields behind `bbmlog`; None where each can."""
    version, world, *texts = [*words, "", ""][:max(2, len(words))]
    if version not in VERSIONS:
        return f"the version is `{version}`, and may be {listed(VERSIONS)}"
    if world not in WORLDS:
        return f"the world is `{world}`, and may be {listed(WORLDS)}"
    fields = header_fields(version, world, texts)
    said = words_of(world) if int(version) >= WITH_WORDS else ()
    form = f"; the form is `bbmlog {version} {world} {' '.join([*fields, *(f'[{word}]' for word in said)])}`"
    found = fault_in(texts, fields, form) or fault_behind(unsaid(texts[len(fields):], said), form)
    return found.told if found else None


def unsaid(texts: list[str], said: tuple[str, ...]) -> list[str]:
    """What stands behind the words of a header, each of which may stand once, in their order."""
    for word in said:
        texts = texts[texts[:1] == [word]:]
    return texts


def fault_of_header(line: bytes) -> str | None:
    """What is wrong with the first line; None where it is right."""
    for magic, fault in OTHERS.items():
        if line.startswith(magic):
            return fault
    if line.endswith(b"\r"):
        return CRLF
    words = line.decode("latin-1").split(" ")
    if words[0] != "bbmlog":
        return f"line 1 is no header: it begins with `{words[0][:40]}`, and may only with `bbmlog` and one space"
    return header_fault(words[1:])


# ---- event lines

def field_of(name: str, word: str, header: Header) -> Field:
    """What a field of an event line or `end` line may be."""
    plain_operations = OPERATIONS + (RANGES if header.version > 3 else ())
    words = {**WORDS, "OP": tuple(operation + suffix for operation in plain_operations for suffix in ("", "is"))}
    if name in words:
        return one_of(*words[name])
    return {"PE": decimal(header.pes - 1, "BadPe"), "LOCK": decimal(1023, also="-" if word == "root" else None),
            "COUNT": decimal((1 << 32) - 1), "PAGE": address(4096), "PLACE": address(8)}.get(
                name, Field("lower-case hex, 0x and 1 to 16 digits without a leading zero", HEX.fullmatch))


def names_of(word: str, texts: list[str]) -> list[str]:
    """The fields behind the word, as far as this and the operation say."""
    operation = texts[1].removesuffix("is") if word == "tlbi" and len(texts) > 1 else ""
    return EVENTS[word].split()[:2 if operation in WITHOUT_OPERAND else None]


def first_fault(line: str, header: Header) -> Fault | None:
    """What is wrong first, from the left, in an event line or `end` line."""
    word, *texts = line.split(" ")
    if word not in EVENTS:
        return Fault("UnknownWord", f"the word is `{word[:40]}`, and may be {listed((*EVENTS,))}")
    fields = {name: field_of(name, word, header) for name in names_of(word, texts)}
    form = f"; the form is `{' '.join([word, *fields])}`"
    more = texts[len(fields):]
    return fault_in(texts, fields, form) or fault_behind(more, form, header.version > 2 and word != "end", header.version < 3)


def event_fault(verdict: Verdict, line: bytes, header: Header) -> str | None:
    if line.endswith(b"\r"):
        return CRLF
    found = first_fault(line.decode("latin-1"), header)
    return found.told if found and found.cause == verdict.name else None


# ---- what is said

def fault_of(verdict: Verdict, source: Source, word: str = "check") -> str | None:
    """What is wrong in the line that decided; None where that can't be told."""
    if verdict.word == "limit":
        return LIMITS.get(verdict.name, "").format(word) or None
    line = source.line(verdict.line) or b""
    if verdict.line == 1 and verdict.name in ("NoMagic", "BadHeader"):
        return fault_of_header(line)
    if word in ("follow", "verify"):
        # (machine lines and claims count in their own way)
        return None
    if verdict.name == "NoEnd":
        if not line and verdict.line == 1:
            return "the log is empty"
        what = f"line {verdict.line} is cut" if line else f"the log ends behind line {verdict.line - 1}"
        return f"{what}, without an `end` line" + ("" if word == "partial" else ": bbm partial judges what is there")
    if verdict.name == "WrongCount":
        return f"the line is `{line.decode('latin-1')}`, and {verdict.line - 2} event lines stand before it: `end {verdict.line - 2}` is right"
    if verdict.name == "AfterEnd":
        return f"line {verdict.line - 1} is the `end` line, and nothing may stand behind it"
    return event_fault(verdict, line, header_of(next(source.lines()).decode("latin-1")))


def say(answer: Answer, source: Source, word: str) -> None:
    """Says it on standard error, where the log can be read again."""
    fault = fault_of(answer.verdict, source, word) if answer.verdict and source.held is not None else None
    if fault:
        complain(plain(fault))


def plain(text: str) -> str:
    return "".join(sign if sign.isprintable() else "?" for sign in text)
