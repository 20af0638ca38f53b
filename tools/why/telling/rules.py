# SPDX-License-Identifier: Apache-2.0
"""What docs/RULES.md says of a rule: read there, so that no sentence stands twice."""
from __future__ import annotations

import re
import textwrap
from dataclasses import dataclass

from why.asking.program import TOP
from why.telling.style import BOLD, Style

RULES, FORMAT = f"{TOP}/docs/RULES.md", f"{TOP}/docs/FORMAT.md"


@dataclass(frozen=True)
class Rule:
    number: int
    name: str
    sentence: str
    bug: str
    right: str


def plain(text: str) -> str:
    """Markdown as plain text: links by their words."""
    return re.sub(r"\[([^\]]*)\]\([^)]*\)", r"\1", text).strip()


def read(path: str) -> str:
    with open(path, encoding="utf-8") as file:
        return file.read()


def rule_of(number: int) -> Rule | None:
    """The rule of this number; None where the document has no section for it."""
    section = re.search(rf"^### {number} .*?(?=^###? |\Z)", read(RULES), re.M | re.S)
    forms = (rf"^### {number} (\S+)", r"^(\*\*An event breaks it exactly where\*\* .*)$", r"^- \*\*The usual bug:\*\* (.*)$", r"^- \*\*Right:\*\* (.*)$")
    found = [re.search(form, section[0], re.M) for form in forms] if section else []
    return Rule(number, *(plain(part[1]).replace("**", "") if part else "" for part in found)) if section else None


def cause_of(name: str) -> str | None:
    """Where a cause of a malformed line comes, by docs/FORMAT.md."""
    found = re.search(rf"^\| \d+ {re.escape(name)} \| (.*) \|$", read(FORMAT), re.M)
    return plain(found.group(1)) if found else None


def cause_of_number(number: int) -> str | None:
    """The same, by the number of the cause."""
    found = re.search(rf"^\| {number} (\w+) \|", read(FORMAT), re.M)
    return cause_of(found[1]) if found else None


# ---- a rule by itself

ROW = re.compile(r"^\| \[(\d+)\]\([^)]*\) \| (\S+) \| (.*) \| .* \|$", re.M)


def wrapped(text: str, style: Style) -> str:
    """A paragraph, or a point of a list, as wide as the style says."""
    mark, later = ("- ", "  ") if text.startswith("- ") else ("", "")
    return textwrap.fill(text.removeprefix("- "), style.width, initial_indent=mark, subsequent_indent=later,
                         break_long_words=False, break_on_hyphens=False)


def explained(name: str, style: Style) -> str:
    """The section on a rule, by its number or name; without one a line for each rule, and nothing where there is no
    such rule."""
    page = read(RULES)
    rows = ROW.findall(page)
    if not name:
        return "".join(f"{number:>2} {style.painted(named, BOLD)}: {plain(what)}\n" for number, named, what in rows)
    wanted = next((number for number, named, _ in rows if name in (number, named)), None)
    section = wanted and re.search(rf"^### {wanted} .*?(?=^###? |\Z)", page, re.M | re.S)
    if not section:
        return ""
    head, *lines = section[0].strip().split("\n")
    texts = [wrapped(plain(line).replace("**", ""), style) for line in lines if line]
    return "\n".join([style.painted(f"rule {head.removeprefix('### ')}", BOLD), "", *texts]) + "\n"
