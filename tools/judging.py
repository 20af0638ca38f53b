# SPDX-License-Identifier: Apache-2.0
"""Runs the program on a log, and says what is wrong with its answer. `tools/fuzz`, `tools/try`, `tools/refuse_memory`
and `tools/test_why` use it.

The forms are those that docs/OUTPUT.md promises: they are read from there.
"""
import argparse
import os
import re
import shutil
import subprocess

from ending import Unable
from why.asking import program as asking

TOP = os.path.dirname(os.path.dirname(os.path.realpath(__file__)))
SECONDS = 10
PROMISED = os.path.join(TOP, "docs/OUTPUT.md")
# With this status a part of a text comes, cut anywhere.
UNWRITTEN, PART = 5, "(?s:.*)"


# ---- the words of a tool

def options(tool, about, count, counted):
    """The options of a tool that runs the program on logs which it makes: so many, unless another number is given."""
    words = options_of_program(tool, about)
    words.add_argument("--count", type=int, default=count, help=counted)
    words.add_argument("--seed", type=int, default=1)
    words.add_argument("--events", type=int, default=60, help="the most events of a structured log")
    words.add_argument("--jobs", type=int, default=1, help="the logs that are judged at once")
    return words


def options_of_program(tool, about):
    words = argparse.ArgumentParser(tool, description=about, formatter_class=argparse.RawDescriptionHelpFormatter)
    words.add_argument("--program", help="else that of BBM, or the built one")
    return words


def program(name=None):
    """The program of that name, or that of BBM, or the built one."""
    try:
        return asking.named_or_built(name)
    except asking.Unable as why:
        raise Unable(str(why)) from why


def asked(words, given=None):
    """What is asked for, where there is a program to run."""
    found = words.parse_args(given)
    found.program = program(found.program)
    if not shutil.which(found.program):
        raise Unable(f"there is no program {found.program}")
    return found


# ---- the forms of docs/OUTPUT.md

def block(page, name):
    """The lines of a fenced block of the page, each cut at its first separator."""
    lines = re.search(rf"^```{name}\n(.*?)^```$", page, re.M | re.S).group(1).splitlines()
    separator = ": " if name == "answers" else " = "
    return [line.split(separator, 1) for line in lines]


def field(words):
    """The regular expression of a field: that between slashes, or any of its words."""
    return f"(?:{words[1:-1]})" if words.startswith("/") else "(?:" + "|".join(map(re.escape, words.split(" | "))) + ")"


def line_form(form, fields):
    """The regular expression of a line: a field for each of its capitals, and `[..]` may be absent."""
    signs = {"[": "(?:", "]": ")?", "\\[": r"\[", "\\]": r"\]"}
    parts = re.split(r"(\\?[\[\]]|[A-Z][A-Z_]+)", form)
    return "".join(signs.get(part) or fields.get(part) or re.escape(part) for part in parts) + "\n"


def answer_forms(texts, lines):
    """The regular expression of a whole text for each status, or of a part of one; a status that stands twice has either."""
    forms = {}
    for text in texts.split(", "):
        status, *names = text.split(" ")
        form = "".join(f"(?:{lines[name.rstrip('*')]})" + ("*" if name.endswith("*") else "") for name in names)
        forms[int(status)] = f"{forms[int(status)]}|{form}" if int(status) in forms else form
    if UNWRITTEN in forms:
        forms[UNWRITTEN] = PART
    return forms


def promised():
    """The fields, the lines and the answers of the page."""
    with open(PROMISED, encoding="utf-8") as file:
        page = file.read()
    words = dict(block(page, "fields"))
    fields = {name: field(text) for name, text in words.items()}
    lines = {}
    for name, form in block(page, "forms"):
        lines[name] = (lines[name] + "|" if name in lines else "") + line_form(form, fields)
    answers = {command: answer_forms(texts, lines) for command, texts in block(page, "answers")}
    common = answers.pop("any")
    return words, lines, {command: {**common, **forms} for command, forms in answers.items()}


WORDS, LINES, FORMS = promised()
RULES = [rule.split()[1] for rule in WORDS["RULE"].split(" | ")]
CAUSES = {int(number): name for number, name in (cause.split() for cause in WORDS["CAUSE"].split(" | "))}
LIMITS = WORDS["BOUND"].split(" | ")


class Answer:
    """How a run ended: its status (less than 0 by a signal, None out of time) and its text."""

    def __init__(self, status, text, faults=b""):
        self.status, self.text, self.faults = status, text.decode("latin-1"), faults.decode("latin-1")

    def __eq__(self, other):
        return (self.status, self.text) == (other.status, other.text)

    def __str__(self):
        return f"status {self.status}, {self.text!r}" + (f", standard error {self.faults[:200]!r}" if self.faults else "")

    @property
    def first(self):
        return self.text.split("\n")[0]


def run(program, words, log, seconds=SECONDS, **others):
    """The answer of one process; `others` go to it, as its limits or its environment."""
    try:
        done = subprocess.run([program, *words], input=log, capture_output=True, timeout=seconds, **others)
    except subprocess.TimeoutExpired as late:
        return Answer(None, late.stdout or b"", late.stderr or b"")
    return Answer(done.returncode, done.stdout, done.stderr)


def fault_of(words, answer):
    """What is wrong with the form of an answer, or None."""
    if answer.status is None:
        return "out of time"
    if answer.status < 0:
        return "ended by a signal"
    if answer.faults:
        return "wrote to standard error"
    forms = FORMS.get(" ".join(words)) or FORMS.get(words[0] if words else "", {3: LINES["USAGE"]})
    if answer.status not in forms:
        return "a status of no answer"
    if not re.fullmatch(forms[answer.status], answer.text):
        return "a text of no form"
    return None


def phases_fault(log, answer):
    """What is wrong with the lines of `explain` behind its first: one for each PE, behind rule 4 alone, and not all cleansed."""
    lines = answer.text.split("\n")[1:-1]
    if " rule 4 " not in answer.first:
        return "phases behind another answer" if lines else None
    pes = int(log.split(b"\n")[0].split(b" ")[3])
    if [line.split()[1] for line in lines] != [str(pe) for pe in range(pes)]:
        return "not a line for each PE"
    return "refused though all are cleansed" if all(line.endswith(" cleansed") for line in lines) else None


def by_events(answer):
    """Whether a limit of events decided, which `check` may not have."""
    return answer.status == 7 and answer.first.endswith(" events")


def differ(one, other):
    """Whether two answers to one log differ, where no limit of events decides one of them."""
    return one.first != other.first and not by_events(one) and not by_events(other)


def reached(answer):
    """The rule, cause or limit that an answer names, or what else it says, in short."""
    for form in (r"rule \d+ [\w-]+", r"cause \d+ \w+", r"^limit line \d+ [\w-]+", "conflict", "^bad step", "^run", "^accepted"):
        found = re.search(form, answer.first)
        if found:
            return re.sub(r" line \d+", "", found.group(0))
    return answer.first[:20] or "nothing"


# ---- certificates

def certificate(claims):
    return "\n".join(["bbmcert 1", *claims, f"end {len(claims)}", ""])


def verified(program, log, claims):
    """What `verify` says of a log with these claims."""
    return run(program, ["verify"], log + certificate(claims).encode())


# ---- logs that follow from a log

def cut_before(log, answer):
    """The log up to the line that is refused, without it and with it, each with an `end` line of its own."""
    line = int(answer.first.split()[2])
    header, *events = log.split(b"\n")[:line]
    return joined(header, events[:-1], True), joined(header, events, True)


def without_steps(log):
    """A run without its machine lines."""
    return b"\n".join(line for line in log.split(b"\n") if not line.startswith(b"m "))


# ---- shrinking

def parts_of(log):
    """The header, the other lines, and how an `end` line that fits them is made; or no header and all lines."""
    lines = log.split(b"\n")
    count = sum(not line.startswith(b"m ") for line in lines[1:-2])
    if len(lines) >= 3 and lines[-1] == b"" and lines[-2] == b"end %d" % count:
        return lines[0], lines[1:-2], True
    return None, lines, False


def joined(header, lines, counted):
    if not counted:
        return b"\n".join(lines)
    count = sum(not line.startswith(b"m ") for line in lines)
    return b"\n".join([header, *lines, b"end %d" % count, b""])


def shrunk(log, fails, tries=400):
    """A log of fewer lines of which `fails` still holds: lines are left out, in halves, quarters and so on."""
    header, lines, counted = parts_of(log)
    size = max(1, len(lines) // 2)
    while tries > 0:
        at, removed = 0, False
        while at < len(lines) and tries > 0:
            fewer = lines[:at] + lines[at + size:]
            tries -= 1
            if fails(joined(header, fewer, counted)):
                lines, removed = fewer, True
            else:
                at += size
        if size == 1 and not removed:
            break
        size = max(1, size // 2)
    return joined(header, lines, counted)
