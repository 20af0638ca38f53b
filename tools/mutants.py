# SPDX-License-Identifier: Apache-2.0
"""Mutants of crates: texts that turn a source, those of mutants/NAME and the must-fail edits of crates/NAME."""
import collections
import os
import re

from ending import Unable

TOP = os.path.dirname(os.path.dirname(os.path.realpath(__file__)))
Mutant = collections.namedtuple("Mutant", "name pairs places")


class Unfit(Unable):
    """A mutant can't be applied."""


def pairs_of(text):
    """Returns the mutant's triples of file, old text and new text."""
    found, file, old = [], "", ""
    for line in text.split("\n"):
        word, _, rest = line.partition(" ")
        if word == "file:":
            file = rest.strip()
        elif word == "old:":
            old = rest
        elif word == "new:":
            found.append((file, old, rest))
    return found


def applied(texts, pairs):
    """Returns the texts, by file, with the pairs put in, or raises Unfit."""
    made = dict(texts)
    for file, old, new in pairs:
        if file not in made:
            raise Unfit(f"there is no file {file}")
        if not old or made[file].count(old) != 1:
            raise Unfit(f"a text stands in {file} {made[file].count(old) if old else 0} times, and not once: {old}")
        made[file] = made[file].replace(old, new)
    if not pairs:
        raise Unfit("it has no pair of texts")
    return made


def texts_of(folder):
    """Returns the texts of a crate by file."""
    found = {}
    for part in ("src", "specs", "proofs"):
        for at, _, names in os.walk(f"{folder}/{part}"):
            for name in names:
                with open(f"{at}/{name}", encoding="utf-8") as it:
                    found[os.path.relpath(f"{at}/{name}", folder)] = it.read()
    return found


def module_of(file):
    """Returns the path of a source file's module."""
    return re.sub(r"/?(lib|main|mod)$", "", file[len("src/") : -len(".rt")]).replace("/", "::")


def owner_of(file, text, texts):
    """Returns the path of the last type or trait of which an `impl` or a `trait` stands in the text, as a check names it:
    a type's own functions stand in the module that declares it."""
    heads = re.findall(r"(?m)^(?:pub )?(impl|trait)\b(?:<.*?>(?= ))? *([^{\n]*)", text)
    if not heads or heads[-1][0] == "trait":
        return [module_of(file), re.match(r"\w*", heads[-1][1])[0] if heads else ""]
    one, _, other = heads[-1][1].partition(" for ")
    last = lambda path: re.match(r"&?\s*(?:\w+::)*(\w*)", path)[1]
    home = file
    for it in texts if not other else ():
        if it.startswith("src/") and re.search(rf"(?m)^(?:pub(?:\([a-z]+\))? )?(?:struct|enum) {last(one)}\b", texts[it]):
            home = it
    return [module_of(home), last(other) + last(one)]


def function_at(file, at, texts):
    """Returns the path of the function in which the position of a source stands, or '' where it stands in none."""
    text = texts[file]
    end = text.find("\n", at)
    heads = [*re.finditer(r"(?m)^( *)(?:pub(?:\([a-z]+\))? )?(?:const |unsafe )*fn (\w+)", text[:end])]
    if not heads:
        return ""
    last = heads[-1]
    ended = "^}$|" * (not last[1]) + r"^(?:pub )?(?:const|static|struct|enum|use|type)\b"
    if re.search(f"(?m){ended}", text[last.end() : end]):
        return ""
    names = owner_of(file, text[: last.start()], texts) if last[1] else [module_of(file)]
    return "::".join(it for it in [*names, last[2]] if it)


def mutant_of(name, text, texts):
    """Returns the mutant, with the functions in which it stands, none where a part of it stands in no function."""
    pairs, places = pairs_of(text), set()
    applied(texts, pairs)
    for file, old, _ in pairs:
        if old in texts[file]:
            places.add(function_at(file, texts[file].index(old), texts) if file.startswith("src/") else "")
    return Mutant(name, pairs, frozenset() if "" in places else frozenset(places))


def mutants_of(crate):
    """Returns the texts of the crate's mutants by name."""
    found = {}
    for folder in (f"{TOP}/crates/{crate}/must-fail", f"{TOP}/mutants/{crate}"):
        for name in sorted(os.listdir(folder)) if os.path.isdir(folder) else []:
            if name.endswith(".edit"):
                with open(f"{folder}/{name}", encoding="utf-8") as it:
                    found[name[: -len(".edit")]] = it.read()
    return found
