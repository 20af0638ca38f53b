# SPDX-License-Identifier: Apache-2.0
"""The crates of this checkout, as crates.txt lists them."""
import functools
import pathlib

TOP = pathlib.Path(__file__).resolve().parent.parent


@functools.lru_cache(None)
def edges():
    """What each crate uses, in the order of the list; also libraries of other projects, which have no row."""
    lines = (TOP / "crates.txt").read_text(encoding="utf-8").splitlines()
    rows = [line.partition("#")[0].partition(":") for line in lines]
    return {name.strip(): uses.split() for name, colon, uses in rows if colon}


@functools.lru_cache(None)
def below(crate):
    """All that a crate stands on, each behind what it stands on itself."""
    return tuple(dict.fromkeys(it for use in edges().get(crate, ()) for it in (*below(use), use)))


def program():
    """The crates of the program, its own last, each behind those that it stands on."""
    return [*(it for it in below("bbm_cli") if it in edges()), "bbm_cli"]
