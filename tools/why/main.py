#!/usr/bin/env python3
# SPDX-License-Identifier: Apache-2.0
"""From a refusal to the fix: the words `why`, `findings`, `shrink`, `pending`, `partial` and `check --format` of the script ./bbm.

    main.py WORD [OPERAND..] [--log=NAME] [--OPTION[=VALUE]..]

The script calls it with the log at standard input, and NAME where that was given as a file; BBM is the program. The exit status
is 40 more than that which the script ends with: Python itself ends with 1, 2 or 120 where it fails, and so with no answer.
docs/WHY.md says what each word prints, and docs/OUTPUT.md the exact forms.
"""
import os
import sys

ANSWERED, UNWRITTEN, NO_MEMORY, UNABLE = 40, 5, 6, 70


def told(status, text):
    """The status of a fault, which standard error says, where it is said anywhere."""
    try:
        os.write(2, f"bbm: {text}\n".encode(errors="backslashreplace"))
    except OSError:
        pass
    return status


def end_of(fault):
    """The status for a fault."""
    if isinstance(fault, MemoryError):
        return told(NO_MEMORY, "there was no memory, so there is no answer")
    if isinstance(fault, BrokenPipeError):
        # as other tools end where nobody reads any more
        import signal
        signal.signal(signal.SIGPIPE, signal.SIG_DFL)
        os.kill(os.getpid(), signal.SIGPIPE)
        return UNWRITTEN
    if isinstance(fault, ImportError):
        return told(UNABLE, f"a part of Python or of tools/why can't be loaded, so there is no answer: {fault}")
    if hasattr(fault, "status"):
        return told(fault.status, fault)
    import traceback
    traceback.print_exc()
    return told(UNABLE, "that is a fault of tools/why, so there is no answer")


def status_of(items):
    """The status of the word, where a fault ends it too: what it is was said then."""
    try:
        if not sys.stdout:
            return told(UNWRITTEN, "a write of the answer failed: standard output is closed")
        sys.path[0] = os.path.dirname(sys.path[0])
        from why import commands
        return commands.run(*items)
    except Exception as fault:
        try:
            return end_of(fault)
        except Exception:
            # (what was to say it couldn't be loaded)
            return told(UNABLE, f"{type(fault).__name__}, and no more is known, so there is no answer")


if __name__ == "__main__":
    # Python's own end would write again what couldn't be written, and end with a status of its own.
    os._exit(ANSWERED + status_of(sys.argv[1:]))
