# SPDX-License-Identifier: Apache-2.0
"""How a tool ends: 0 and 1 are answers, and what keeps it from an answer has a status of its own, with a sentence."""
import os
import signal
import sys
import traceback

UNABLE = 70


class Unable(Exception):
    """What was asked can't be done; the text says why."""


def end(main):
    """Ends the process by the status that `main` returns."""
    try:
        status = main()
        sys.stdout.flush()
    except Unable as why:
        print(f"{os.path.basename(sys.argv[0])}: {why}", file=sys.stderr)
        status = UNABLE
    except BrokenPipeError:
        # as other commands end where nobody reads any more
        signal.signal(signal.SIGPIPE, signal.SIG_DFL)
        os.kill(os.getpid(), signal.SIGPIPE)
    except Exception:
        # Python would end with status 1, which says that something was found.
        traceback.print_exc()
        status = UNABLE
    sys.exit(status)
