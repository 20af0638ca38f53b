# SPDX-License-Identifier: Apache-2.0
"""What a search may take: so many seconds, and so many runs of the program at once."""
from __future__ import annotations

import os
import time
from collections import deque
from collections.abc import Callable, Iterable, Iterator
from concurrent.futures import ThreadPoolExecutor
from dataclasses import dataclass, field
from typing import TypeVar

Item = TypeVar("Item")
SECONDS = 30
# So many items a job are asked about ahead.
AHEAD = 3


def processors() -> int:
    """How many of them this process may run on."""
    return len(os.sched_getaffinity(0)) if hasattr(os, "sched_getaffinity") else os.cpu_count() or 1


@dataclass
class Effort:
    """The seconds from now on, and the runs at once."""

    seconds: float = SECONDS
    jobs: int = 1
    begun: float = field(default_factory=time.monotonic)

    @property
    def is_over(self) -> bool:
        return self.is_over_by(1)

    def is_over_by(self, part: float) -> bool:
        """Whether this part of the seconds is over."""
        return time.monotonic() - self.begun > self.seconds * part

    def behind(self, part: float) -> Callable[[], bool]:
        """Whether this part of the seconds is over, from now on."""
        end = time.monotonic() + self.seconds * part
        return lambda: self.is_over or time.monotonic() > end

    def ahead(self, items: Iterable[Item], ask: Callable[[Item], object]) -> Iterator[Item]:
        """The items in order until the time is over, each when it was asked about; that is done for some of them at
        once."""
        if self.jobs == 1:
            yield from self.in_time(items)
            return
        pool = ThreadPoolExecutor(self.jobs)
        try:
            waiting: deque = deque()
            for item in self.in_time(items):
                waiting.append((item, pool.submit(ask, item)))
                if len(waiting) > AHEAD * self.jobs:
                    yield self.asked(waiting)
            while waiting and not self.is_over:
                yield self.asked(waiting)
        except RuntimeError as fault:
            # Python says so where there is no memory for a thread.
            raise MemoryError from fault
        finally:
            pool.shutdown(cancel_futures=True)

    def in_time(self, items: Iterable[Item]) -> Iterator[Item]:
        for item in items:
            if self.is_over:
                return
            yield item

    def asked(self, waiting: deque) -> Item:
        item, answer = waiting.popleft()
        answer.result()
        return item
