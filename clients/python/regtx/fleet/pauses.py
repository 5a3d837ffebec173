"""The end of a program that waits for others, and how long it waits before it tries again."""
from __future__ import annotations

import random
import signal
import sys
import time
from contextlib import contextmanager
from typing import Iterator

FIRST_PAUSE, LONGEST_PAUSE = 0.1, 30.0


class Ended(BaseException):
    """The program was told to end."""


class Ending:
    """Whether the program was told to end, by SIGTERM or SIGINT. What waits is interrupted, and what is at work isn't."""

    def __init__(self) -> None:
        self.is_told = self._is_waiting = False

    def install(self) -> None:
        for number in (signal.SIGTERM, signal.SIGINT):
            signal.signal(number, self._tell)

    def _tell(self, *_: object) -> None:
        self.is_told = True
        if self._is_waiting:
            self._is_waiting = False
            raise Ended()

    @contextmanager
    def waiting(self) -> Iterator[None]:
        """Within this the end is raised, at any moment."""
        was, self._is_waiting = self._is_waiting, True
        try:
            if self.is_told:
                raise Ended()
            yield
        finally:
            self._is_waiting = was

    def check(self) -> None:
        if self.is_told:
            raise Ended()

    def sleep(self, seconds: float) -> None:
        with self.waiting():
            time.sleep(seconds)


class Pauses:
    """Growing pauses, a part of each by chance, so that a fleet doesn't come at once."""

    def __init__(self, ending: Ending):
        self._ending, self._longest, self._pause = ending, LONGEST_PAUSE, FIRST_PAUSE
        self._told = ""

    def after(self, why: BaseException) -> None:
        """Says why, once in a row, and waits."""
        text = str(why) or type(why).__name__
        if text != self._told:
            say(f"{text}; trying again")
        self._told = text
        self._ending.sleep(self._pause * random.uniform(0.5, 1))
        self._pause = min(2 * self._pause, self._longest)

    def over(self) -> None:
        """It works again."""
        self._pause, self._told = FIRST_PAUSE, ""


def say(text: str) -> None:
    print(f"regtx-replicate: {text}", file=sys.stderr, flush=True)
