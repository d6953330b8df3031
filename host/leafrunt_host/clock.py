"""Steps of the machine's clock, which `routerd` goes by: seen beside the clock that nobody sets."""
from __future__ import annotations

import time
from collections.abc import Callable
from dataclasses import dataclass

LEAST = 1.0
"""Seconds: `routerd` counts whole ones. A clock that is slewed moves less between two looks."""
TOLD = 3600.0
"""Seconds for which a step is told of."""


def moment_text(moment: float) -> str:
    return time.strftime("%Y-%m-%d %H:%M:%S", time.localtime(moment))


@dataclass(frozen=True)
class Step:
    """By how many seconds the clock was set forward, and when, by the clock that nobody sets and by
    the one that was set."""

    seconds: float
    at: float
    moment: float

    def news(self) -> str:
        """What happened, and what comes of it."""
        if self.seconds > 0:
            return (
                f"the clock was set forward by {self.seconds:.0f} s: adjacencies with a shorter "
                "RouterDeadInterval are lost, and come back"
            )
        return (
            f"the clock was set back by {-self.seconds:.0f} s: `routerd` sends no Hello until it "
            "has caught up, so neighbors drop this router: start the box again"
        )

    def remark(self, now: float, later: float = 0.0) -> str | None:
        """What is still to be said of it now; None if nothing is. By so many seconds the clock was
        set since."""
        passed = now - self.at
        if self.seconds > 0:
            when = moment_text(self.moment)
            return f"{self.news()} (at {when})" if passed < TOLD else None
        left = -self.seconds - passed - later
        return f"{self.news()} (or wait {left:.0f} s more)" if left > 0 else None


class Clock:
    """Looks at both clocks."""

    def __init__(
        self,
        wall: Callable[[], float] = time.time,
        steady: Callable[[], float] = time.monotonic,
    ) -> None:
        self._wall, self._steady = wall, steady
        self._apart = wall() - steady()

    def look(self) -> Step | None:
        """The step since the last look; None if there was none."""
        steady = self._steady()
        apart = self._wall() - steady
        seconds, self._apart = apart - self._apart, apart
        return Step(seconds, steady, apart + steady) if abs(seconds) >= LEAST else None
