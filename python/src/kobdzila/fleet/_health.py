"""Whether a machine can answer, and why it isn't following: for load balancers and operators."""
from __future__ import annotations

import json
from typing import Any, NamedTuple

from ._report import Report


class Health(NamedTuple):
    """What a machine reports about itself.

    `state` is "joins" before it has translations, "follows", "older" while it shows what its cache had, "trouble", or
    "stopped". `looked` is the number of seconds since the log last answered, or None if it never has. `is_ready` says
    whether the machine has translations: one that isn't following keeps answering with those that it has.
    """

    machine: str
    state: str
    version: str
    trouble: str | None
    looked: float | None
    loads: int
    refusals: int
    reconnects: int
    restarts: int
    is_alive: bool
    is_ready: bool

    @property
    def status(self) -> int:
        """The HTTP status: 200 if it is ready, and 503 if not."""
        return 200 if self.is_ready else 503

    def json(self) -> str:
        """Return the health as one JSON object."""
        return json.dumps(self._asdict())


def health_of(machine: str, report: Report, looked: float | None, **others: Any) -> Health:
    """Return the health of a machine that would report this."""
    return Health(machine, report.state, report.version.token, report.trouble, looked, report.loads, report.refusals,
                  report.reconnects, **others)
