"""Many machines at one version: a log of loads in PostgreSQL.

A Log adds publishes to the log; a Follower on each machine plays them into its store. Both need psycopg 3, which is
the extra `fleet` of this package (python3-psycopg in Debian). The program kob-fleet does both from a shell.
"""
from importlib import import_module
from typing import TYPE_CHECKING, Any

if TYPE_CHECKING:
    from ._cache import CacheRefused
    from ._follow import Follower
    from ._health import Health
    from ._layout import NoLog, Restored
    from ._log import Load, Log, Machine, RestoreUnanswered, Row, Status, Unanswered
    from ._metrics import metrics
    from ._player import Difference, StoreFailed
    from ._queries import Damaged
    from ._store import Behind, FollowerSnapshot, FollowerStore, SessionTexts
    from ._version import Version
    from ._web import ASGIMiddleware, WSGIMiddleware

__all__ = [
    "ASGIMiddleware",
    "Behind",
    "CacheRefused",
    "Damaged",
    "Difference",
    "Follower",
    "FollowerSnapshot",
    "FollowerStore",
    "Health",
    "Load",
    "Log",
    "Machine",
    "NoLog",
    "RestoreUnanswered",
    "Restored",
    "Row",
    "SessionTexts",
    "Status",
    "StoreFailed",
    "Unanswered",
    "Version",
    "WSGIMiddleware",
    "metrics",
]
_LATER = {
    "_cache": ("CacheRefused",),
    "_follow": ("Follower",),
    "_health": ("Health",),
    "_layout": ("NoLog", "Restored"),
    "_log": ("Load", "Log", "Machine", "RestoreUnanswered", "Row", "Status", "Unanswered"),
    "_metrics": ("metrics",),
    "_player": ("Difference", "StoreFailed"),
    "_queries": ("Damaged",),
    "_store": ("Behind", "FollowerSnapshot", "FollowerStore", "SessionTexts"),
    "_version": ("Version",),
    "_web": ("ASGIMiddleware", "WSGIMiddleware"),
}

if not TYPE_CHECKING:  # (a checker would take it for a promise of any name)
    def __getattr__(name: str) -> Any:
        """Import a name when it is first used, so that `kob-fleet --help` works without psycopg."""
        for module, names in _LATER.items():
            if name in names:
                return getattr(import_module(f"{__name__}.{module}"), name)
        raise AttributeError(f"module {__name__!r} has no attribute {name!r}")
