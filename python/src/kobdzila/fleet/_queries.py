"""A follower's queries to the log. The rows of a query are checked while the next ones arrive."""
from __future__ import annotations

import hashlib
import uuid
from collections.abc import Generator, Iterable, Sequence
from typing import Any, NamedTuple

from ._connect import Watched
from ._layout import NO_LOG, Connection, NoLog
from ._log import history_of, seal_of

# The log's layout, epoch and version, and the history up to the publish that a machine shows ($1): whether there is
# anything to do, at a tenth of the cost of NEXT.
HEAD = """
prepare kobdzila_head(bigint) as
select log.layout, (select epoch from kobdzila.epoch order by number desc limit 1),
  (select coalesce(max(version), 0) from kobdzila.publish),
  (select history from kobdzila.publish where version = $1)
from kobdzila.log
"""

# The log's head, the publish that a machine shows ($1), and the next one with its loads. A machine that lacks more than
# $2 loads gets none, since it takes the last ones. The first row is there even if neither publish is.
NEXT = """
prepare kobdzila_next(bigint, bigint) as
select head.layout, head.epoch, head.newest, head.cut, p.version, p.id, p.loads, p.history,
  l.version, l.domain, l.locale, l.sum, l.seal, f.mo
from (select log.layout, log.cut, (select epoch from kobdzila.epoch order by number desc limit 1) as epoch,
    (select coalesce(max(version), 0) from kobdzila.publish) as newest from kobdzila.log) head
left join (select * from kobdzila.publish where version >= $1 order by version limit 2) p on true
left join kobdzila.load l on p.version > $1 and l.version > p.version - p.loads and l.version <= p.version
  and p.loads <= $2 and head.newest - $1 <= $2
left join kobdzila.file f on f.sum = l.sum
order by p.version, l.version
"""

# The last load of each domain and locale after version $1, and how many loads the log has. The pairs are found one
# by one in the index, in a fifth of the time of `distinct on` if there are 200 of them in 100,000 loads. Without
# `offset 0` the server would count anew for each row. The first row is there even if no load is.
LAST = """
prepare kobdzila_last(bigint) as
with recursive head as (
  select log.layout, (select epoch from kobdzila.epoch order by number desc limit 1) as epoch,
    coalesce(p.version, 0) as version, coalesce(p.history, '') as history, log.cut, log.kept,
    (select count(*) from kobdzila.load where version <= log.cut) as found_kept,
    (select count(*) from kobdzila.load where version > greatest(log.cut, $1) and version <= p.version) as found
  from kobdzila.log left join
    (select version, history from kobdzila.publish order by version desc limit 1) p on true
  offset 0
), pair as (
  (select domain, locale from kobdzila.load order by domain, locale limit 1)
  union all
  select next.domain, next.locale from pair cross join lateral (
    select domain, locale from kobdzila.load l where (l.domain, l.locale) > (pair.domain, pair.locale)
    order by l.domain, l.locale limit 1) next
)
select head.*, last.* from head left join lateral (
  select l.version, l.domain, l.locale, l.sum, l.seal, f.mo from pair cross join lateral (
    select * from kobdzila.load where domain = pair.domain and locale = pair.locale
    and version > $1 and version <= head.version order by version desc limit 1) l
  left join kobdzila.file f on f.sum = l.sum) last on true
"""


class Damaged(Exception):
    """A row of the log isn't as it was written. Nothing of it is played; the follower tries again."""


class Cut(Exception):
    """The loads of a publish were compacted."""


class Found(NamedTuple):
    """A row of a query: the columns of a Publish or a Head, those of a load, and the load's file.

    They are None if there is no load, or no file.
    """

    head: Sequence[Any]
    load: Sequence[Any]
    mo: bytes | None


class Played(NamedTuple):
    """A load that a machine plays, and the SHA-256 of its file."""

    domain: str
    locale: str
    mo: bytes
    sum: bytes


class Publish(NamedTuple):
    """A publish, as a row of NEXT has it. Its version is None if the log doesn't have it."""

    layout: int
    epoch: str
    newest: int  # version of the log
    cut: int
    version: int
    id: uuid.UUID
    loads: int
    history: bytes


class Head(NamedTuple):
    """The log's newest publish and its numbers of loads, as a row of LAST has them."""

    layout: int
    epoch: str
    version: int
    history: bytes
    cut: int
    kept: int
    found_kept: int
    found: int


COLUMNS = len(Publish._fields)  # of a Publish, and of a Head


def prepare(connection: Connection) -> None:
    """Make the server parse and plan the queries, once for each connection."""
    for query in (HEAD, NEXT, LAST):
        connection.execute(query.encode())


def asked(connection: Watched, query: str, *values: int) -> Generator[Found, None, None]:
    """Yield the rows of a query. The server sends the next ones while others are in use.

    Close it, which ends the query.
    """
    for row in connection.cursor().stream(text_of(connection, query, *values), binary=True):
        yield Found(row[:COLUMNS], row[COLUMNS:-1], row[-1])


def head_of(connection: Watched, version: int) -> tuple[int, str, int, bytes | None]:
    """Return the log's layout, epoch and version, and the history up to a version, or None if no publish has it."""
    row = connection.execute(text_of(connection, "head", version), binary=True).fetchone()
    if row is None:
        raise NoLog(NO_LOG)
    layout, epoch, newest, history = row
    return layout, epoch, newest, history


def text_of(connection: Watched, query: str, *values: int) -> bytes:
    """Return a prepared query, or its full text if there is a pooler in between: there nothing stays prepared."""
    if not connection.is_pooled:
        return f"execute kobdzila_{query}({', '.join(map(str, values))})".encode()
    text = {"head": HEAD, "next": NEXT, "last": LAST}[query].partition(" as\n")[2]
    for number, value in enumerate(values, 1):
        text = text.replace(f"${number}", f"({value}::bigint)")
    return text.encode()


def epochs_of(connection: Connection) -> list[tuple[str, int]]:
    """Return the log's epochs, oldest first, and after which version each one began."""
    rows = connection.execute("select epoch, after from kobdzila.epoch order by number")
    return [(str(epoch), int(after)) for epoch, after in rows]


def check_count(head: Head, mine: int) -> None:
    """Check that no load of the log is missing but those that were compacted."""
    first = max(head.cut, mine)
    parts = [(first, head.version, head.found, head.version - first)]
    if mine < head.cut:
        parts.append((0, head.cut, head.found_kept, head.kept))
    for after, last, found, count in parts:
        if found != max(0, count):
            raise Damaged(f"the log has {found} loads after {after} up to {last}, and not {count}")


def loads_of(publish: Publish, rows: Iterable[Found], mine: int, history: bytes) -> list[Played]:
    """Return the loads of the publish that follows version `mine` and its history."""
    first = publish.version - publish.loads
    if first != mine:
        raise Damaged(f"publish {publish.version} of the log doesn't follow {mine}")
    loads, seals = [], []
    for row in rows:
        version, *_, seal = row.load
        if version is not None:
            loads.append(checked(row))
            seals.append(seal)
    if len(loads) != publish.loads:
        if first < publish.cut:
            raise Cut
        raise Damaged(f"publish {publish.version} of the log has {len(loads)} of its {publish.loads} loads")
    if history_of(history, publish.id, seals) != publish.history:
        raise Damaged(f"publish {publish.version} of the log has another history than its loads")
    return loads


def checked(row: Found) -> Played:
    """Return a load of the log, whose row and file must be as they were written."""
    version, domain, locale, total, seal = row.load
    if seal_of(version, domain, locale, total) != seal:
        raise Damaged(f"load {version} of the log, {domain}/{locale}: its row was changed")
    if row.mo is None or hashlib.sha256(row.mo).digest() != total:
        raise Damaged(f"load {version} of the log, {domain}/{locale}: its file has another sum")
    return Played(domain, locale, row.mo, total)
