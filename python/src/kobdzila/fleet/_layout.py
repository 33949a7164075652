"""The log's tables: what `init` creates and upgrades, its roles, and where the log was made."""
from __future__ import annotations

from typing import Any, TypeAlias

import psycopg

from ._version import new_epoch

Connection: TypeAlias = "psycopg.Connection[Any]"

LAYOUT = 2
ALONE = "select pg_advisory_xact_lock(hashtext('kobdzila'))"
NO_LOG = "this database has no log: kob-fleet init creates one"
RESTORED = ("this log was made in another database or server, so it was restored from a backup or copied: "
            "kob-fleet restore begins a new epoch of it")
# Which server and database this is. A restored dump is in another one, and so is a copy.
ORIGIN = """(select c.system_identifier || '/' || d.oid
  from pg_control_system() c, pg_database d where d.datname = current_database())"""

MACHINE = """
create table kobdzila.machine (
  name text not null,
  process text not null,  -- HOST:PID:SUFFIX
  epoch text not null,
  version bigint not null,
  state text not null,
  trouble text,
  loads bigint not null,  -- since the follower's start, as are the next ones
  refusals bigint not null,
  reconnects bigint not null,
  seen timestamptz not null default clock_timestamp(),
  primary key (name, process)
) with (fillfactor = 50);
"""
EPOCH = f"""
create table kobdzila.epoch (
  number integer primary key,
  epoch text not null unique check (epoch ~ '^[0-9a-f]{{16}}$'),
  after bigint not null,  -- the log's version when it began
  note text not null,
  begun timestamptz not null default clock_timestamp()
);
"""
TABLES = f"""
create table kobdzila.log (
  one boolean primary key default true check (one),
  layout integer not null,
  cut bigint not null default 0,  -- up to this version, only the last load of each domain and locale is kept
  kept bigint not null default 0,  -- the number of those
  origin text not null,  -- the server and the database that the log was made in, or restored to
  touched bigint not null default 0  -- how often a publish was asked for again
);
{EPOCH}
create table kobdzila.file (
  sum bytea primary key,  -- SHA-256
  mo bytea not null
);
alter table kobdzila.file alter mo set storage external;
create table kobdzila.publish (
  version bigint primary key,  -- the number of its last load
  id uuid not null unique,
  loads bigint not null,
  history bytea not null,  -- SHA-256 of this and all earlier publishes
  note text not null,
  published timestamptz not null default clock_timestamp(),
  epoch text not null references kobdzila.epoch (epoch)
);
create table kobdzila.load (
  version bigint primary key,  -- the number of the load
  domain text collate "C" not null,
  locale text collate "C" not null,
  sum bytea not null references kobdzila.file,
  seal bytea not null  -- SHA-256 of the other columns
);
create index load_pair on kobdzila.load (domain, locale, version desc);
create index load_sum on kobdzila.load (sum);
{MACHINE}
insert into kobdzila.log (layout, origin) values ({LAYOUT}, {ORIGIN});
insert into kobdzila.epoch (number, epoch, after, note) values (1, '%(epoch)s', 0, 'init');
"""
# Layout 1 had no epochs, and one row for each name of a machine.
UPGRADES = {1: f"""
{EPOCH}
insert into kobdzila.epoch (number, epoch, after, note) values (1, '%(epoch)s', 0, 'upgrade from layout 1');
alter table kobdzila.log add origin text, add touched bigint not null default 0;
update kobdzila.log set layout = 2, origin = {ORIGIN};
alter table kobdzila.log alter origin set not null;
alter table kobdzila.publish add epoch text not null default '%(epoch)s' references kobdzila.epoch (epoch);
alter table kobdzila.publish alter epoch drop default;
drop table kobdzila.machine;
{MACHINE}
"""}

FOLLOWER, PUBLISHER, OPERATOR = ROLES = ("kobdzila_follower", "kobdzila_publisher", "kobdzila_operator")
# What each role may do, and no more. `for update` needs the right to update one column of the row.
GRANTS = f"""
grant usage on schema kobdzila to {FOLLOWER}, {PUBLISHER}, {OPERATOR};
grant select on all tables in schema kobdzila to {FOLLOWER}, {PUBLISHER}, {OPERATOR};
grant insert, update, delete on kobdzila.machine to {FOLLOWER};
grant insert on kobdzila.publish, kobdzila.load, kobdzila.file to {PUBLISHER}, {OPERATOR};
grant update (mo) on kobdzila.file to {PUBLISHER}, {OPERATOR};
grant update (touched) on kobdzila.log to {PUBLISHER};
grant update (touched, cut, kept, origin) on kobdzila.log to {OPERATOR};
grant delete on kobdzila.load, kobdzila.file, kobdzila.machine to {OPERATOR};
grant insert on kobdzila.epoch to {OPERATOR};
"""


class NoLog(Exception):
    """The database has no log that this program can use."""


class Restored(NoLog):
    """The log was restored or copied. Nothing is published before `restore` has begun a new epoch."""

    def __init__(self, why: str = RESTORED) -> None:
        super().__init__(why)


def create(connection: Connection, upgrade: bool) -> None:
    """Create the tables, or upgrade those of an earlier layout if `upgrade` says so. All or nothing."""
    with connection.transaction():
        connection.execute(ALONE)
        found = layout_of(connection)
        if found is None:
            # (`if not exists` needs the right to create schemas even if this one is there)
            if connection.execute("select to_regnamespace('kobdzila') is null").fetchone() == (True,):
                connection.execute("create schema kobdzila")
            connection.execute((TABLES % {"epoch": new_epoch()}).encode())
        elif found in UPGRADES and upgrade:
            connection.execute((UPGRADES[found] % {"epoch": new_epoch()}).encode())
        else:
            check_layout(found)


def create_roles(connection: Connection) -> None:
    """Create the three roles, unless they are there, and give them exactly what they need."""
    with connection.transaction():
        connection.execute(ALONE)  # (the server can't change the rights of one table twice at once)
        owner = connection.execute(
            "select pg_has_role(nspowner, 'usage') from pg_namespace where nspname = 'kobdzila'").fetchone()
        if not (owner and owner[0]):
            raise psycopg.errors.InsufficientPrivilege("only the owner of the schema kobdzila can give its roles their rights")
        there = {row[0] for row in connection.execute("select rolname from pg_roles where rolname = any(%s)",
                                                      (list(ROLES),))}
        for role in ROLES:
            if role in there:
                connection.execute(f"revoke all on all tables in schema kobdzila from {role}".encode())
            else:
                connection.execute(f"create role {role} nologin".encode())
        connection.execute(GRANTS.encode())


def layout_of(connection: Connection) -> int | None:
    """Return the layout of the log, or None if there is no log."""
    row = connection.execute("select to_regclass('kobdzila.log') is not null").fetchone()
    if row is None or not row[0]:
        return None
    row = connection.execute("select layout from kobdzila.log").fetchone()
    return None if row is None else int(row[0])


def check_layout(layout: int | None) -> None:
    """NoLog if this program doesn't know the layout."""
    if layout is None:
        raise NoLog(NO_LOG)
    if layout in UPGRADES:
        raise NoLog(f"the log has layout {layout}: kob-fleet init --upgrade brings it to {LAYOUT}")
    if layout != LAYOUT:
        raise NoLog(f"the log has layout {layout}, and this program knows {LAYOUT}: install a later one")
