"""What an operator sees and does: names, states, statuses, numbers, roles, the log's layout, and texts of others."""
from __future__ import annotations

import contextlib
import errno
import io
import json
import os
import re
import shutil
import signal
import socket
import stat
import struct
import subprocess
import sys
import tempfile
import textwrap
import threading
import time
import unittest
import urllib.request
from pathlib import Path
from typing import Any
from unittest import mock

import psycopg

import kobdzila
import servers
from cases import LogCase
from kobdzila.fleet import Follower, Log, NoLog, Version, _command, _daemon, _layout, _log, _metrics, metrics
from stores import NO_SESSION, Catalogues, has_catsession, loads, mo, until

# the tables of layout 1, as they were
LAYOUT_1 = """
create schema kobdzila;
create table kobdzila.log (one boolean primary key default true check (one), layout integer not null,
  cut bigint not null default 0, kept bigint not null default 0);
insert into kobdzila.log (layout) values (1);
create table kobdzila.file (sum bytea primary key, mo bytea not null);
create table kobdzila.publish (version bigint primary key, id uuid not null unique, loads bigint not null,
  history bytea not null, note text not null, published timestamptz not null default clock_timestamp());
create table kobdzila.load (version bigint primary key, domain text collate "C" not null,
  locale text collate "C" not null, sum bytea not null references kobdzila.file, seal bytea not null);
create index load_pair on kobdzila.load (domain, locale, version desc);
create index load_sum on kobdzila.load (sum);
create table kobdzila.machine (name text primary key, version bigint not null, trouble text,
  seen timestamptz not null default clock_timestamp());
"""
TOP = Path(__file__).resolve().parents[2]
GOOD_CALLS = (b"gettext\t", b"pgettext\t\\n\\t\\\\\tc", b"ngettext\tc\td\t00018446744073709551615",
              b"npgettext\ta\tb\tc\t0")
BAD_CALLS = (b"gettext", b"gettext\tc\td", b"dgettext\tc", b"gettext\t\\x", b"pgettext\tc\\\tn", b"gettext\t\xff",
             b"ngettext\tc\td\t-1", b"ngettext\tc\td\t18446744073709551616", b"npgettext\tc\td\te\t")


class CommandCase(LogCase):
    def command(self, *words: str, database: str | None = None) -> tuple[int, str, str]:
        """Run kob-fleet in this process."""
        out, error = io.StringIO(), io.StringIO()
        with contextlib.redirect_stdout(out), contextlib.redirect_stderr(error):
            try:
                status = _command.main(["-d", database or self.address, *words])
            except SystemExit as ended:
                status = int(ended.code or 0)
        return status, out.getvalue(), error.getvalue()

    def row(self, name: str, process: str, version: int = 0, state: str = "follows", seen: int = 0,
            trouble: str | None = None, epoch: str | None = None) -> None:
        self.sql("insert into kobdzila.machine (name, process, epoch, version, state, trouble, loads, refusals, reconnects,"
                 " seen) values (%s, %s, coalesce(%s, (select epoch from kobdzila.epoch order by number desc limit 1)), %s,"
                 " %s, %s, 3, 2, 1, clock_timestamp() - make_interval(secs => %s))",
                 name, process, epoch, version, state, trouble, seen)


class StatusTest(CommandCase):
    def test_two_followers_of_one_name(self) -> None:
        """One row for each: a dead one isn't hidden by the other."""
        first, second = self.follower(machine="web1"), self.follower(machine="web1")
        self.log.publish(loads(1))
        for it in (first, second):
            it.wait_for(2, 100)
        second.store.load("z", "fr", mo(9))
        second.store.publish()
        self.log.publish(loads(2))
        until(lambda: second.stopped)

        def one_of_each() -> Any:
            machines = {it.state: it for it in self.log.status().machines}
            return machines if set(machines) == {"follows", "stopped"} else None

        found = until(one_of_each)
        self.assertEqual({it.name for it in found.values()}, {"web1"})
        self.assertEqual((found["follows"].is_dead, found["stopped"].is_dead), (False, True))
        self.assertEqual(self.command("status", "--check")[0], 2)

    def test_what_a_check_says(self) -> None:
        self.log.publish(loads(1))
        self.assertEqual(self.command("status", "--check")[0], 0)
        self.row("a", "h:1:x", 2)
        self.assertEqual(self.command("status", "--check")[0], 0)
        self.row("b", "h:2:x", 0)
        self.assertEqual(self.command("status", "--check")[0], 0)  # (for less than ten seconds)
        self.assertEqual(self.command("status", "--check", "--late", "0")[0], 1)
        self.row("c", "h:3:x", 2, seen=40)
        self.assertEqual(self.command("status", "--check")[0], 2)
        self.assertEqual(self.command("status")[0], 0)
        nowhere = f"host=127.0.0.1 port={servers.free_port()}"
        self.assertEqual(self.command("status", "--check", database=nowhere)[0], 3)
        said = json.loads(self.command("status", "--json", "--check")[1])
        self.assertEqual([(it["name"], it["is_dead"], it["version"]) for it in said["machines"]],
                         [("a", False, 2), ("b", False, 0), ("c", True, 2)])
        self.assertRegex(said["epoch"], r"\A[0-9a-f]{16}\Z")

    def test_closing_says_goodbye(self) -> None:
        follower = self.follower(machine="web1")
        until(lambda: self.log.status().machines)
        follower.close()
        self.assertEqual(self.log.status().machines, [])

    def test_the_end_of_a_process_says_goodbye(self) -> None:
        program = ("import sys, kobdzila; from kobdzila.fleet import Follower, Log; log = Log(sys.argv[1])\n"
                   "follower = Follower(kobdzila.Store('app'), sys.argv[1], 'web1')\nfollower.start()\n"
                   "while not log.status().machines: pass\nlog.close()")
        subprocess.run([sys.executable, "-c", program, self.address], check=True, timeout=100)
        self.assertEqual(self.log.status().machines, [])

    def test_what_a_dead_process_left(self) -> None:
        """The next follower of the name on this host deletes it, even if it has the same number, as in a container that
        was restarted. A row of another host stays."""
        host = socket.gethostname()
        child = os.fork()
        if child == 0:
            os._exit(0)
        os.waitpid(child, 0)
        self.row("web1", f"{host}:{child}:0000")
        self.row("web1", f"{host}:{os.getpid()}:0000")
        self.row("web1", f"{host}:1:0000")
        self.row("web1", f"other:{child}:0000")
        self.row("web2", f"{host}:{child}:0000")
        follower = self.follower(machine="web1")
        mine = follower._reporter.process
        found = until(lambda: [(it.name, it.process) for it in self.log.status().machines]
                      if mine in [it.process for it in self.log.status().machines] else None)
        self.assertEqual(sorted(found), sorted([("web1", mine), ("web1", f"{host}:1:0000"), ("web1", f"other:{child}:0000"),
                                                ("web2", f"{host}:{child}:0000")]))

    def test_forget(self) -> None:
        self.row("a", "h:1:x")
        self.row("a", "h:2:x")
        self.row("b", "h:3:x")
        self.assertEqual(self.command("forget", "h:2:x")[:2], (0, "forgotten: 1\n"))
        self.assertEqual(self.command("forget", "a")[:2], (0, "forgotten: 1\n"))
        self.assertEqual(self.command("forget", "a")[0], 1)
        self.assertEqual([it.name for it in self.log.status().machines], ["b"])

    def test_wait(self) -> None:
        follower = self.follower()
        until(lambda: self.log.status().machines)
        token = self.command("publish", "--token", f"app/fr={self.file('fr.mo', mo(1))}")[1].strip()
        self.assertRegex(token, r"\A[0-9a-f]{16}\.1\Z")
        self.assertEqual(self.command("wait", token, "--within", "100")[:2], (0, "version 1 on all 1 machines\n"))
        self.assertEqual(self.command("wait", "1")[0], 0)
        self.row("dead", "h:1:x", 1, seen=40)
        status, _, said = self.command("wait", token, "--within", "2")
        self.assertEqual(status, 1)
        self.assertRegex(said, r"dead h:1:x is at [0-9a-f]{16}\.1, silent")
        self.command("forget", "dead")
        status, _, said = self.command("wait", "9", "--within", "2")
        self.assertEqual(status, 1)
        self.assertIn("kob-fleet: the log is at version 1\n", said)
        self.assertEqual(self.command("wait", f"{'0' * 16}.1", "--within", "2")[0], 1)
        self.assertEqual(self.command("wait", "x")[0], 64)
        self.assertIsNone(follower.stopped)

    def file(self, name: str, data: bytes) -> str:
        room = tempfile.mkdtemp()
        self.addCleanup(lambda: [path.unlink() for path in Path(room).iterdir()] and Path(room).rmdir())
        path = Path(room, name)
        path.write_bytes(data)
        return str(path)

    def test_remove(self) -> None:
        follower = self.follower()
        self.log.publish(loads(1))
        self.assertEqual(self.text(follower, at_least=2), "k1 at 1")
        self.assertEqual(self.command("remove", "app/fr"), (0, "version 3\n", ""))
        self.assertEqual([self.text(follower, it, 3) for it in ("app", "mail")], ["k1", "k1 at 1"])
        self.assertEqual(self.log.history(1)[0].note, "remove app/fr")
        self.assertEqual(self.command("remove", "none/fr")[::2], (1, "kob-fleet: the log has no catalogue none/fr\n"))
        self.assertEqual(self.command("remove", "x")[0], 64)

    def test_usage_has_a_status_of_its_own(self) -> None:
        """2 is for an answer that was lost."""
        for words in (["publish"], ["publish", "--id", "x", "a/fr=a.po"], ["nonsense"], ["wait"], ["status", "--x"], [],
                      ["wait", "--within", "nan", "1"], ["compact", "--seen-within", "-1"], ["status", "--late", "x"]):
            self.assertEqual(self.command(*words)[0], 64, words)

    def test_a_publish_that_may_take_for_ever(self) -> None:
        name = self.file("fr.mo", mo(1))
        for version, seconds in enumerate(("inf", "1e12"), 1):
            status, text, said = self.command("publish", "--within", seconds, f"app/fr={name}")
            self.assertEqual((status, text, said), (0, f"version {version}\n", ""))

    def test_a_publish_too_large_for_sessions(self) -> None:
        large = f'msgid "k"\nmsgstr "{"x" * 34_000_000}"\n'.encode()
        name = self.file("large.mo", kobdzila.Catalogue.from_po(large).mo_file())
        status, _, said = self.command("publish", f"app/fr={name}")
        self.assertEqual((status, self.log.status().version), (1, 0))
        self.assertIn("more than catsession takes in one step", said)
        self.assertEqual(self.command("publish", "--force", f"app/fr={name}")[:2], (0, "version 1\n"))

    def test_what_others_wrote_is_escaped(self) -> None:
        forged = "x\n9  2026-01-01 00:00:00  app/fr\x1b[2K\u202e\\"
        self.log.publish(loads(1), note=forged)
        text = self.command("history")[1]
        self.assertEqual(len(text.splitlines()), 1)
        self.assertIn(r"x\n9  2026-01-01 00:00:00  app/fr\x1b[2K\u202e\\", text)
        self.row("evil\nb  ok", "h\r:1:x", 2, "trouble", trouble="a\nmachine c\tis well")
        lines = self.command("status")[1].splitlines()
        self.assertEqual(len(lines), 3)
        self.assertIn(r"evil\nb  ok  h\r:1:x", lines[2])
        self.assertIn(r"trouble: a\nmachine c\tis well", lines[2])


class NumbersTest(CommandCase):
    FORM = re.compile(r'(# (HELP|TYPE) kobdzila_\w+ .+|kobdzila_\w+(\{(\w+="([^"\\\n]|\\[\\n"])*",?)*\})? [-+0-9.e]+)')

    def test_prometheus(self) -> None:
        """Each line has the form of Prometheus' text format 0.0.4, and each family comes after its HELP and TYPE."""
        self.log.publish(loads(1))
        self.row('we"b\\1\n', "h:1:x", 1, trouble="x")
        self.row("web2", "h:2:x", 2, seen=40)
        status, text, _ = self.command("metrics")
        self.assertEqual(status, 0)
        for line in text.splitlines():
            self.assertRegex(line, rf"\A{self.FORM.pattern}\Z")
        epoch = self.log.status().version.epoch
        for line in (f'kobdzila_log_version{{epoch="{epoch}"}} 2', "kobdzila_log_publishes_total 1",
                     r'kobdzila_machine_behind_versions{machine="we\"b\\1\n",process="h:1:x"} 1',
                     'kobdzila_machine_up{machine="web2",process="h:2:x"} 0',
                     'kobdzila_machine_loads_total{machine="web2",process="h:2:x"} 3',
                     'kobdzila_machine_refusals_total{machine="web2",process="h:2:x"} 2',
                     'kobdzila_machine_reconnects_total{machine="web2",process="h:2:x"} 1',
                     'kobdzila_machine_state{machine="web2",process="h:2:x",state="follows"} 1'):
            self.assertIn(line, text.splitlines())
        kinds = re.findall(r"# TYPE (\S+) (\S+)", text)
        self.assertEqual({name.endswith("_total") for name, kind in kinds if kind == "counter"}, {True})
        self.assertEqual(len(kinds), len(set(kinds)))

    def test_over_http(self) -> None:
        self.check_http("127.0.0.1", "127.0.0.1")

    @unittest.skipUnless(servers.has_ipv6(), "no IPv6")
    def test_over_http_and_ipv6(self) -> None:
        self.check_http("::1", "[::1]")

    def check_http(self, host: str, written: str) -> None:
        with _metrics.served((host, 0), lambda: metrics(self.log.status())) as server:
            threading.Thread(target=server.serve_forever, daemon=True).start()
            with urllib.request.urlopen(f"http://{written}:{server.server_port}/metrics", timeout=10) as answer:
                self.assertEqual(answer.headers["Content-Type"], "text/plain; version=0.0.4; charset=utf-8")
                self.assertIn(b"kobdzila_log_version", answer.read())
            server.shutdown()
        with mock.patch.object(_metrics.ThreadingHTTPServer, "serve_forever", side_effect=KeyboardInterrupt):
            status, _, said = self.command("metrics", "--listen", f"{written}:0")
        self.assertEqual(status, 0)
        self.assertRegex(said, rf"\Akob-fleet: metrics on http://{re.escape(written)}:[0-9]+/metrics\n\Z")

    def test_a_scrape_that_is_given_up(self) -> None:
        """Prometheus leaves while the database is slow: the server says nothing of it, and answers the next one."""
        left, said = threading.Event(), io.StringIO()

        def slow() -> str:
            left.wait(60)
            return "x" * 10_000_000

        with contextlib.redirect_stderr(said), _metrics.served(("127.0.0.1", 0), slow) as server:
            threading.Thread(target=server.serve_forever, daemon=True).start()
            with socket.create_connection(server.server_address) as client:
                client.sendall(b"GET /metrics HTTP/1.0\r\n\r\n")
                until(lambda: threading.active_count() > 2)
                client.setsockopt(socket.SOL_SOCKET, socket.SO_LINGER, struct.pack("ii", 1, 0))
            left.set()
            with urllib.request.urlopen(f"http://127.0.0.1:{server.server_port}/metrics", timeout=60) as answer:
                self.assertEqual(len(answer.read()), 10_000_000)
            server.shutdown()
        self.assertEqual(said.getvalue(), "")

    def test_what_a_follower_counts(self) -> None:
        follower = self.follower()
        self.log.publish(loads(1))
        follower.wait_for(2, 100)
        self.sql("select pg_terminate_backend(pid) from pg_stat_activity where query like '%%kobdzila%%'"
                 " and pid <> pg_backend_pid()")
        follower.wait_for(Log(self.address).publish(loads(2)), 100)
        until(lambda: [(it.loads, it.reconnects) for it in Log(self.address).status().machines] == [(4, 1)])


class RolesTest(CommandCase):
    def role(self, name: str) -> str:
        self.sql(f"do $$ begin create role {name}_user login in role {name}; exception when duplicate_object then null;"
                 f" end $$; grant {name} to {name}_user")
        return self.address.replace("user=postgres", f"user={name}_user")

    def test_each_role_can_do_its_own(self) -> None:
        self.assertEqual(self.command("init", "--roles")[0], 0)
        self.assertEqual(self.command("init", "--roles")[0], 0)  # (again)
        follower, publisher, operator = map(self.role, _layout.ROLES)
        with Log(publisher) as log:
            self.assertEqual(log.publish(loads(1)), 2)
            self.assertEqual(log.publish(loads(2)), 4)
            self.assertEqual(log.rollback(2), 6)
            self.assertEqual(log.remove([("app", "fr")]), 7)
            self.sql("update kobdzila.file set mo = 'x'")
            self.assertEqual(log.publish(loads(2)), 9)  # (which mends a file)
            for forbidden in (log.compact, log.restore, lambda: log.forget("m"), lambda: log.init(roles=True)):
                with self.assertRaises(psycopg.errors.InsufficientPrivilege):
                    forbidden()
        with Follower(Catalogues(), follower, "m") as made:
            made.wait_for(9, 100)
            until(lambda: [it.version for it in self.log.status().machines] == [9])
            with Log(follower) as log, self.assertRaises(psycopg.errors.InsufficientPrivilege):
                log.publish(loads(3))
        with Log(operator) as log:
            self.assertEqual(log.compact(), 9)
            self.assertEqual(log.restore(), 9)
            self.assertEqual(log.publish(loads(3)), 11)
            self.row("m", "h:1:x")
            self.assertEqual(log.forget("m"), 1)

    def test_roles_that_several_make_at_once(self) -> None:
        """As a tool that sets up all machines does."""
        failed: list[BaseException] = []

        def init() -> None:
            try:
                with Log(self.address) as log:
                    log.init(roles=True)
            except psycopg.Error as why:
                failed.append(why)

        for _ in range(5):
            threads = [threading.Thread(target=init) for _ in range(8)]
            for thread in threads:
                thread.start()
            for thread in threads:
                thread.join()
        self.assertEqual(failed, [])

    def test_a_schema_that_was_made_for_its_owner(self) -> None:
        """He needs no right to create others in the database."""
        self.sql("do $$ begin create role schema_owner login; exception when duplicate_object then null; end $$")
        self.sql("drop schema kobdzila cascade")
        self.sql("create schema kobdzila authorization schema_owner")
        owner = self.address.replace("user=postgres", "user=schema_owner")
        for _ in range(2):
            self.assertEqual(self.command("init", database=owner), (0, "version 0\n", ""))
        with Log(owner) as log:
            self.assertEqual(log.publish(loads(1)), 2)

    def test_the_role_that_is_needed_is_named(self) -> None:
        self.command("init", "--roles")
        self.address = self.role("kobdzila_follower")
        for word, needed in (("remove", "publisher"), ("compact", "operator")):
            status, _, said = self.command(*([word, "app/fr"] if word == "remove" else [word]))
            self.assertEqual(status, 1)
            self.assertRegex(said, rf"permission denied for .*; {word} needs the role kobdzila_{needed}, or the")

    def test_a_role_that_only_reads(self) -> None:
        self.command("init", "--roles")
        self.sql("do $$ begin create role only_reads login; exception when duplicate_object then null; end $$")
        self.sql("alter role only_reads set default_transaction_read_only = on; grant kobdzila_follower to only_reads")
        self.log.publish(loads(1))
        with Follower(Catalogues(), self.address.replace("user=postgres", "user=only_reads"), "m") as made:
            self.assertEqual((made.wait_for(2, 100), made.trouble), (2, None))


class LayoutTest(CommandCase):
    def test_an_upgrade(self) -> None:
        self.log.close()
        self.sql("drop schema kobdzila cascade")
        self.sql(LAYOUT_1)
        history = b""
        for number in (1, 2):
            total = _log.hashlib.sha256(mo(number)).digest()
            seal, name = _log.seal_of(number, "app", "fr", total), _log.uuid.uuid4()
            history = _log.history_of(history, name, [seal])
            self.sql("insert into kobdzila.file values (%s, %s)", total, mo(number))
            self.sql("insert into kobdzila.load values (%s, 'app', 'fr', %s, %s)", number, total, seal)
            self.sql("insert into kobdzila.publish values (%s, %s, 1, %s, '')", number, name, history)
        follower = self.follower()
        for words in (["init"], ["status"]):
            status, _, said = self.command(*words)
            self.assertEqual((status, "init --upgrade" in said), (1, True), said)
        with self.assertRaisesRegex(NoLog, "init --upgrade brings it to 2"):
            self.log.publish(loads(3))
        self.assertIn("init --upgrade", str(until(lambda: follower.trouble)))
        self.assertEqual(self.command("init", "--upgrade")[:2], (0, "version 2\n"))
        self.assertEqual(self.command("init", "--upgrade")[:2], (0, "version 2\n"))
        self.assertEqual((follower.wait_for(2, 100), self.text(follower)), (2, "k1 at 2"))
        self.assertEqual(self.log.publish(loads(3)), 4)
        self.assertEqual([len(row.version.epoch) for row in self.log.history()], [16] * 3)

    def test_columns_are_those_of_a_new_log(self) -> None:
        columns = ("select table_name, column_name, data_type, is_nullable from information_schema.columns"
                   " where table_schema = 'kobdzila' order by 1, 2")
        new = self.sql(columns)
        self.log.close()
        self.sql("drop schema kobdzila cascade")
        self.sql(LAYOUT_1)
        self.log.init(upgrade=True)
        self.assertEqual(self.sql(columns), new)


class ProgramTest(CommandCase):
    def program(self, *words: str, **options: Any) -> subprocess.Popen[bytes]:
        made = subprocess.Popen([sys.executable, "-m", "kobdzila.fleet._command", "-d", self.address, *words],
                                stdin=subprocess.DEVNULL, stdout=subprocess.PIPE, stderr=subprocess.PIPE, **options)
        self.addCleanup(made.communicate)
        self.addCleanup(made.kill)
        return made

    def test_a_charset_that_lacks_a_character(self) -> None:
        """It is escaped, as on standard error, and nothing else is lost. Prometheus reads UTF-8."""
        self.log.publish(loads(1), note="zdjęcia")
        self.row("żółw", "h:1:x", 2)
        environment = {**os.environ, "PYTHONIOENCODING": "latin-1"}
        for word, wanted in (("history", b"(zdj\\u0119cia)"), ("status", b"\n\\u017c\xf3\\u0142w  "),
                             ("metrics", '{machine="żółw",'.encode())):
            program = self.program(word, env=environment)
            text, said = program.communicate(timeout=100)
            self.assertEqual((program.returncode, said), (0, b""))
            self.assertIn(wanted, text)

    def test_closed_input_and_output(self) -> None:
        """No traceback."""
        for word, closed, wanted in (
                ("metrics", ">&-", (0, b"")), ("metrics", "<&- >&-", (0, b"")),
                *(("follow", it, (1, b"kob-fleet: standard input or output is closed\n")) for it in (">&-", "<&-"))):
            command = [sys.executable, "-m", "kobdzila.fleet._command", "-d", self.address, word]
            done = subprocess.run(["sh", "-c", f'exec "$@" {closed}', "sh", *command], capture_output=True, timeout=100,
                                  check=False)
            self.assertEqual((done.returncode, done.stderr), wanted, word)

    def test_help_without_psycopg(self) -> None:
        code = textwrap.dedent("""
            import sys
            sys.modules["psycopg"] = None
            from kobdzila.fleet import _command
            sys.exit(_command.main(sys.argv[1:]))
        """)
        for words, status, said in ((["--help"], 0, "usage: kob-fleet"), (["--version"], 0, "kob-fleet (kobdzila)"),
                                    (["status"], 1, "needs psycopg 3")):
            done = subprocess.run([sys.executable, "-c", code, *words], capture_output=True, text=True, timeout=200)
            self.assertEqual(done.returncode, status, done.stderr)
            self.assertIn(said, done.stdout + done.stderr)
            self.assertNotIn("Traceback", done.stderr)

    @unittest.skipUnless(has_catsession(), NO_SESSION)
    def test_a_daemon(self) -> None:
        """No input; systemd is told when there are texts; a socket answers; SIGTERM ends it with status 0, without a row."""
        self.log.publish(loads(1))
        with tempfile.TemporaryDirectory() as room, socket.socket(socket.AF_UNIX, socket.SOCK_DGRAM) as systemd:
            systemd.bind(f"{room}/notify")
            systemd.settimeout(100)
            daemon = self.program("follow", "-m", "d", "--daemon", "--socket", f"{room}/socket", "--tokens",
                                  env={**os.environ, "NOTIFY_SOCKET": f"{room}/notify"})
            said = b""
            while b"READY=1" not in said:
                said = systemd.recv(1000)
            self.assertIn(b"STATUS=follows at version ", systemd.recv(1000))
            token = self.log.status().version.token
            for _ in range(2):
                with socket.socket(socket.AF_UNIX) as client:
                    client.connect(f"{room}/socket")
                    client.sendall(b"ask\t0\tapp\tfr\tgettext\tk1\ngo\n")
                    answer = client.makefile("rb")
                    self.assertEqual(answer.readline(), f"version\t{token}\n".encode())
                    self.assertEqual(answer.readline(), f"0\t{token}\tk1 at 1\n".encode())
                    answer.close()
            until(lambda: self.log.status().machines)
            daemon.send_signal(signal.SIGTERM)
            self.assertEqual(daemon.wait(100), 0)
            self.assertEqual(self.log.status().machines, [])
            self.assertFalse(Path(f"{room}/socket").exists())

    def asked(self, path: str, *lines: bytes) -> list[bytes]:
        """What a daemon answers on its socket."""
        with socket.socket(socket.AF_UNIX) as client:
            client.settimeout(100)
            client.connect(path)
            client.sendall(b"".join(lines))
            client.shutdown(socket.SHUT_WR)
            with client.makefile("rb") as answer:
                return answer.readlines()

    @unittest.skipUnless(has_catsession(), NO_SESSION)
    def test_programs_that_send_bad_lines(self) -> None:
        """Others are answered on: their catsession, which ends at a bad line, doesn't get one."""
        self.log.publish(loads(1))
        good = b"ask\t0\tapp\tfr\tgettext\tk1\n"
        with tempfile.TemporaryDirectory() as room:
            daemon = self.program("follow", "--daemon", "--socket", f"{room}/socket")
            until(lambda: Path(f"{room}/socket").exists())
            for bad in (*(b"ask\t0\ta\tb\t" + words for words in BAD_CALLS), b"x", b"load\ta\tb\t-\t0", b"ask\t0",
                        b"ask\t1\ta\tb\tgettext\tc"):
                self.assertEqual(self.asked(f"{room}/socket", good, bad + b"\n", b"go\n"), [], bad)
                self.assertEqual(self.asked(f"{room}/socket", good, b"go\n")[1:], [b"0\t2\tk1 at 1\n"], bad)
            for words in GOOD_CALLS:
                self.assertEqual(len(self.asked(f"{room}/socket", b"ask\t0\t\t\t" + words + b"\ngo\n")), 2, words)
            self.assertIsNone(daemon.poll())

    @unittest.skipUnless(has_catsession(), NO_SESSION)
    def test_where_it_cannot_listen(self) -> None:
        """What can't be had is named."""
        with tempfile.TemporaryDirectory() as room, socket.create_server(("127.0.0.1", 0)) as taken:
            Path(f"{room}/file").touch()
            for name, why in (("none/socket", "No such file or directory"), ("file", "Address already in use"),
                              ("x" * 108, "AF_UNIX path too long")):
                path = f"{room}/{name}"
                daemon = self.program("follow", "--daemon", "--socket", path)
                self.assertEqual((daemon.wait(100), daemon.stderr.read().decode()), (1, f"kob-fleet: {path}: {why}\n"))
            where = f"127.0.0.1:{taken.getsockname()[1]}"
            status, text, said = self.command("metrics", "--listen", where)
            self.assertEqual((status, text), (1, ""))
            self.assertIn(f"kob-fleet: {where}: Address already in use\n", said)

    @unittest.skipUnless(has_catsession(), NO_SESSION)
    def test_who_may_ask_the_unit(self) -> None:
        """Programs of all users, with the umask of the unit; the cache is the daemon's own."""
        unit = (TOP / "packaging" / "systemd" / "kob-fleet-follow.service").read_text(encoding="utf-8")
        umask = int("".join(re.findall("^UMask=([0-7]+)$", unit, re.M)) or "022", 8)
        self.log.publish(loads(1))
        with tempfile.TemporaryDirectory() as room:
            Path(f"{room}/cache").mkdir(mode=0o700)
            self.program("follow", "-m", "d", "--daemon", "--socket", f"{room}/socket", "--cache", f"{room}/cache",
                         umask=umask)
            until(lambda: Path(f"{room}/cache/d.cache").exists())
            modes = {path.name: stat.S_IMODE(path.stat().st_mode) for path in Path(room).rglob("*")}
            self.assertEqual(modes, {"socket": 0o666, "cache": 0o700, "d.cache": 0o600, "d.lock": 0o600})

    @unittest.skipUnless(has_catsession(), NO_SESSION)
    def test_a_daemon_whose_catsession_ends(self) -> None:
        """It ends as well, so that systemd starts it again, and doesn't wait for the next publish to notice."""
        self.log.publish(loads(1))
        with tempfile.TemporaryDirectory() as room:
            daemon = self.program("follow", "--daemon", "--socket", f"{room}/socket")
            until(lambda: [it.version for it in self.log.status().machines] == [2])
            children = Path(f"/proc/{daemon.pid}/task/{daemon.pid}/children").read_text(encoding="utf-8").split()
            self.assertEqual(len(children), 1)
            os.kill(int(children[0]), signal.SIGKILL)
            self.assertEqual(daemon.wait(100), 1)
            self.assertEqual(daemon.stderr.read(), b"kob-fleet: catsession ended with status -9\n")
            self.assertEqual(self.log.status().machines, [])

    @unittest.skipUnless(has_catsession(), NO_SESSION)
    def test_a_daemon_whose_catsession_hangs(self) -> None:
        """systemd's watchdog hears nothing more, and so restarts it."""
        follower = mock.Mock(has_failed=False, has_joined=True, version=Version(2))
        follower.wait_for.side_effect = lambda *_: time.sleep(0.02)
        with socket.socket(socket.AF_UNIX, socket.SOCK_DGRAM) as systemd, kobdzila.Session() as session:
            systemd.bind(f"\0kob-fleet-{os.getpid()}")
            systemd.settimeout(1)
            with mock.patch.dict(os.environ, NOTIFY_SOCKET=f"@kob-fleet-{os.getpid()}"):
                serving = threading.Thread(target=_daemon.serve, args=[follower, session], daemon=True)
                serving.start()
                self.assertEqual(systemd.recv(100), b"READY=1")
                self.assertIn(b"WATCHDOG=1", systemd.recv(1000))
                session._process.send_signal(signal.SIGSTOP)
                try:
                    with self.assertRaises(TimeoutError):
                        for _ in range(200):
                            systemd.recv(1000)
                finally:
                    session._process.kill()
                with contextlib.redirect_stderr(io.StringIO()):
                    serving.join(60)

    @unittest.skipUnless(has_catsession(), NO_SESSION)
    def test_a_daemon_whose_log_lost_publishes(self) -> None:
        """It answers on, and says so; its status is that of a machine that has stopped."""
        self.log.publish(loads(1))
        self.log.publish(loads(2))
        with tempfile.TemporaryDirectory() as room:
            daemon = self.program("follow", "-m", "d", "--daemon", "--socket", f"{room}/socket")
            until(lambda: [it.version for it in self.log.status().machines] == [4])
            self.sql("delete from kobdzila.load where version > 2")
            self.sql("delete from kobdzila.publish where version > 2")
            self.sql("notify kobdzila")
            until(lambda: [it.state for it in self.log.status().machines] == ["stopped"])
            self.assertEqual(self.command("status", "--check")[0], 2)
            with socket.socket(socket.AF_UNIX) as client:
                client.connect(f"{room}/socket")
                client.sendall(b"ask\t0\tapp\tfr\tgettext\tk1\ngo\n")
                with client.makefile("rb") as answer:
                    self.assertEqual(answer.readline() + answer.readline(), b"version\t4\n0\t4\tk1 at 2\n")
            self.assertIsNone(daemon.poll())

    @unittest.skipUnless(has_catsession(), NO_SESSION)
    def test_standard_error_that_nobody_reads(self) -> None:
        """The reader of its errors has ended: it follows on, through troubles that it can't report."""
        self.log.publish(loads(1))
        reading, writing = os.pipe()
        machine = subprocess.Popen([sys.executable, "-m", "kobdzila.fleet._command", "-d", self.address, "follow", "-v"],
                                   stdin=subprocess.PIPE, stdout=subprocess.PIPE, stderr=writing)
        self.addCleanup(machine.communicate)
        self.addCleanup(machine.kill)
        os.close(writing)

        def asked() -> list[bytes]:
            machine.stdin.write(b"ask\t0\tapp\tfr\tgettext\tk1\ngo\n")
            machine.stdin.flush()
            return [machine.stdout.readline().split(b"\t")[-1] for _ in range(2)]

        self.assertEqual(asked(), [b"2\n", b"k1 at 1\n"])
        os.close(reading)
        self.sql("select pg_terminate_backend(pid) from pg_stat_activity where application_name = 'kob-fleet'"
                 " and pid <> pg_backend_pid()")
        version = Log(self.address).publish(loads(2))
        until(lambda: asked() == [f"{version}\n".encode(), b"k1 at 2\n"])

    def test_a_program_that_leaves_early(self) -> None:
        ours, theirs = socket.socketpair()
        theirs.sendall(b"ask\t0\tapp\tfr\tgettext\tk1\ngo\n")
        theirs.close()
        follower, session = mock.Mock(), mock.Mock()
        said = io.StringIO()
        with mock.patch.object(_daemon, "answered", return_value=b"version\t1\n"), contextlib.redirect_stderr(said):
            _daemon.answer_client(ours, threading.Semaphore(), follower, session, False)
        self.assertEqual(said.getvalue(),
                         "kob-fleet: a program closed its end of the socket before it had its answers\n")

    def test_a_lack_of_descriptors(self) -> None:
        """The daemon says so, and accepts programs again when there are some."""
        ours, theirs = socket.socketpair()
        theirs.settimeout(100)
        theirs.sendall(b"go\n")
        listener, said = mock.Mock(), io.StringIO()
        listener.accept.side_effect = [OSError(errno.EMFILE, "Too many open files"), (ours, ""), OSError]
        listener.fileno.side_effect = [3, -1]
        with (theirs, mock.patch.object(_daemon, "answered", return_value=b"version\t1\n"),
              contextlib.redirect_stderr(said)):
            _daemon.accept(listener, mock.Mock(), mock.Mock(), False)
            self.assertEqual(theirs.recv(100), b"version\t1\n")
        self.assertEqual(said.getvalue(),
                         "kob-fleet: a program can't be answered yet: [Errno 24] Too many open files\n")

    def test_a_socket_of_another_process_stays(self) -> None:
        with tempfile.TemporaryDirectory() as room:
            path = Path(room) / "socket"
            path.touch()
            with _daemon.removed(path):
                other = Path(room) / "other"
                other.touch()
                other.replace(path)
            self.assertTrue(path.exists())

    def test_notes_to_systemd(self) -> None:
        with socket.socket(socket.AF_UNIX, socket.SOCK_DGRAM) as systemd:
            systemd.bind(f"\0kob-fleet-{os.getpid()}")  # (an abstract name)
            with mock.patch.dict(os.environ, NOTIFY_SOCKET=f"@kob-fleet-{os.getpid()}"):
                _daemon.notify("READY=1")
            self.assertEqual(systemd.recv(100), b"READY=1")
        with mock.patch.dict(os.environ, NOTIFY_SOCKET="/none/at/all"):
            _daemon.notify("READY=1")  # (nobody is told, and nothing is raised)


PGBOUNCER = shutil.which("pgbouncer", path=f"{os.environ['PATH']}:/usr/sbin")


@unittest.skipUnless(PGBOUNCER, "no pgbouncer")
class PoolerTest(LogCase):
    """A pooler in transaction mode gives each transaction another session."""

    mode, size = "transaction", 2

    def setUp(self) -> None:
        super().setUp()
        folder = servers.folder()
        room = folder.__enter__()
        self.addCleanup(folder.__exit__, None, None, None)
        port = servers.free_port()
        (room / "ini").write_text(textwrap.dedent(f"""
            [databases]
            * = host=127.0.0.1 port={servers.shared().port} user=postgres pool_size={self.size}
            [pgbouncer]
            listen_addr = 127.0.0.1
            listen_port = {port}
            unix_socket_dir =
            auth_type = any
            pool_mode = {self.mode}
            logfile = {room}/log
        """), encoding="utf-8")
        self.pooler = subprocess.Popen([*servers.as_user(), str(PGBOUNCER), "-q", str(room / "ini")])
        self.addCleanup(self.pooler.wait)
        self.addCleanup(self.pooler.terminate)
        self.pooled = f"host=127.0.0.1 port={port} user=postgres dbname=postgres"
        until(self.answers)

    def answers(self) -> bool:
        with contextlib.suppress(psycopg.OperationalError):
            psycopg.connect(self.pooled).close()
            return True
        return False

    def test_publishing_and_following(self) -> None:
        followers = [Follower(Catalogues(), self.pooled, f"m{at}") for at in range(3)]
        for follower in followers:
            follower.start()
            self.addCleanup(follower.close)
        with Log(self.pooled) as log:
            for number in range(1, 4):
                version = log.publish(loads(number))
                for follower in followers:
                    self.assertEqual(self.text(follower, at_least=version), f"k1 at {number}")
            until(lambda: [it.version for it in log.status().machines] == [6] * 3)
        self.assertEqual([it.trouble for it in followers], [None] * 3)
        self.assertEqual(self.sql("select distinct setting from pg_settings where name = 'statement_timeout'"), [("0",)])


class SessionPoolerTest(PoolerTest):
    mode, size = "session", 9


class StandbyTest(unittest.TestCase):
    def test_a_follower_of_a_standby_is_seen(self) -> None:
        with servers.pair() as (first, second), Log(first.address) as log:
            log.init()
            log.publish(loads(1))
            both = servers.both(second, first) + " target_session_attrs=any"
            alone = second.address + " target_session_attrs=any"
            with Follower(Catalogues(), both, "both") as one, \
                    Follower(Catalogues(), alone, "told", report_to=first.address) as other:
                for it in (one, other):
                    it.wait_for(2, 100)
                    self.assertTrue(it._connection.is_standby)
                until(lambda: sorted((it.name, it.version) for it in log.status().machines) == [("both", 2), ("told", 2)])

    def test_a_primary_that_cannot_be_told(self) -> None:
        """The machine follows its standby, and says once why nobody sees it."""
        nowhere, said = f"host=127.0.0.1 port={servers.free_port()}", []
        with servers.pair() as (first, second), Log(first.address) as log:
            log.init()
            log.publish(loads(1))
            with Follower(Catalogues(), second.address + " target_session_attrs=any", "m", report_to=nowhere,
                          on_trouble=said.append) as follower:
                follower.wait_for(2, 100)
                until(lambda: said)
                follower.wait_for(log.publish(loads(2)), 100)
                self.assertEqual((follower.trouble, log.status().machines), (None, []))
        self.assertEqual(len(said), 1)
        self.assertRegex(said[0], r"\Akob-fleet status doesn't show this machine: 127\.0\.0\.1:\d+: connection failed")

    def test_how_much_a_session_takes(self) -> None:
        """The time to keep a load doesn't grow with those that are kept."""
        session = kobdzila.Session.__new__(kobdzila.Session)
        session._lock, session._loads, session._size = threading.Lock(), [], 0
        data, times = mo(1), []
        for count in (1500, 1500):
            begun = time.process_time()
            for at in range(count):
                session.load("app", f"x{at}", data)
            times.append(time.process_time() - begun)
        self.assertLess(times[1], 2.5 * times[0] + 0.02)


if __name__ == "__main__":
    unittest.main()
