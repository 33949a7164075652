"""The program kob-fleet, and the commands of docs/guide/fleet*.md as they are written there."""
from __future__ import annotations

import contextlib
import io
import json
import os
import re
import shlex
import subprocess
import sys
import tempfile
import textwrap
import threading
import unittest
import uuid
from pathlib import Path
from typing import Any
from unittest import mock

import psycopg

import kobdzila
import servers
from kobdzila.fleet import Log, _command, _log
from stores import NO_SESSION, has_catsession, loads, until

TOP = Path(__file__).resolve().parents[2]
GUIDE = TOP / "docs" / "guide" / "fleet.md"
OPERATING = TOP / "docs" / "guide" / "fleet-operating.md"


class CommandTest(unittest.TestCase):
    def setUp(self) -> None:
        self.address = servers.shared().address
        folder = tempfile.TemporaryDirectory()
        self.addCleanup(folder.cleanup)
        self.room = Path(folder.name)
        self.environment = {**os.environ, "KOB_FLEET_DATABASE": self.address, "TZ": "UTC", "LC_ALL": "C.UTF-8"}
        program = self.room / "kob-fleet"
        program.write_text(f'#!/bin/sh\nexec {sys.executable} -m kobdzila.fleet._command "$@"\n', encoding="utf-8")
        program.chmod(0o755)
        self.environment["PATH"] = f"{self.room}:{os.environ['PATH']}"
        self.run_program("init")
        self.sql("drop schema kobdzila cascade")

    def sql(self, text: str) -> None:
        with psycopg.connect(self.address, autocommit=True) as connection:
            connection.execute(text)

    def run_program(self, *words: str) -> tuple[int, str, str]:
        """Run kob-fleet in this process, which is quicker than to start one."""
        out, error, before = io.StringIO(), io.StringIO(), os.getcwd()
        os.chdir(self.room)
        try:
            with contextlib.redirect_stdout(out), contextlib.redirect_stderr(error):
                with mock.patch.dict(os.environ, self.environment):
                    status = _command.main(words)
        finally:
            os.chdir(before)
        return status, out.getvalue(), error.getvalue()

    def start_program(self, *words: str, text: str = "") -> tuple[int, str, str]:
        done = subprocess.run(["kob-fleet", *words], cwd=self.room, env=self.environment, input=text,
                              capture_output=True, text=True, timeout=200)
        return done.returncode, done.stdout, done.stderr

    def file(self, name: str, text: str) -> None:
        (self.room / name).write_text(text, encoding="utf-8")

    def test_a_life(self) -> None:
        self.file("fr.po", 'msgid "a"\nmsgstr "un"\n')
        self.file("zwei.po", 'msgid "a"\nmsgstr "zwei"\n')
        (self.room / "de.mo").write_bytes(kobdzila.Catalogue.from_po(b'msgid "a"\nmsgstr "eins"\n').mo_file())
        no_log = "kob-fleet: this database has no log: kob-fleet init creates one\n"
        for words in (["publish", "app/fr=fr.po"], ["status"], ["history"], ["rollback", "1"], ["compact"]):
            self.assertEqual(self.run_program(*words), (1, "", no_log), words)
        self.assertEqual(self.run_program("init"), (0, "version 0\n", ""))
        status, text, _ = self.run_program("status")
        self.assertRegex(text, r"\Aversion 0, 0 publishes, cut up to 0, epoch [0-9a-f]{16}\n\Z")
        self.assertEqual(self.run_program("publish", "app/fr=fr.po", "app/de=de.mo"), (0, "version 2\n", ""))
        self.assertRegex(self.run_program("status")[1], r"\Aversion 2, 1 publish, cut up to 0, ")
        number = str(uuid.uuid4())
        for _ in range(2):
            self.assertEqual(self.run_program("publish", "--id", number, "--note", "a note", "app/de=zwei.po"),
                             (0, "version 3\n", ""))
        self.assertEqual(self.run_program("rollback", "2"), (0, "version 4\n", ""))
        self.assertEqual(self.run_program("rollback", "2"), (0, "version 4 has the texts of version 2 already\n", ""))
        status, text, _ = self.run_program("history", "-n", "3")
        time = r"  \d{4}-\d\d-\d\d \d\d:\d\d:\d\d  "
        self.assertEqual(status, 0)
        lines = (rf"4{time}app/de  \(rollback to 2\)\n", rf"3{time}app/de  \(a note\)\n", rf"2{time}app/fr app/de\n")
        self.assertRegex(text, rf"\A{''.join(lines)}\Z")
        self.assertEqual(self.run_program("compact"), (0, "cut up to version 4\n", ""))
        self.assertIn("kob-fleet: the loads of version 2 were cut", self.run_program("rollback", "2")[2])
        found = json.loads(self.run_program("status", "--json")[1])
        self.assertEqual({**found, "epoch": len(found["epoch"])},
                         {"version": 4, "publishes": 3, "cut": 4, "machines": [], "epoch": 16})

    def test_machines(self) -> None:
        self.run_program("init")
        self.sql("insert into kobdzila.machine (name, process, epoch, version, state, trouble, loads, refusals, reconnects,"
                 " seen) select it.name, 'h:1:x', e.epoch, 0, 'follows', it.trouble, 0, 0, 0, clock_timestamp() -"
                 " make_interval(secs => it.seen) from (values ('a', null, 0), ('b', null, 40), ('c', 'no texts', 40))"
                 " it (name, trouble, seen), kobdzila.epoch e")
        _, _, *lines = self.run_program("status")[1].splitlines()
        self.assertEqual([line.split("ago")[1].strip() for line in lines], ["follows", "silent", "silent: no texts"])

    def test_whom_wait_counts(self) -> None:
        self.run_program("init")
        self.machine_rows("('a', 'follows', 3, 0), ('b', 'follows', 3, 0), ('c', 'follows', 0, 40)")
        self.assertEqual(self.run_program("wait", "--seen-within", "30", "0"),
                         (0, "version 0 on all 2 machines; 1 not counted, silent for more than 30 s\n", ""))

    def machine_rows(self, values: str) -> None:
        """Add reports of machines: their names, states, versions, and the seconds since."""
        self.sql("insert into kobdzila.machine (name, process, epoch, version, state, loads, refusals, reconnects,"
                 " seen) select it.name, 'h:1:x', e.epoch, it.version, it.state, 0, 0, 0, clock_timestamp() -"
                 f" make_interval(secs => it.seen) from (values {values}) it (name, state, version, seen),"
                 " kobdzila.epoch e")

    def test_what_is_refused(self) -> None:
        self.run_program("init")
        self.file("fr.po", 'msgid "a"\nmsgstr "x"\nmsgid "a"\nmsgstr "y"\n')
        self.file("de.po", '#, c-format\nmsgid "%d"\nmsgstr "%s"\n')
        self.file("bad.mo", "x" * 50)
        self.file("good.po", 'msgid "a"\nmsgstr "x"\n')
        words = ("app/it=good.po", "app/fr=fr.po", "app/de=de.po", "app/x=bad.mo")
        status, text, said = self.run_program("publish", *words)
        lines = said.splitlines()
        self.assertEqual((status, text, len(lines), lines[0]), (1, "", 4, "fr.po:3: duplicate message"))
        self.assertRegex(lines[1], r"\Ade\.po:2: ")
        self.assertRegex(lines[2], r"\Abad\.mo: ")
        self.assertEqual(lines[3], "kob-fleet: nothing was published")
        self.assertEqual(self.run_program("publish", "app/fr=none.po")[0], 1)
        self.assertEqual(self.run_program("publish", "--no-check", "app/de=de.po")[:2], (0, "version 1\n"))
        for word in ("app=good.po", "app/fr", "a b/fr=good.po", "app/=good.po"):
            self.assertEqual(self.run_program("publish", word)[::2],
                             (64, f"kob-fleet: not of the form DOMAIN/LOCALE=FILE: {word}\n"))
        for words, said in ((["wait", "x"], "not a version: 'x'"),
                            (["remove", "app"], "not of the form DOMAIN/LOCALE: app"),
                            (["metrics", "--listen", "host:x"], "not of the form [HOST:]PORT: host:x"),
                            (["metrics", "--listen", "65536"], "not of the form [HOST:]PORT: 65536")):
            self.assertEqual(self.run_program(*words), (64, "", f"kob-fleet: {said}\n"))

    def test_a_server_that_is_not_there(self) -> None:
        self.file("fr.po", 'msgid "a"\nmsgstr "un"\n')
        nowhere = f"host=127.0.0.1 port={servers.free_port()}"
        status, text, said = self.run_program("-d", nowhere, "publish", "--within", "0.5", "app/fr=fr.po")
        self.assertEqual((status, text), (1, ""))  # (nothing was sent, so nothing is published)
        first, *_, last = said.splitlines()
        self.assertRegex(first, r"\Akob-fleet: 127\.0\.0\.1:\d+: connection failed: ")
        self.assertEqual((said.count("trying for 0.5 s"), said.count("kob-fleet: ")), (1, 2), said)
        self.assertNotIn("--id", last)

    def without_answers(self, times: int = 1000) -> Any:
        """Meanwhile the connection is lost after each of the first `times` commits."""
        commit, lost = psycopg.Transaction.__exit__, psycopg.OperationalError("the connection is lost")
        left = iter(range(times))

        def after_the_commit(transaction: psycopg.Transaction, *exception: Any) -> bool | None:
            commit(transaction, *exception)
            if exception[0] is None and next(left, None) is not None:
                raise lost
            return None

        return mock.patch.object(psycopg.Transaction, "__exit__", after_the_commit)

    def test_a_restore_whose_answer_is_lost(self) -> None:
        """It begins one epoch, and says which one if it had to give up."""
        self.run_program("init")
        with self.without_answers(2):
            status, text, said = self.run_program("restore")
        self.assertEqual((status, said), (0, ""))
        self.assertRegex(text, r"\Aepoch [0-9a-f]{16} begins after version 0\n\Z")
        with self.without_answers(), mock.patch.object(Log.restore, "__kwdefaults__", {"within": 0.5}):
            status, text, said = self.run_program("restore")
        self.assertEqual((status, text), (2, ""))
        found = re.search(r"\Akob-fleet: epoch ([0-9a-f]{16}) may or may not have begun: the connection is lost\n"
                          r"kob-fleet: if `kob-fleet status` prints epoch \1, it has; otherwise run restore "
                          r"again\n\Z", said)
        self.assertIsNotNone(found, said)
        self.assertIn(f", epoch {found[1]}\n", self.run_program("status")[1])
        with psycopg.connect(self.address) as connection:
            self.assertEqual(connection.execute("select max(number) from kobdzila.epoch").fetchone(), (3,))

    def test_an_answer_that_is_lost(self) -> None:
        self.run_program("init")
        self.file("fr.po", 'msgid "a"\nmsgstr "un"\n')
        with self.without_answers():
            status, text, said = self.run_program("publish", "--within", "3", "app/fr=fr.po")
        self.assertEqual((status, text), (2, ""))
        found = re.search(r"publish ([0-9a-f-]{36}) may or may not be in the log: .*(?s:.)*--id \1\n\Z", said)
        self.assertIsNotNone(found, said)
        self.assertEqual(self.run_program("publish", "--id", found[1], "app/fr=fr.po"), (0, "version 1\n", ""))

    def test_a_connection_that_is_lost_before_the_commit(self) -> None:
        """Nothing can have been published, and that is what the program says."""
        self.run_program("init")
        self.file("fr.po", 'msgid "a"\nmsgstr "un"\n')
        with mock.patch.object(_log, "append", side_effect=psycopg.OperationalError("the connection is lost")):
            status, text, said = self.run_program("publish", "--within", "0.2", "app/fr=fr.po")
        self.assertEqual((status, text), (1, ""))
        self.assertNotIn("--id", said)

    @unittest.skipUnless(has_catsession(), NO_SESSION)
    def test_follow(self) -> None:
        self.run_program("init")
        self.file("fr.po", 'msgid "a\\n"\nmsgstr "un\\t\\n"\n')
        self.run_program("publish", "app/fr=fr.po")
        self.run_program("publish", "app/fr=fr.po", "app/de=fr.po")
        rounds = ("# asked\n\nask\t0\tapp\tfr\tgettext\ta\\n\nask\t0\tapp\tsv\tngettext\tb\tc\t2\ngo\n"
                  "ask\t0\tapp\tde\tgettext\tx\n")
        status, text, said = self.start_program("follow", "-m", "one", "-v", text=rounds)
        self.assertEqual((status, text, said),
                         (0, "version\t3\n0\t3\tun\\t\\n\n0\t3\tc\nversion\t3\n0\t3\tx\n", "kob-fleet: version 3\n"))
        self.assertRegex(self.run_program("status")[1], r"\Aversion 3, .*\n\Z")  # (it has said goodbye)
        for wrong in ("load\tapp\tfr\t-\t0\ngo\n", "ask\t1\tapp\tfr\tgettext\ta\ngo\n", "x\n"):
            status, text, said = self.start_program("follow", text=wrong)
            self.assertEqual((status, text, said),
                             (1, "", "kob-fleet: line 1: neither a question to worker 0 nor `go`\n"))

    def runs(self, program: str) -> None:
        """A program of the guide runs, in a folder with fr.mo."""
        (self.room / "fr.mo").write_bytes(kobdzila.Catalogue.open(TOP / "examples" / "fr.po").mo_file())
        done = subprocess.run([sys.executable, "-c", program], cwd=self.room, env=self.environment, text=True,
                              capture_output=True, timeout=200, check=False)
        self.assertEqual((done.returncode, done.stderr), (0, ""), program)
        self.assertIn(done.stdout, ("", "Hiver\n"))

    @unittest.skipUnless(has_catsession(), NO_SESSION)
    def test_the_guide(self) -> None:
        text = GUIDE.read_text(encoding="utf-8")
        scripts = re.findall(r"^```sh\n(.*?)^```$", text, re.M | re.S)
        printed = re.search(r"^```text\n(.*?)^```$", text, re.M | re.S)[1]
        (self.room / "examples").symlink_to(TOP / "examples")
        written = "host=127.0.0.1 port=5432 dbname=texts user=kob"
        self.assertIn(written, scripts[0])
        first, second = (it.replace(written, self.address) for it in scripts)
        done = subprocess.run(["sh", "-e", "-c", first], cwd=self.room, env=self.environment, capture_output=True,
                              text=True, timeout=200)
        self.assertEqual((done.returncode, done.stderr, done.stdout), (0, "", "version 0\nversion 2\n" + printed))
        done = subprocess.run(["sh", "-e", "-c", second], cwd=self.room, env=self.environment, capture_output=True,
                              text=True, timeout=200)
        self.assertEqual((done.returncode, done.stderr), (0, ""))
        lines = done.stdout.splitlines()
        # (the texts are those of version 2, so the rollback has nothing to publish; web1 has ended)
        self.assertEqual((lines[0], lines[3], lines[-1]),
                         ("version 3", "version 3 has the texts of version 2 already", "cut up to version 3"))
        for program in re.findall(r"^```python\n(.*?)^```$", text, re.M | re.S)[:2]:
            # (a machine that runs all other tests beside this one may need longer than the page allows)
            patient = program.replace("within=30", "within=300")
            self.runs(patient.replace("host=db1,db2 dbname=texts user=kob", self.address))
        refused = re.search(r"^    (fr\.po:3: .*)\n    (kob-fleet: .*)$", text, re.M)
        self.file("fr.po", 'msgid "a"\nmsgstr "x"\nmsgid "a"\nmsgstr "y"\n')
        self.assertEqual(self.run_program("publish", "garden/fr=fr.po")[2], f"{refused[1]}\n{refused[2]}\n")

    def test_two_servers_by_the_guide(self) -> None:
        """The guide's steps in their order: none of them waits for a standby that isn't there yet."""
        section = re.search(r"^## Two servers\n(.*?)^## ", OPERATING.read_text(encoding="utf-8"), re.M | re.S)[1]
        settings, allowed, role, copy, waits = map(textwrap.dedent, re.findall(r"(?:^    .*\n)+", section, re.M))
        with servers.folder() as room, contextlib.ExitStack() as stack:
            first, second = servers.Server(room / "db1"), servers.Server(room / "db2")
            stack.callback(first.stop)
            stack.callback(second.stop)
            first.create()
            first.set(settings.replace("'*'", "'127.0.0.1'"))
            with (first.folder / "pg_hba.conf").open("a", encoding="utf-8") as file:
                file.write(allowed)
            first.start()
            connection = stack.enter_context(psycopg.connect(first.address, autocommit=True))
            timer = threading.Timer(10, connection.cancel)  # (statement_timeout doesn't count while a commit waits)
            stack.callback(timer.cancel)
            timer.start()
            connection.execute(role)
            self.assertTrue(timer.is_alive(), "create role waited for a standby")
            written = copy.replace("host=db1", f"host=127.0.0.1 port={first.port}").replace("DATA", str(second.folder))
            second.run(*shlex.split(written))
            second.set(f"port = {second.port}")  # (both are on one machine)
            second.start()
            states = "select application_name, sync_state from pg_stat_replication"
            until(lambda: connection.execute(states).fetchall() == [("db2", "async")])
            first.set(waits)
            connection.execute("select pg_reload_conf()")
            until(lambda: connection.execute(states).fetchall() == [("db2", "sync")])
            with Log(servers.both(first, second)) as log:
                log.init()
                log.publish(loads(1))
                with psycopg.connect(second.address) as standby:
                    self.assertEqual(standby.execute("select max(version) from kobdzila.publish").fetchone(), (2,))
                    self.assertEqual(standby.execute("show synchronous_standby_names").fetchone(), ("",))
                first.kill()
                second.promote()
                self.assertEqual(log.publish(loads(2)), 4)


if __name__ == "__main__":
    unittest.main()
