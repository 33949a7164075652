"""PostgreSQL servers for the tests of kobdzila.fleet, each in a folder of its own, on the loopback address.

As root the servers are another user's, since PostgreSQL refuses to run as root.
"""
from __future__ import annotations

import atexit
import contextlib
import functools
import os
import pwd
import shutil
import signal
import socket
import subprocess
import tempfile
import time
from collections.abc import Iterator, Sequence
from pathlib import Path

SETTINGS = """
listen_addresses = '127.0.0.1'
unix_socket_directories = ''
wal_level = replica
max_wal_senders = 5
hot_standby = on
max_connections = 60
shared_buffers = 32MB
fsync = {fsync}
log_min_messages = warning
port = {port}
"""


ROOM = 2 << 30  # bytes that the servers of a test may need
STARTED: set[Server] = set()
ROOMS: set[Path] = set()
OWNER = os.getpid()


class NoServer(Exception):
    """Why there is no PostgreSQL for the tests."""


def programs() -> Path:
    """The folder of initdb, postgres and so on."""
    found = [path.parent for path in Path("/usr/lib/postgresql").glob("*/bin/initdb")]
    if on_path := shutil.which("initdb"):
        found.append(Path(on_path).resolve().parent)
    if not found:
        raise NoServer("no PostgreSQL, and it could not be installed")
    return max(found, key=lambda path: int(path.parent.name) if path.parent.name.isdigit() else 0)


def as_user() -> list[str]:
    """What to put before a command so that it doesn't run as root."""
    if os.getuid() != 0:
        return []
    for name in ("postgres", "nobody"):
        with contextlib.suppress(KeyError):
            user = pwd.getpwnam(name)
            if shutil.which("setpriv"):
                return ["setpriv", f"--reuid={user.pw_uid}", f"--regid={user.pw_gid}", "--clear-groups", "--"]
            if shutil.which("runuser"):
                return ["runuser", "-u", name, "--"]
    raise NoServer("no user but root, or no setpriv, to run PostgreSQL as")


def free_port() -> int:
    with socket.socket() as made:
        made.bind(("127.0.0.1", 0))
        return int(made.getsockname()[1])


def has_ipv6() -> bool:
    """Whether this machine has IPv6, if only for itself."""
    with contextlib.suppress(OSError), socket.socket(socket.AF_INET6) as made:
        made.bind(("::1", 0))
        return True
    return False


def end_all(*_: object) -> None:
    """End all servers, remove their folders, and end this process: for a run that takes too long."""
    if os.getpid() == OWNER:
        for server in list(STARTED):
            server.stop()
        for room in ROOMS:
            shutil.rmtree(room, ignore_errors=True)
    os._exit(124)


class Server:
    """A server whose data is in a folder. It isn't started yet."""

    def __init__(self, folder: Path) -> None:
        self.folder, self.port, self.bin = folder, free_port(), programs()

    @property
    def address(self) -> str:
        return f"host=127.0.0.1 port={self.port} user=postgres dbname=postgres"

    def run(self, program: str, *words: object, check: bool = True) -> None:
        done = subprocess.run([*as_user(), str(self.bin / program), *map(str, words)], cwd=self.folder.parent,
                              stdin=subprocess.DEVNULL, stdout=subprocess.PIPE, stderr=subprocess.STDOUT, text=True,
                              env={**os.environ, "LC_ALL": "C", "TZ": "UTC"}, timeout=120)
        if check and done.returncode != 0:
            raise NoServer(f"{program} failed: {done.stdout.strip()[-300:]}")

    def create(self, *settings: str, fsync: bool = False) -> None:
        """Make an empty primary."""
        copied = subprocess.run([*as_user(), "cp", "-a", str(empty()), str(self.folder)], check=False)
        if copied.returncode != 0:
            raise NoServer("an empty server could not be copied")
        self.set(SETTINGS.format(port=self.port, fsync="on" if fsync else "off"), *settings)

    def set(self, *settings: str) -> None:
        with (self.folder / "postgresql.conf").open("a", encoding="utf-8") as file:
            file.write("\n".join(["", *settings, ""]))

    def copy_of(self, primary: Server, name: str) -> None:
        """Make a standby of a primary, by streaming replication."""
        self.run("pg_basebackup", "-d", f"{primary.address} application_name={name}", "-D", self.folder, "-R", "-X",
                 "stream", "-C", "-S", name, "-c", "fast", "-N")
        self.set(f"port = {self.port}", "synchronous_standby_names = ''")

    def start(self) -> None:
        STARTED.add(self)
        try:
            self.run("pg_ctl", "-D", self.folder, "-l", f"{self.folder}.log", "-w", "-t", "60", "start")
        except NoServer as why:
            said = Path(f"{self.folder}.log").read_text(encoding="utf-8", errors="replace")
            raise NoServer(f"{why}; {said.strip()[-600:]}") from why

    def wait_for_copy(self, name: str) -> None:
        """Wait until a standby follows this primary, which waits for it from now on."""
        import psycopg

        end = time.monotonic() + 30
        with psycopg.connect(self.address, autocommit=True) as connection:
            while not connection.execute("select 1 from pg_stat_replication where application_name = %s"
                                         " and sync_state = 'sync'", (name,)).fetchone():
                if time.monotonic() > end:
                    raise NoServer(f"{name} doesn't follow its primary")
                time.sleep(0.01)

    def promote(self) -> None:
        self.run("pg_ctl", "-D", self.folder, "-w", "promote")

    def reload(self) -> None:
        self.run("pg_ctl", "-D", self.folder, "reload")

    def pid(self) -> int:
        return int((self.folder / "postmaster.pid").read_text(encoding="utf-8").split()[0])

    def processes(self) -> list[int]:
        """The server's processes."""
        pid = self.pid()
        return [pid, *map(int, Path(f"/proc/{pid}/task/{pid}/children").read_text(encoding="utf-8").split())]

    def kill(self) -> None:
        """End the server as a power cut does: nothing is written, and its processes end at once."""
        pid = self.pid()
        os.kill(pid, signal.SIGSTOP)  # (so that it starts no process more)
        all_of_them = self.processes()
        for it in all_of_them:
            with contextlib.suppress(ProcessLookupError):
                os.kill(it, signal.SIGKILL)
        while any(map(runs, all_of_them)):
            time.sleep(0.01)
        (self.folder / "postmaster.pid").unlink()  # (its process may be a zombie for a while)

    def stop(self) -> None:
        """End the server, if it runs."""
        STARTED.discard(self)
        if (self.folder / "postmaster.pid").exists():
            self.run("pg_ctl", "-D", self.folder, "-m", "immediate", "-w", "stop", check=False)


def runs(pid: int) -> bool:
    """Whether a process is there, and no zombie."""
    try:
        return ") Z " not in Path(f"/proc/{pid}/stat").read_text(encoding="utf-8")
    except (FileNotFoundError, ProcessLookupError):
        return False


def quickest() -> str | None:
    """Where the servers' folders are: in memory, if there is room."""
    shared = Path("/dev/shm")
    if shared.is_dir() and os.access(shared, os.W_OK):
        free = os.statvfs(shared)
        if free.f_bavail * free.f_frsize > ROOM:
            return str(shared)
    return None


@functools.lru_cache(maxsize=1)
def empty() -> Path:
    """The folder of an empty server, which the others are copies of."""
    room = Path(tempfile.mkdtemp(prefix="kob-fleet-empty-", dir=quickest()))
    ROOMS.add(room)
    atexit.register(shutil.rmtree, room, ignore_errors=True)
    give(room)
    Server(room / "data").run("initdb", "-D", room / "data", "-U", "postgres", "-A", "trust", "-E", "UTF8",
                              "--locale=C", "-N")
    return room / "data"


def give(folder: Path) -> None:
    """Let the servers' user write to a folder."""
    if os.getuid() == 0:
        for user in ("postgres", "nobody"):
            with contextlib.suppress(KeyError):
                os.chown(folder, pwd.getpwnam(user).pw_uid, pwd.getpwnam(user).pw_gid)
                return


@contextlib.contextmanager
def folder() -> Iterator[Path]:
    """A folder that the servers' user may write to."""
    with tempfile.TemporaryDirectory(prefix="kob-fleet-", dir=quickest()) as name:
        made = Path(name)
        ROOMS.add(made)
        give(made)
        yield made
        ROOMS.discard(made)


@contextlib.contextmanager
def primary(*settings: str, fsync: bool = False) -> Iterator[Server]:
    """A primary alone."""
    with folder() as room:
        server = Server(room / "primary")
        server.create(*settings, fsync=fsync)
        try:
            server.start()
            yield server
        finally:
            server.stop()


@functools.lru_cache(maxsize=1)
def shared() -> Server:
    """A primary that all tests of this process share. It ends with the process."""
    stack = contextlib.ExitStack()
    server = stack.enter_context(primary())
    atexit.register(stack.close)  # (which comes before the finalizers of folders)
    return server


@contextlib.contextmanager
def pair(*settings: str, fsync: bool = False) -> Iterator[tuple[Server, Server]]:
    """A primary that waits until its standby shows each commit, and the standby."""
    with folder() as room:
        first, second = Server(room / "primary"), Server(room / "standby")
        first.create("synchronous_standby_names = 'standby'", "synchronous_commit = remote_apply", *settings,
                     fsync=fsync)
        try:
            first.start()
            second.copy_of(first, "standby")
            second.start()
            if "synchronous_standby_names = ''" not in settings:
                first.wait_for_copy("standby")
            yield first, second
        finally:
            second.stop()
            first.stop()


def both(*servers: Server) -> str:
    """A connection string that finds whichever server takes writes."""
    hosts, ports = ",".join("127.0.0.1" for _ in servers), ",".join(str(server.port) for server in servers)
    return f"host={hosts} port={ports} user=postgres dbname=postgres"


def reason_without() -> str | None:
    """Why these tests can't run on this machine, or None."""
    try:
        import psycopg
    except ImportError:
        return "no psycopg 3, and it could not be installed"
    if psycopg.__version__.split(".") < ["3"]:
        return "no psycopg 3"
    try:
        programs(), as_user()
    except NoServer as why:
        return str(why)
    return None


def backends(server: Server) -> Sequence[int]:
    """The processes of a server that serve a connection, and are not walsenders."""
    import psycopg

    with psycopg.connect(server.address) as connection:
        rows = connection.execute("select pid from pg_stat_activity where backend_type = 'client backend'"
                                  " and pid <> pg_backend_pid()")
        return [row[0] for row in rows]


signal.signal(signal.SIGTERM, end_all)
