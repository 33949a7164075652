"""A TCP proxy in front of a server, which can fall silent, cut its connections, or refuse new ones."""
from __future__ import annotations

import contextlib
import selectors
import socket
import threading

import servers

PIECE = 1 << 16


class Proxy:
    """Forwards to a port of this machine, in a thread of its own.

    `freeze` lets it keep all connections, and take new ones, and pass nothing on: TCP goes on to acknowledge.
    """

    def __init__(self, to: int) -> None:
        self.to, self.accepted = to, 0
        self._listener = socket.create_server(("127.0.0.1", 0), backlog=200)
        self.port = int(self._listener.getsockname()[1])
        self._selector = selectors.DefaultSelector()
        self._peers: dict[socket.socket, socket.socket] = {}
        self._goes = threading.Event()
        self._goes.set()
        self._ending = self._cutting = False
        self._selector.register(self._listener, selectors.EVENT_READ)
        self._thread = threading.Thread(target=self._run, daemon=True)
        self._thread.start()

    @property
    def address(self) -> str:
        return f"host=127.0.0.1 port={self.port} user=postgres dbname=postgres"

    def freeze(self) -> None:
        self._goes.clear()

    def thaw(self) -> None:
        self._goes.set()

    def cut(self) -> None:
        """Reset all connections."""
        self._cutting = True
        self._goes.set()

    def close(self) -> None:
        self._ending = True
        self._goes.set()
        self._thread.join(5)

    def _run(self) -> None:
        while not self._ending:
            found = self._selector.select(0.02)
            self._goes.wait()
            if self._cutting:
                for it in list(self._peers):
                    self._drop(it)
                self._cutting = False
                continue
            for key, _ in found:
                made = key.fileobj
                assert isinstance(made, socket.socket)
                if made is self._listener:
                    self._accept()
                elif made in self._peers:
                    self._forward(made)
        for it in [*self._peers, self._listener]:
            it.close()

    def _accept(self) -> None:
        client, _ = self._listener.accept()
        self.accepted += 1
        try:
            server = socket.create_connection(("127.0.0.1", self.to), 5)
        except OSError:
            client.close()
            return
        for one, other in ((client, server), (server, client)):
            one.setsockopt(socket.IPPROTO_TCP, socket.TCP_NODELAY, 1)
            self._peers[one] = other
            self._selector.register(one, selectors.EVENT_READ)

    def _forward(self, made: socket.socket) -> None:
        try:
            data = made.recv(PIECE)
            if data:
                self._peers[made].sendall(data)
                return
        except OSError:
            pass
        self._drop(made)

    def _drop(self, made: socket.socket) -> None:
        peer = self._peers.pop(made, None)
        for it in (made, peer):
            if it is not None:
                self._peers.pop(it, None)
                with contextlib.suppress(KeyError, ValueError):
                    self._selector.unregister(it)
                it.close()


def silent_port() -> tuple[int, list[socket.socket]]:
    """A port that takes connections, as far as TCP goes, and says nothing. Close what comes with it."""
    made = socket.create_server(("127.0.0.1", 0), backlog=50)
    return int(made.getsockname()[1]), [made]


def dropping_port() -> tuple[int, list[socket.socket]]:
    """A port that drops what comes: its queue is full."""
    made = socket.socket()
    made.bind(("127.0.0.1", 0))
    made.listen(0)
    fillers = []
    for _ in range(3):
        filler = socket.socket()
        filler.setblocking(False)
        with contextlib.suppress(BlockingIOError):
            filler.connect(made.getsockname())
        fillers.append(filler)
    return int(made.getsockname()[1]), [made, *fillers]


def before(port: int, server: servers.Server) -> str:
    """A connection string that names a port and then a server."""
    return f"host=127.0.0.1,127.0.0.1 port={port},{server.port} user=postgres dbname=postgres"
