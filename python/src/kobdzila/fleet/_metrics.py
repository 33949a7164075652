"""The log and its machines as numbers for Prometheus."""
from __future__ import annotations

import socket
import sys
from collections.abc import Callable, Sequence
from http.server import BaseHTTPRequestHandler, ThreadingHTTPServer
from typing import Any

from ._log import Machine, Status

TYPE = "text/plain; version=0.0.4; charset=utf-8"
ESCAPES = str.maketrans({"\\": r"\\", "\n": r"\n", '"': r"\""})
# Each number of a machine: its name, its kind, what it is, and where it comes from
NUMBERS: Sequence[tuple[str, str, str, Callable[[Machine], float]]] = (
    ("up", "gauge", "1 if the follower reported in the last 30 seconds and hasn't stopped", lambda it: not it.is_dead),
    ("version", "gauge", "the log's version that the machine shows", lambda it: it.version),
    ("behind_versions", "gauge", "how many loads it is behind the log", lambda it: it.behind),
    ("behind_seconds", "gauge", "for how long it has lacked a publish, or the log's epoch", lambda it: it.late),
    ("seen_seconds", "gauge", "how long ago it reported", lambda it: it.seen),
    ("loads_total", "counter", "loads that it has played since its start", lambda it: it.loads),
    ("refusals_total", "counter", "publishes that it refused since its start", lambda it: it.refusals),
    ("reconnects_total", "counter", "how often it had to connect again since its start", lambda it: it.reconnects),
)


def metrics(status: Status) -> str:
    """Return a log's status in the text format of Prometheus."""
    lines = [*family("log_version", "gauge", "the log's version"),
             f"kobdzila_log_version{labels(epoch=status.version.epoch)} {int(status.version)}",
             *family("log_publishes_total", "counter", "publishes in the log"),
             f"kobdzila_log_publishes_total {status.publishes}",
             *family("machine_state", "gauge", "1 for the state that the machine reported")]
    named = [(labels(machine=it.name, process=it.process), it) for it in status.machines]
    lines += [f"kobdzila_machine_state{labels(machine=it.name, process=it.process, state=it.state)} 1"
              for it in status.machines]
    for name, kind, text, number in NUMBERS:
        lines += family(f"machine_{name}", kind, text)
        lines += [f"kobdzila_machine_{name}{words} {float(number(it)):.15g}" for words, it in named]
    return "\n".join([*lines, ""])


def family(name: str, kind: str, text: str) -> list[str]:
    return [f"# HELP kobdzila_{name} {text}", f"# TYPE kobdzila_{name} {kind}"]


def labels(**words: str) -> str:
    return "{" + ",".join(f'{name}="{word.translate(ESCAPES)}"' for name, word in words.items()) + "}"


def served(address: tuple[str, int], text: Callable[[], str]) -> ThreadingHTTPServer:
    """Return a server that answers each GET of /metrics with the metrics. If these raise, the error is sent with status
    503."""

    class Handler(BaseHTTPRequestHandler):
        timeout = 10

        def do_GET(self) -> None:  # noqa: N802 (the name is http.server's)
            try:
                status, body = (200, text()) if self.path.partition("?")[0] == "/metrics" else (404, "see /metrics\n")
            except Exception as why:  # noqa: BLE001 (whatever it is, the server goes on)
                status, body = 503, f"{why}\n"
            data = body.encode()
            self.send_response(status)
            self.send_header("Content-Type", TYPE)
            self.send_header("Content-Length", str(len(data)))
            self.end_headers()
            self.wfile.write(data)

        def log_message(self, format: str, *words: object) -> None:
            """Log nothing."""

    class Server(ThreadingHTTPServer):
        address_family = socket.AF_INET6 if ":" in address[0] else socket.AF_INET

        def handle_error(self, request: Any, client_address: Any) -> None:
            """A client that left early, or doesn't read, is no error."""
            if not isinstance(sys.exc_info()[1], (ConnectionError, TimeoutError)):
                super().handle_error(request, client_address)

    return Server(address, Handler)
