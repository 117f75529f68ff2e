"""A page that shows a register at work: its counts, its parts, and buttons to post and to move bounds between parts.

    HLR_LIBRARY=/tmp/libhlr.so PYTHONPATH=python python3 examples/live [--minutes N] [--port N] ..

It prints the page's address, serves it to this machine alone (127.0.0.1), and ends after --minutes, or at Ctrl-C. It is
a demonstration: each run makes a register of drawn subscribers, which is gone as the run ends. With --server, the
register is in a Redis server that has loaded hlr.so, at the key `live`, and clients call it over the network.
"""
import argparse
import http.server
import json
import pathlib
import signal
import socket
import sys
import threading
from typing import Any, Dict

try:
    import hlr
except ImportError:
    sys.exit("there is no package hlr: set PYTHONPATH to the folder python")
from store import ACTIONS, Shown, Store

PAGE = pathlib.Path(__file__).with_name("page.html")
OWN = ("default-src 'none'; script-src 'unsafe-inline'; style-src 'unsafe-inline'; connect-src 'self'; img-src data:; "
       "base-uri 'none'; form-action 'none'; frame-ancestors 'none'")


class Server(http.server.ThreadingHTTPServer):
    """Serves the page of a store, on the loopback alone."""

    daemon_threads = False  # as it is closed, it waits for what is being answered

    def __init__(self, port: int, store: Shown) -> None:
        super().__init__(("127.0.0.1", port), Handler)
        self.store = store
        self.names = [f"{name}:{self.server_port}" for name in ("127.0.0.1", "localhost")]


class Handler(http.server.BaseHTTPRequestHandler):
    """GET / is the page, /events what it is told, and /state the same once. POST /act does what a button says."""

    server: Server
    timeout = 5

    def log_message(self, *_: Any) -> None:
        """Nothing is logged."""

    def answer(self, kind: str, content: bytes, status: int = 200) -> None:
        self.send_response(status)
        for name, value in (("Content-Type", kind), ("Content-Length", str(len(content))),
                            ("Cache-Control", "no-store"), ("Content-Security-Policy", OWN),
                            ("X-Content-Type-Options", "nosniff")):
            self.send_header(name, value)
        self.end_headers()
        self.wfile.write(content)

    def answer_json(self, value: Dict[str, Any], status: int = 200) -> None:
        self.answer("application/json", json.dumps(value).encode(), status)

    def is_own(self) -> bool:
        """Whether it is asked by this page's name: no page from elsewhere is let in by a name of its own."""
        own = self.headers.get("Host") in self.server.names
        if not own:
            self.answer_json({"said": "this is another page's name"}, 403)
        return own

    def do_GET(self) -> None:
        if not self.is_own():
            return
        if self.path == "/":
            self.answer("text/html; charset=utf-8", PAGE.read_bytes())
        elif self.path == "/state":
            self.answer_json(self.server.store.state())
        elif self.path == "/events":
            self.tell()
        else:
            self.answer_json({"said": "there is no such page"}, 404)

    def tell(self) -> None:
        """Tells the page what is new, as long as it listens."""
        store, version = self.server.store, -1
        self.send_response(200)
        self.send_header("Content-Type", "text/event-stream")
        self.send_header("Cache-Control", "no-store")
        self.end_headers()
        try:
            while not store.ending.is_set():
                state = store.next(version)
                version = state["version"]
                self.wfile.write(b"data: " + json.dumps(state).encode() + b"\n\n")
            self.wfile.write(b"event: end\ndata: end\n\n")
        except (ConnectionError, socket.timeout):
            pass

    def do_POST(self) -> None:
        """A button. A page from elsewhere can't send JSON here, as a browser would ask first."""
        if not self.is_own():
            return
        try:
            if self.path != "/act" or self.headers.get("Content-Type") != "application/json":
                raise ValueError("there is nothing to post to")
            length = int(self.headers.get("Content-Length", "0"))
            if not 0 <= length <= 1000:
                raise ValueError("that is too long")
            asked = json.loads(self.rfile.read(length))
            action, part = asked["action"], asked.get("part", 0)
            if action not in ACTIONS or type(part) is not int:
                raise ValueError("there is no such button")
        except (ValueError, KeyError, TypeError, AttributeError):
            self.answer_json({"said": "there is no such button"}, 400)
            return
        self.answer_json({"said": self.server.store.act(action, part)})


def made(given: argparse.Namespace) -> Shown:
    """Makes the register, here or in a server."""
    shape = given.parts, given.subscribers, given.pace, given.seed
    if not given.server:
        return Store(*shape)
    try:
        import redis
        from served import ServedStore
    except ModuleNotFoundError:
        sys.exit("there is no python3-redis: install Debian's package, and use /usr/bin/python3")
    try:
        return ServedStore(given.server, *shape)
    except ValueError as fault:
        sys.exit(f"--server {given.server}: {fault}")
    except hlr.StillOpen:
        sys.exit(f"--server {given.server}: there is a key live already")
    except redis.RedisError as fault:
        sys.exit(f"--server {given.server}: {fault}")


def main() -> None:
    parser = argparse.ArgumentParser(prog="python3 examples/live", description=__doc__,
                                     formatter_class=argparse.RawDescriptionHelpFormatter)
    for name, kind, usual, about in (
            ("--minutes", float, 10, "when it ends"), ("--port", int, 0, "where the page is; 0 is any that is free"),
            ("--parts", int, 4, "1 to 16; with --server, how many clients"),
            ("--subscribers", int, 3000, "about how many, 100 to 100000"),
            ("--pace", int, 2000, "calls a second, 1 to 20000"), ("--seed", int, 1, "which subscribers are drawn")):
        parser.add_argument(name, type=kind, default=usual, metavar="N", help=f"{about} ({usual})")
    parser.add_argument("--server", metavar="URL", help="a Redis server, as redis://127.0.0.1:6379")
    given = parser.parse_args()
    for name, least, most in (("minutes", 0, 1440), ("port", 0, 65535), ("parts", 1, 16),
                              ("subscribers", 100, 100000), ("pace", 1, 20000)):
        if not least <= getattr(given, name) <= most:
            parser.error(f"--{name} is {least} to {most}")
    over = threading.Event()
    for number in (signal.SIGINT, signal.SIGTERM):
        signal.signal(number, lambda *_: over.set())
    try:
        store = made(given)
    except ImportError as fault:
        sys.exit(str(fault))
    try:
        server = Server(given.port, store)
    except OSError as fault:
        parser.error(f"--port {given.port}: {fault.strerror}")
    with server:
        threading.Thread(target=server.serve_forever).start()
        store.start()
        print(f"http://{server.names[0]}/ for {given.minutes:g} minutes", flush=True)
        over.wait(given.minutes * 60)
        server.shutdown()
        store.end()
    store.close()


if __name__ == "__main__":
    main()
