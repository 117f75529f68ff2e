"""Servers for tests: on loopback, on free ports, each in a folder of its own. All that were started end with the test."""
import atexit
import os
import random
import shutil
import signal
import socket
import subprocess
import sys
import tempfile
import time

from resp import Connection, Error, info

ROOM = tempfile.mkdtemp(prefix="hlr-redis-")
PATIENCE = 60
started = []
# The environment of a server that loads a module with sanitizers: HLR_PRELOAD has their libraries.
SANITIZED = {"LD_PRELOAD": os.environ.get("HLR_PRELOAD", ""), "ASAN_OPTIONS": "detect_leaks=0:abort_on_error=1",
             "UBSAN_OPTIONS": "print_stacktrace=1:halt_on_error=1"}


def free_port():
    """A free port whose neighbour 10,000 above is free as well, since there the nodes of a cluster talk."""
    while True:
        port = random.randrange(20000, 30000)
        try:
            for one in (port, port + 10000):
                with socket.socket() as listener:
                    listener.bind(("127.0.0.1", one))
            return port
        except OSError:
            pass


def wait_for(what, is_so, seconds=PATIENCE):
    """Waits until something is so, and returns how long that took. A server that is gone or not ready is waited for."""
    begin = time.monotonic()
    while time.monotonic() - begin < seconds:
        try:
            if is_so():
                return time.monotonic() - begin
        except OSError:
            pass
        time.sleep(0.01)
    raise TimeoutError(f"after {seconds} s it is not so: {what}")


class Process:
    """A program that is started in a folder and ends with the test."""

    def __init__(self, name, folder=ROOM):
        self.name, self.folder, self.child = name, os.path.join(folder, name), None
        os.makedirs(self.folder)
        started.append(self)

    def run(self, words, environment=None):
        with open(os.path.join(self.folder, "said"), "ab") as said:
            self.child = subprocess.Popen(words, stdout=said, stderr=said, stdin=subprocess.DEVNULL,
                                          env={**os.environ, **(environment or {})})

    def log(self):
        text = ""
        for name in ("log", "said"):
            path = os.path.join(self.folder, name)
            if os.path.exists(path):
                with open(path, errors="replace") as lines:
                    text += lines.read()
        return text

    def kill(self):
        """kill -9"""
        self.child.send_signal(signal.SIGKILL)
        self.child.wait()

    def stop(self):
        if self.child and self.child.poll() is None:
            self.child.terminate()
            try:
                self.child.wait(PATIENCE)
            except subprocess.TimeoutExpired:
                self.kill()


class Server(Process):
    """A redis-server with the module. `options` are those of its command line, and `module_words` those of the module. A
    module named sanitized.so was built with sanitizers."""

    def __init__(self, name, module, *options, module_words=(), environment=None, folder=ROOM, program=("redis-server",)):
        super().__init__(name, folder)
        self.module_words = list(module_words)
        self.module, self.options, self.program = module, options, list(program)
        self.environment = {**(SANITIZED if os.path.basename(module) == "sanitized.so" else {}), **(environment or {})}
        for _ in range(5):
            self.port = free_port()
            try:
                self.start()
                return
            except RuntimeError:
                if "Address already in use" not in self.log():
                    raise
        raise RuntimeError("no port was free")

    def words(self):
        return [*self.program, "--bind", "127.0.0.1", "--port", str(self.port), "--dir", self.folder, "--logfile",
                os.path.join(self.folder, "log"), "--loadmodule", os.path.abspath(self.module), *self.module_words,
                "--enable-debug-command", "yes", "--save", "", *self.options]

    def start(self):
        """Starts it and waits until it has loaded its data."""
        self.run(self.words(), self.environment)
        wait_for(f"{self.name} answers", self.is_ready)

    def is_ready(self):
        if self.child.poll() is not None:
            raise RuntimeError(f"{self.name} ended: {self.log()[-3000:]}")
        with self.connection() as one:
            return one("PING") == "PONG"

    def restart(self, save=False):
        """Ends it, with or without saving, and starts it again."""
        with self.connection() as one:
            one.send("SHUTDOWN", "SAVE" if save else "NOSAVE")
        self.child.wait(PATIENCE)
        self.start()

    def connection(self, **words):
        return Connection(self.port, **words)

    def set(self, *pairs):
        with self.connection() as one:
            for name, value in zip(pairs[::2], pairs[1::2]):
                reply = one("CONFIG", "SET", name, value)
                if isinstance(reply, Error):
                    raise RuntimeError(f"{name} {value}: {reply}")

    def info(self, section):
        with self.connection() as one:
            return info(one, section)

    def digest(self):
        """One for all rows of all keys."""
        with self.connection() as one:
            return one("DEBUG", "DIGEST")


def command_line(*words):
    """redis-cli --cluster: its output, where it ended well."""
    done = subprocess.run(["redis-cli", "--cluster", *words], stdout=subprocess.PIPE, stderr=subprocess.STDOUT, text=True, check=False,
                          stdin=subprocess.DEVNULL, timeout=PATIENCE * 2)
    if done.returncode != 0:
        raise RuntimeError(f"redis-cli --cluster {words[0]}: {done.stdout[-600:]}")
    return done.stdout


signal.signal(signal.SIGTERM, lambda *_: sys.exit(1))


@atexit.register
def stop_all():
    for one in started:
        if one.child and one.child.poll() is None:
            one.child.kill()
            one.child.wait()
    shutil.rmtree(ROOM, ignore_errors=True)
