"""A connection to a Redis server over a socket of its own, by RESP2 or RESP3, so that tests need no client library."""
import atexit
import socket
import ssl


class Error(str):
    """An error that a server replied. Its first word is the code."""

    @property
    def code(self):
        return self.split(" ", 1)[0]


def code(reply):
    """The code of an error, and any other reply as it is."""
    return reply.code if isinstance(reply, Error) else reply


def encoded(words):
    """The bytes of a command."""
    words = [word if isinstance(word, bytes) else str(word).encode() for word in words]
    return b"*%d\r\n" % len(words) + b"".join(b"$%d\r\n%s\r\n" % (len(word), word) for word in words)


class Connection:
    """A call sends a command and returns its reply: text, numbers, None, lists, dictionaries or errors. With `binary`, text
    is bytes."""

    def __init__(self, port, user=None, password=None, binary=False, authority=None, timeout=60):
        self.socket = socket.create_connection(("127.0.0.1", port), timeout=timeout)
        self.socket.setsockopt(socket.IPPROTO_TCP, socket.TCP_NODELAY, 1)
        if authority:
            context = ssl.create_default_context(cafile=authority)
            self.socket = context.wrap_socket(self.socket, server_hostname="localhost")
        self.file, self.binary, self.pushed = self.socket.makefile("rb"), binary, []
        atexit.register(self.close)
        if user and self("AUTH", user, password) != ("OK" if not binary else b"OK"):
            raise ConnectionError("the password is refused")

    def __enter__(self):
        return self

    def __exit__(self, *_):
        self.close()

    def __call__(self, *words):
        self.send(*words)
        return self.reply()

    def close(self):
        self.file.close()
        self.socket.close()

    def send(self, *words):
        self.socket.sendall(encoded(words))

    def many(self, commands, pipeline=500):
        """The replies of many commands, which are sent so many at a time."""
        commands, replies = list(commands), []
        for begin in range(0, len(commands), pipeline):
            some = commands[begin:begin + pipeline]
            self.socket.sendall(b"".join(map(encoded, some)))
            replies += [self.reply() for _ in some]
        return replies

    def line(self):
        line = self.file.readline()
        if not line.endswith(b"\r\n"):
            raise ConnectionError("the server closed the connection")
        return line[:-2]

    def text(self, count):
        if count < 0:
            return None
        text = self.file.read(count + 2)
        if len(text) != count + 2:
            raise ConnectionError("the server closed the connection")
        return text[:-2] if self.binary else text[:-2].decode()

    def reply(self):
        """The next reply. What a server pushes by itself is put aside."""
        while True:
            line = self.line()
            if line[:1] != b">":
                return self.value(line)
            self.pushed.append([self.value(self.line()) for _ in range(int(line[1:]))])

    def value(self, line):
        kind, rest = line[:1], line[1:]
        if kind == b"+":
            return rest if self.binary else rest.decode()
        if kind == b"-":
            return Error(rest.decode())
        if kind == b":":
            return int(rest)
        if kind == b"_":
            return None
        if kind == b",":
            return float(rest)
        if kind == b"#":
            return rest == b"t"
        if kind == b"$":
            return self.text(int(rest))
        if kind == b"=":
            return self.text(int(rest))[4:]
        if kind in b"*~":
            return None if rest == b"-1" else [self.value(self.line()) for _ in range(int(rest))]
        if kind == b"%":
            return dict([(self.value(self.line()), self.value(self.line())) for _ in range(int(rest))])
        raise ValueError(f"this is no reply: {line!r}")


def info(connection, section):
    """A section of INFO as a dictionary."""
    lines = [line.split(":", 1) for line in connection("INFO", section).splitlines() if ":" in line]
    return {name: int(value) if value.isdigit() else value for name, value in lines}
