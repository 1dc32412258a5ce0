"""A small client of Redis: its protocol (RESP 2) over a socket, with the standard library alone."""

import socket


class Refused(Exception):
    """A command that the server didn't carry out, with what it said."""


class Broker:
    """A connection to the server at an address: the path of its socket, or HOST:PORT."""

    def __init__(self, address):
        self._connection = connect(address)
        self._replies = self._connection.makefile("rb", 1 << 16)

    def call(self, *command):
        """The reply to one command."""
        return self.call_all([command])[0]

    def call_all(self, commands):
        """The replies to commands that are sent at once. Raises the first refusal among them."""
        replies = self.try_all(commands)
        for reply in replies:
            if isinstance(reply, Refused):
                raise reply
        return replies

    def try_all(self, commands):
        """The replies to commands that are sent at once, refusals among them."""
        self._connection.sendall(b"".join(map(encoded, commands)))
        return [self._reply() for _ in commands]

    def _reply(self):
        kind, rest = self._line()
        if kind == b"+":
            return rest
        if kind == b"-":
            return Refused(rest.decode(errors="replace"))
        if kind == b":":
            return int(rest)
        if kind == b"$":
            return self._text(int(rest))
        if kind == b"*":
            return self._list(int(rest))
        raise ConnectionError("what the server sent is no reply")

    def _line(self):
        line = self._replies.readline()
        if not line.endswith(b"\r\n"):
            raise ConnectionError("the server has closed the connection")
        return line[:1], line[1:-2]

    def _text(self, size):
        if size < 0:
            return None
        text = self._replies.read(size + 2)
        if len(text) < size + 2:
            raise ConnectionError("the server has closed the connection")
        return text[:-2]

    def _list(self, length):
        return None if length < 0 else [self._reply() for _ in range(length)]


def connect(address):
    if "/" not in address:
        host, _, port = address.rpartition(":")
        return socket.create_connection((host, int(port)))
    connection = socket.socket(socket.AF_UNIX)
    connection.connect(address)
    return connection


def encoded(command):
    """A command as the protocol has it: how many words, and each behind its length."""
    words = [word if isinstance(word, bytes) else str(word).encode() for word in command]
    return b"*%d\r\n" % len(words) + b"".join(b"$%d\r\n%s\r\n" % (len(word), word) for word in words)
