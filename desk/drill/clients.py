"""Clients of a desk: several in one loop, each with lines that are not answered yet."""

import selectors
import socket
import time

from judge import Loss
from traffic import Line

PATIENCE = 20


def connect(folder):
    """A connection to the desk that serves a folder, by its socket, or by a port of this machine."""
    if isinstance(folder, int):
        return socket.create_connection(("127.0.0.1", folder))
    sock = socket.socket(socket.AF_UNIX)
    sock.connect(str(folder / "sock"))
    return sock


class Client:
    """A client: what it sent on this connection, and what it was told."""

    def __init__(self, folder, traffic=None, window=1, first=()):
        self.sock, self.traffic, self.window = connect(folder), traffic, window
        self.sock.setblocking(False)
        self.lines, self.told, self.out, self.rest = [], 0, bytearray(), b""
        self.first, self.message, self.open = list(first), None, True

    def send(self, *texts):
        for text in texts:
            self.lines.append(text if isinstance(text, Line) else Line(text))
            self.out += self.lines[-1].text.encode("latin-1") + b"\n"

    def waiting(self):
        return len(self.lines) - self.told

    def more(self):
        """Sends what the window has room for: first what is to be sent again, then new lines."""
        while self.traffic and self.waiting() < self.window:
            self.send(self.first.pop(0) if self.first else self.traffic.line())

    def write(self):
        try:
            with memoryview(self.out) as out:
                sent = self.sock.send(out[:1 << 18])
            del self.out[:sent]
        except BlockingIOError:
            pass
        except OSError:
            self.out.clear()

    def read(self):
        try:
            data = self.sock.recv(1 << 16)
        except BlockingIOError:
            return
        except OSError:
            data = b""
        self.open = bool(data)
        *whole, self.rest = (self.rest + data).split(b"\n")
        for line in whole:
            self.take(line.decode("latin-1"))

    def take(self, told):
        if told.startswith("!"):
            self.message = told
        elif self.message or self.told == len(self.lines):
            raise Loss(f"a client was told what it did not ask for: {told}")
        else:
            self.lines[self.told].told = told
            self.told += 1
            if self.traffic and len(told) == 32:
                self.traffic.count = int(told[24:], 16)

    def close(self):
        self.open = False
        self.sock.close()


def turn(clients, seconds):
    """Waits for what can be read or written, at most so long, and does it."""
    with selectors.DefaultSelector() as chooser:
        for client in clients:
            if client.open:
                chooser.register(client.sock, selectors.EVENT_READ | (selectors.EVENT_WRITE if client.out else 0), client)
        for key, events in chooser.select(seconds):
            if events & selectors.EVENT_WRITE:
                key.data.write()
            if events & selectors.EVENT_READ:
                key.data.read()


def talk(clients, seconds, events=()):
    """Clients send and read for so many seconds; `events` are (second, function) for what happens meanwhile."""
    start, events = time.monotonic(), sorted(events, key=lambda event: event[0])
    while (past := time.monotonic() - start) < seconds:
        while events and events[0][0] <= past:
            events.pop(0)[1]()
        for client in clients:
            if client.open:
                client.more()
        turn(clients, min(0.01, max(0, seconds - past)))


def finish(clients, seconds=PATIENCE):
    """Reads until every line is answered or the connection has ended."""
    end = time.monotonic() + seconds
    while any(client.open and client.waiting() for client in clients):
        if time.monotonic() > end:
            raise Loss(f"a line is not answered in {seconds} seconds")
        turn(clients, 0.1)


def drain(clients, seconds=PATIENCE):
    """Reads until all connections have ended."""
    end = time.monotonic() + seconds
    while any(client.open for client in clients):
        if time.monotonic() > end:
            raise Loss(f"a connection does not end in {seconds} seconds")
        turn(clients, 0.1)
    for client in clients:
        client.close()
