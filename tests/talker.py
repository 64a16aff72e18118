#!/usr/bin/env python3
"""A WebSocket client (RFC 6455) of its own: talker.py CASE PORT [WORD..], as client.py."""
import base64
import hashlib
import os
import select
import socket
import struct
import time

from client import Connection, check, main, same

TEXT, BINARY, CLOSE, PING, PONG = 1, 2, 8, 9, 10


def frame(code, data, last=True, masked=True):
    """A frame of RFC 6455 5.2, with a mask of its own."""
    head = bytes([code | 0x80 * last])
    bit = 0x80 * masked
    if len(data) < 126:
        head += bytes([bit | len(data)])
    elif len(data) < 65_536:
        head += bytes([bit | 126]) + struct.pack(">H", len(data))
    else:
        head += bytes([bit | 127]) + struct.pack(">Q", len(data))
    if not masked:
        return head + data
    key = os.urandom(4)
    longer = (key * (len(data) // 4 + 1))[: len(data)]
    whole = int.from_bytes(data, "big") ^ int.from_bytes(longer, "big")
    return head + key + whole.to_bytes(len(data), "big")


class Talk(Connection):
    """A WebSocket, of which the handshake is over."""

    def __init__(self, port, path, more="", key=b"dGhlIHNhbXBsZSBub25jZQ==", behind=b""):
        super().__init__(port)
        self.send(handshake(path, key, more) + behind)
        status, fields = self.head()
        same(f"the status at {path}", status, 101)
        wanted = hashlib.sha1(key + b"258EAFA5-E914-47DA-95CA-C5AB0DC85B11").digest()
        same("the accept value", fields["sec-websocket-accept"], base64.b64encode(wanted).decode())
        same("Upgrade", fields["upgrade"].lower(), "websocket")
        same("Connection", fields["connection"].lower(), "upgrade")

    def say(self, text):
        self.send(frame(TEXT, text))

    def parsed(self):
        """The next frame, if it is whole: its kind, whether it is the last, and its data."""
        rest = self.rest
        if len(rest) < 2:
            return None
        size, at = rest[1] & 127, 2
        check(rest[1] < 128, "a frame of the server's is masked")
        if size == 126:
            if len(rest) < 4:
                return None
            (size,), at = struct.unpack(">H", rest[2:4]), 4
        elif size == 127:
            if len(rest) < 10:
                return None
            (size,), at = struct.unpack(">Q", rest[2:10]), 10
        if len(rest) < at + size:
            return None
        self.rest = rest[at + size :]
        return rest[0] & 15, rest[0] >= 128, rest[at : at + size]

    def next(self):
        """The next frame."""
        while True:
            found = self.parsed()
            if found is not None:
                return found
            check(self.more(), "the end came before a frame")

    def hears(self, text):
        same("a message", self.next(), (TEXT, True, text))

    def closes(self, code):
        """The next frame is a close with this code, and then the end comes."""
        kind, last, data = self.next()
        same("the last frame", (kind, last, data[:2]), (CLOSE, True, struct.pack(">H", code)))
        self.send(frame(CLOSE, data[:2]))
        same("behind it", self.to_end(), b"")


def handshake(path, key, more=""):
    return (
        f"GET {path} HTTP/1.1\r\nHost: a.example\r\nUpgrade: websocket\r\nConnection: Upgrade\r\n"
        f"Sec-WebSocket-Version: 13\r\nSec-WebSocket-Key: {key.decode()}\r\n{more}\r\n"
    ).encode()


def sample(port):
    """The handshake of section 1.3 and the masked frame of section 5.7, to a program that gives its input back."""
    it = Talk(port, "/cat")
    it.send(bytes.fromhex("818537fa213d7f9f4d5158"))
    same("its bytes", it.take(7), bytes.fromhex("810548656c6c6f"))


def at_once(port):
    """A frame in one piece with the handshake is heard."""
    it = Talk(port, "/cat", behind=frame(TEXT, b"early"))
    it.hears(b"early")


def refused(port):
    """Requests that are no handshake, and one of an origin that isn't allowed."""
    for text, status in (
        (b"GET /cat HTTP/1.1\r\nHost: a.example\r\n\r\n", 426),
        (handshake("/cat", b"short"), 400),
        (handshake("/picky", b"dGhlIHNhbXBsZSBub25jZQ=="), 403),
    ):
        it = Connection(port)
        it.send(text)
        same(f"{text[:40]!r}", it.head()[0], status)
    Talk(port, "/picky", "Origin: http://a.example\r\n")


def lines(port):
    """Each line of a program is a message, its last rest too, and its end closes with 1000."""
    it = Talk(port, "/lines")
    for text in (b"one", b"", b"two words", b"last"):
        it.hears(text)
    it.closes(1000)


def fragments(port):
    """A message in three frames, with a ping among them, is one line of the program's input."""
    it = Talk(port, "/cat")
    it.send(frame(TEXT, b"a", last=False) + frame(0, b"b", last=False))
    it.send(frame(PING, b"ping"))
    same("the pong", it.next(), (PONG, True, b"ping"))
    it.send(frame(0, b"c"))
    it.hears(b"abc")


def ends(port):
    """How a talk ends: by the client's close, by what it may not send, and by texts that are too long."""
    it = Talk(port, "/cat")
    it.send(frame(CLOSE, struct.pack(">H", 1000)))
    kind, _, data = it.next()
    same("the reply to a close", (kind, data[:2]), (CLOSE, struct.pack(">H", 1000)))
    same("behind it", it.to_end(), b"")
    it = Talk(port, "/cat")
    it.send(frame(BINARY, b"x"))
    it.closes(1003)
    it = Talk(port, "/cat")
    it.say(b"x" * 65_537)
    it.closes(1009)
    it = Talk(port, "/cat")
    it.say(b"x" * 65_536)
    it.hears(b"x" * 65_536)
    it = Talk(port, "/endless")
    it.closes(1011)
    # After a frame that isn't masked no close is sent (section 7.1.7).
    it = Talk(port, "/cat")
    it.send(frame(TEXT, b"x", masked=False))
    same("an unmasked frame", it.to_end(), b"")


def gone(port):
    """The program of a client that is gone ends."""
    for how in (Connection.close, Connection.reset):
        it = Talk(port, "/pid")
        pid = int(it.next()[2])
        how(it)
        end = time.monotonic() + 10
        while os.path.exists(f"/proc/{pid}"):
            check(time.monotonic() < end, "the program still runs after 10 s")
            time.sleep(0.02)


def cut_off(port):
    """A client whose end comes without a close frame has failed: its program is killed at once, and doesn't linger, though it
    doesn't mind the end of its input."""
    it = Talk(port, "/stays")
    pid = int(it.next()[2])
    it.socket.shutdown(socket.SHUT_WR)
    begun = time.monotonic()
    while os.path.exists(f"/proc/{pid}"):
        check(time.monotonic() < begun + 1.2, "the program still runs after 1.2 s")
        time.sleep(0.02)


def full_speed(port, count, size):
    """So many messages of so many bytes go to /bin/cat and come back, in both directions at once and in their order."""
    count, size = int(count), int(size)
    it = Talk(port, "/cat")
    it.socket.setblocking(False)
    texts = [b"%d:" % at + b"x" * size for at in range(count)]
    waits, sent, seen = b"", 0, 0
    end = time.monotonic() + 90
    while seen < count:
        check(time.monotonic() < end, f"{sent} were sent and {seen} came back in time")
        if not waits and sent < count:
            batch = texts[sent : sent + 64]
            waits = b"".join(frame(TEXT, text) for text in batch)
            sent += len(batch)
        readable, writable, _ = select.select([it.socket], [it.socket] if waits else [], [], 1)
        if writable:
            waits = waits[it.socket.send(waits[:262_144]) :]
        if readable:
            check(it.more(), f"the end came behind {seen} messages")
        while (found := it.parsed()) is not None:
            same("a message", found, (TEXT, True, texts[seen]))
            seen += 1


def unread(port, size):
    """A client that reads nothing while it sends so many bytes, and then reads, gets all of it: neither side waits for the
    other for ever."""
    size = int(size)
    it = Talk(port, "/cat")
    count = size // 1024
    for at in range(count):
        it.say(b"%08d" % at + b"x" * 1016)
    time.sleep(0.5)
    for at in range(count):
        it.hears(b"%08d" % at + b"x" * 1016)


def late_reader(port):
    """A program that writes 8 MiB of lines while its client reads nothing is held back, and loses none."""
    it = Talk(port, "/many")
    time.sleep(1)
    for at in range(8192):
        it.hears(b"%07d" % at + b"y" * 1016)
    it.closes(1000)


def empty_lines(port):
    """A program that writes empty lines for ever: who reads them gets them, and who reads none is cut off."""
    it = Talk(port, "/empty")
    for _ in range(20_000):
        it.hears(b"")
    it.reset()
    it = Talk(port, "/empty")
    time.sleep(1)
    count = len(it.to_end())
    check(count < 32 << 20, f"{count} bytes had waited")


def rounds(port, sockets, count):
    """So many sockets at once, each with so many messages there and back."""
    talks = [Talk(port, "/cat") for _ in range(int(sockets))]
    for at in range(int(count)):
        for number, it in enumerate(talks):
            it.say(b"%d %d" % (number, at))
        for number, it in enumerate(talks):
            it.hears(b"%d %d" % (number, at))


def come_and_go(port, path, count):
    """So many talks at once of a script that says a line and goes on. They go by a reset, by their end and by a close frame."""
    talks = [Talk(port, path) for _ in range(int(count))]
    for it in talks:
        it.hears(b"first")
    for at, it in enumerate(talks):
        if at % 3 == 0:
            it.reset()
        elif at % 3 == 1:
            it.close()
        else:
            it.send(frame(CLOSE, struct.pack(">H", 1000)))
    for it in talks[2::3]:
        it.to_end()
        it.close()


def at_stop(port):
    """A talk ends with the server. The order is written here once the talk is under way."""
    it = Talk(port, "/pid")
    pid = int(it.next()[2])
    print("stop", flush=True)
    it.to_end()
    end = time.monotonic() + 10
    while os.path.exists(f"/proc/{pid}"):
        check(time.monotonic() < end, "the program still runs after 10 s")
        time.sleep(0.02)


if __name__ == "__main__":
    main(globals())
