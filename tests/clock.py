#!/usr/bin/env python3
"""A client for what takes its time: clock.py CASE PORT [WORD..], as client.py; time.sh says what the programs do."""
import email.utils
import os
import socket
import threading
import time

from client import Connection, check, get, main, same
from talker import CLOSE, Talk, frame


def passed(begun, least, most, name):
    """So many seconds passed, at least and at most."""
    took = time.monotonic() - begun
    check(least <= took <= most, f"{name}: {took:.2f} s, where {least} to {most} were wanted")


class Readers:
    """So many readers of endless streams, each in a thread. One that is ended, as it was too long, is asked for again."""

    def __init__(self, port, count, path="/streams"):
        self.over = False
        self.read = [0] * count
        self.threads = [threading.Thread(target=self.go_on, args=(port, at, path), daemon=True) for at in range(count)]
        for it in self.threads:
            it.start()
        while min(self.read) < 1_000_000:
            time.sleep(0.01)

    def go_on(self, port, at, path):
        while not self.over:
            it = Connection(port)
            it.send(get(path, "Connection: close\r\n"))
            piece = b"x"
            while piece and not self.over:
                piece = it.socket.recv(65536)
                self.read[at] += len(piece)
            it.close()

    def end(self):
        self.over = True
        for it in self.threads:
            it.join()


def limit(port, seconds):
    """Beside three readers of an endless stream a script that sleeps has its 504 in its time, and a kept connection on which
    nothing is sent lives its whole idle time, and no more than 1.6 times that; both have so many seconds."""
    seconds = int(seconds)
    readers = Readers(port, 3)
    kept, asked = Connection(port), Connection(port)
    kept.send(get("/hi"))
    same("before it is idle", kept.reply()[0], 200)
    idle = time.monotonic()
    faults = []

    def lives():
        try:
            same("of an idle connection", kept.to_end(), b"")
            passed(idle, seconds - 0.3, 1.6 * seconds, "an idle connection")
        except Exception as error:
            faults.append(error)

    other = threading.Thread(target=lives)
    other.start()
    begun = time.monotonic()
    asked.send(get("/sleeps"))
    same("the status of a script that sleeps", asked.reply()[0], 504)
    passed(begun, seconds - 0.3, 1.6 * seconds, "a script that sleeps")
    other.join()
    readers.end()
    check(not faults, f"{faults}")


def beside(port):
    """Beside readers of endless streams, whose programs always have more to tell, others are served, and all readers go on."""
    readers = Readers(port, 4)
    before = list(readers.read)
    begun = time.monotonic()
    for _ in range(20):
        it = Connection(port)
        it.send(get("/hi", "Connection: close\r\n"))
        same("beside endless streams", it.reply(), (200, b"hi\n"))
    passed(begun, 0, 10, "20 requests beside endless streams")
    time.sleep(1)
    gone_on = [now - then for now, then in zip(readers.read, before)]
    check(min(gone_on) * 20 > max(gone_on), f"readers of endless streams had {gone_on}")
    readers.end()


def stopped(port, pid, seconds):
    """After the server was stopped for so many seconds, in which a client sent a request, that is answered."""
    kept, idle = Connection(port), Connection(port)
    for it in (kept, idle):
        it.send(get("/hi"))
        it.reply()
    os.kill(int(pid), 19)
    time.sleep(1)
    kept.send(get("/hi"))
    time.sleep(int(seconds))
    os.kill(int(pid), 18)
    same("a request of meanwhile", kept.reply(), (200, b"hi\n"))
    same("of an idle connection", idle.to_end(), b"")


def drained(port, folder):
    """After `drain`, which the file `orders` of the folder takes, a connection on which nothing is under way is closed at
    once, half a head is answered and dropped, what was sent before is answered, and what runs comes to its end."""
    runs, idle, half, silent = (Connection(port) for _ in range(4))
    idle.send(get("/hi"))
    same("before the order", idle.reply(), (200, b"hi\n"))
    half.send(b"GET /hi HTT")
    runs.send(get("/naps?3"))
    same("of what runs", runs.head()[0], 200)
    time.sleep(0.3)
    begun = time.monotonic()
    with open(f"{folder}/orders", "w") as orders:
        orders.write("drain\n")
    same("a kept connection", idle.to_end(), b"")
    same("a silent connection", silent.to_end(), b"")
    same("half a head", half.reply(), (400, b"request ended early\n"))
    same("behind half a head", half.to_end(), b"")
    passed(begun, 0, 2, "what is closed at once")
    try:
        Connection(port)
        check(False, "a client was let in")
    except ConnectionError:
        pass
    same("what runs", runs.chunk() + runs.chunk(), b"done\n")
    same("behind it", runs.to_end(), b"")
    passed(begun, 2, 10, "what runs")


def room(port, slots):
    """A client that finds no slot is shut, and hears nothing; one slot that is free is for the next."""
    held = [Connection(port) for _ in range(int(slots))]
    for it in held:
        it.send(get("/hi"))
        same("of the slots", it.reply(), (200, b"hi\n"))
    for _ in range(2):
        begun = time.monotonic()
        beyond = Connection(port)
        beyond.send(get("/hi"))
        same("a client beyond the slots", beyond.to_end(), b"")
        passed(begun, 0, 3, "a client beyond the slots")
    for _ in range(5):
        waits = Connection(port)
        waits.send(get("/hi"))
        held.pop(0).close()
        same("once a slot is free", waits.reply(), (200, b"hi\n"))
        held.append(waits)
    for it in held:
        it.send(get("/hi"))
        same("of those that are there", it.reply(), (200, b"hi\n"))
        it.close()


def lingering(port, slots):
    """A client that keeps its socket open behind a reply that closes holds no slot."""
    slots = int(slots)
    held = []
    begun = time.monotonic()
    for _ in range(slots * 2):
        it = Connection(port)
        it.send(get("/hi", "Connection: close\r\n"))
        same("of the slots", it.reply(), (200, b"hi\n"))
        held.append(it)
    passed(begun, 0, 1.7, f"{slots * 2} clients that stay")
    for it in held:
        it.close()


def date(port):
    """The Date of a reply is that of the machine's clock."""
    time.sleep(0.5)
    it = Connection(port)
    it.send(get("/hi", "Connection: close\r\n"))
    _, fields = it.head()
    at = email.utils.parsedate_to_datetime(fields["date"]).timestamp()
    check(abs(at - time.time()) < 10, f"Date: {fields['date']}, at {time.time()}")


def peers(port):
    """Each client's program has its address."""
    its = []
    for address in ("127.0.0.2", "127.0.0.1", "127.0.0.3"):
        it = Connection.__new__(Connection)
        it.socket = socket.create_connection(("127.0.0.1", port), 20, (address, 0))
        it.rest = b""
        its.append((it, address))
    for it, address in reversed(its):
        it.send(get("/peer", "Connection: close\r\n"))
        same("REMOTE_ADDR", it.reply(), (200, address.encode() + b"\n"))


def outlives(port, file):
    """A program outlives a close frame for its time, and not a client that is gone."""
    it = Talk(port, "/outlives")
    it.send(frame(CLOSE, b"\3\xe8"))
    same("the answer to a close", it.next()[2][:2], b"\3\xe8")
    same("behind it", it.to_end(), b"")
    end = time.monotonic() + 10
    while not os.path.exists(file):
        check(time.monotonic() < end, "a program was killed at a close frame")
        time.sleep(0.05)
    os.unlink(file)
    it = Talk(port, "/outlives")
    time.sleep(0.3)
    it.reset()
    time.sleep(3)
    check(not os.path.exists(file), "a program outlived a client that was gone")


def slow_reader(port, size):
    """A client that reads some bytes a second for 20 s has all of a reply that closes."""
    it = Connection.__new__(Connection)
    it.socket = socket.socket()
    it.socket.setsockopt(socket.SOL_SOCKET, socket.SO_RCVBUF, 8192)
    it.socket.connect(("127.0.0.1", port))
    it.socket.settimeout(30)
    it.rest = b""
    it.send(get("/long", "Connection: close\r\n"))
    end = time.monotonic() + 20
    count = 0
    while time.monotonic() < end:
        count += len(it.socket.recv(8192))
        time.sleep(1)
    while True:
        piece = it.socket.recv(1_000_000)
        if piece == b"":
            break
        count += len(piece)
    check(count > int(size), f"a slow reader had {count} bytes of {size}")


if __name__ == "__main__":
    main(globals())
