#!/usr/bin/env python3
"""A client of folders of documents: documents.py CASE PORT [WORD..], as client.py. It is started beside the folder `docs`,
and changes files of it; documents.sh says what lies there."""
import os
import threading
import time

from client import Connection, Wrong, await_end, begin, check, get, main, same
from talker import Talk

# What a text that grows is a front of.
PATTERN = b"".join(b"%07d\n" % at for at in range(20_000))


def held(name):
    with open(f"docs/{name}", "rb") as file:
        return file.read()


def put(name, data):
    """Puts a file in the place of another at once."""
    with open(f"docs/.{name}", "wb") as file:
        file.write(data)
    os.replace(f"docs/.{name}", f"docs/{name}")


def kept(port):
    """100 documents on one connection, a script between them now and then."""
    it = Connection(port)
    short = held("short")
    for at in range(100):
        it.send(get("/d/a.txt") if at % 3 else get("/d/short"))
        same("a kept connection", it.reply(), (200, b"hello" if at % 3 else short))
        if at % 10 == 0:
            it.send(get("/hi"))
            same("a script between", it.reply(), (200, b"hi\n"))
    it.send(get("/d/a.txt", "Connection: close\r\n"))
    same("the last request", it.reply(), (200, b"hello"))
    same("behind the last reply", it.to_end(), b"")


def pipelined(port):
    """50 requests, in one piece, are answered in their order: documents, ranges, long documents, what is missing, scripts."""
    kinds = [
        (get("/d/a.txt"), (200, b"hello")),
        (get("/d/a.txt", "Range: bytes=1-3\r\n"), (206, b"ell")),
        (get("/d/long"), (200, held("long"))),
        (get("/d/missing"), (404, b"no document\n")),
        (get("/hi"), (200, b"hi\n")),
    ]
    it = Connection(port)
    it.send(b"".join(kinds[at % 5][0] for at in range(50)))
    for at in range(50):
        same("a pipelined request", it.reply(), kinds[at % 5][1])


def often(port, count):
    """So many requests on one connection, a hundred of them in one piece: documents, ranges, what is missing, other methods."""
    kinds = [
        (get("/d/a.txt"), (200, b"hello")),
        (get("/d/a.txt", "Range: bytes=1-3\r\n"), (206, b"ell")),
        (get("/d/missing"), (404, b"no document\n")),
        (get("/d/a.txt").replace(b"GET", b"DELETE", 1), (405, b"method not allowed\n")),
    ]
    it = Connection(port)
    for _ in range(int(count) // 100):
        it.send(b"".join(kinds[at % 4][0] for at in range(100)))
        for at in range(100):
            same("one of many", it.reply(), kinds[at % 4][1])


def bytewise(port):
    """A request of which each byte is sent alone."""
    it = Connection(port)
    for at in get("/d/a.txt", "Range: bytes=-2\r\n"):
        it.send(bytes([at]))
    same("a request in single bytes", it.reply(), (206, b"lo"))


def at_once(port, count):
    """So many clients ask at once, each for a document of 1 MiB, a small one, a range, and a script."""
    whole = held("mib")
    ready = threading.Barrier(int(count))
    faults = []

    def one():
        try:
            it = Connection(port)
            ready.wait(60)
            it.send(get("/d/mib"))
            check(it.reply() == (200, whole), "the long document is another one")
            it.send(get("/d/a.txt"))
            same("the short one", it.reply(), (200, b"hello"))
            it.send(get("/d/mib", "Range: bytes=500000-700000\r\n"))
            check(it.reply() == (206, whole[500_000:700_001]), "the range is another one")
            it.send(get("/d/missing"))
            same("a missing one", it.reply(), (404, b"no document\n"))
            it.close()
        except (Wrong, OSError, threading.BrokenBarrierError) as error:
            faults.append(f"{error!r}")

    threads = [threading.Thread(target=one) for _ in range(int(count))]
    for it in threads:
        it.start()
    for it in threads:
        it.join()
    check(not faults, f"{len(faults)} clients: {faults[:1]}")


def talks(port):
    """A WebSocket goes on while documents are served beside it."""
    talk = Talk(port, "/ws")
    it = Connection(port)
    for at in range(20):
        text = b"line %d" % at
        talk.say(text)
        it.send(get("/d/long"))
        check(it.reply() == (200, held("long")), "the document beside a talk")
        talk.hears(text)
    talk.close()


def beside(port, act, tries):
    """Asks for /d/changing so often while another thread does something with the file over and over: the replies."""
    over = threading.Event()

    def changes():
        while not over.is_set():
            act()

    thread = threading.Thread(target=changes)
    thread.start()
    try:
        it = Connection(port)
        for _ in range(tries):
            it.send(get("/d/changing"))
            yield it.reply()
    finally:
        over.set()
        thread.join()


def swapped(port):
    """Where one file is put in the place of another, each reply is one of the two, whole."""
    both = [bytes([mark]) * size for mark, size in ((65, 300_000), (66, 200_000))]
    put("changing", both[0])

    def act():
        for data in both:
            put("changing", data)

    for reply in beside(port, act, 200):
        check(reply[0] == 200 and reply[1] in both, f"{reply[0]} with {len(reply[1])} bytes")


def grown(port):
    """Of a file that is emptied and written anew in many pieces each reply is a front, and has its end."""
    put("changing", b"")

    def act():
        with open("docs/changing", "wb", buffering=0) as file:
            for at in range(0, len(PATTERN), 4000):
                file.write(PATTERN[at : at + 4000])

    for status, body in beside(port, act, 200):
        same("the status", status, 200)
        check(PATTERN.startswith(body), f"{len(body)} bytes are no front of the file")


def overwritten(port):
    """A reply that has begun goes on with what was read, also where the file is written over or is gone."""
    old, new = os.urandom(8_388_608), bytes(8_388_608)
    put("changing", old)
    for act in ("over", "away"):
        it = Connection(port)
        it.send(get("/d/changing"))
        status, fields = it.head()
        same("the status", status, 200)
        if act == "over":
            with open("docs/changing", "r+b") as file:
                file.write(new)
        else:
            os.remove("docs/changing")
        check(it.body(fields) == old, f"a file that was written {act} shows in the reply")
        it.send(get("/d/changing"))
        wanted = (200, new) if act == "over" else (404, b"no document\n")
        check(it.reply() == wanted, f"the reply behind it, {act}")
        put("changing", old)


def leaves(port):
    """Clients that leave in the middle of a document, one by a reset, hold nothing up."""
    for at in range(20):
        it = Connection(port)
        it.send(get("/d/most"))
        same("the status", it.head()[0], 200)
        if at % 2:
            it.reset()
        else:
            it.close()
    it = Connection(port)
    it.send(get("/d/a.txt"))
    same("one that comes then", it.reply(), (200, b"hello"))


def beside_long(port):
    """Where as many scripts run as may, a script more is turned away and documents are served."""
    long, pid = begin(port, "/long")
    it = Connection(port)
    it.send(get("/hi"))
    same("a script more", it.reply()[0], 503)
    at_most = [Connection(port) for _ in range(20)]
    for each in at_most:
        each.send(get("/d/a.txt"))
    for each in at_most:
        same("a document", each.reply(), (200, b"hello"))
    long.reset()
    await_end(pid, 10)


def under_way(port, what):
    """A document that its client has begun to take when the server is told to end comes to its end."""
    it = Connection(port)
    it.send(get("/d/most"))
    status, fields = it.head()
    same("the status", status, 200)
    print(what, flush=True)
    time.sleep(0.3)
    check(it.body(fields) == held("most"), "the document is another one")
    same("behind it", it.to_end(), b"")


if __name__ == "__main__":
    main(globals())
