#!/usr/bin/env python3
"""A client that is hard on a server: client.py CASE PORT [WORD..] plays one case over sockets of its own to
127.0.0.1:PORT. It ends with status 0 and writes nothing, or says in one line what was wrong.

Each case is a function below; serve.sh says what the programs behind the paths do.
"""
import hashlib
import os
import signal
import socket
import sys
import time

SECONDS = 30


class Wrong(Exception):
    """What was wrong."""


def check(holds, text):
    if not holds:
        raise Wrong(text)


def same(name, found, wanted):
    check(found == wanted, f"{name}: {found!r}, where {wanted!r} was wanted")


class Connection:
    """One connection, and the bytes of it that were read and not looked at."""

    def __init__(self, port):
        self.socket = socket.create_connection(("127.0.0.1", port), SECONDS)
        self.socket.settimeout(SECONDS)
        self.socket.setsockopt(socket.IPPROTO_TCP, socket.TCP_NODELAY, 1)
        self.rest = b""

    def send(self, data):
        self.socket.sendall(data)

    def more(self):
        """Whether more bytes came before the end."""
        piece = self.socket.recv(65536)
        self.rest += piece
        return piece != b""

    def until(self, mark):
        while mark not in self.rest:
            check(self.more(), f"the end came before {mark!r}, after {self.rest[-200:]!r}")
        found, self.rest = self.rest.split(mark, 1)
        return found

    def take(self, count):
        while len(self.rest) < count:
            check(self.more(), f"the end came {count - len(self.rest)} bytes too soon")
        found, self.rest = self.rest[:count], self.rest[count:]
        return found

    def to_end(self):
        while self.more():
            pass
        found, self.rest = self.rest, b""
        return found

    def head(self):
        """The status of the next reply and its fields."""
        lines = self.until(b"\r\n\r\n").decode("latin-1").split("\r\n")
        fields = [line.split(": ", 1) for line in lines[1:]]
        return int(lines[0].split(" ")[1]), {name.lower(): value for name, value in fields}

    def chunk(self):
        """The next chunk, which is empty at the end."""
        size = int(self.until(b"\r\n"), 16)
        data = self.take(size)
        same("the end of a chunk", self.take(2), b"\r\n")
        return data

    def body(self, fields):
        if fields.get("transfer-encoding") == "chunked":
            whole = b""
            while True:
                data = self.chunk()
                if data == b"":
                    return whole
                whole += data
        if "content-length" in fields:
            return self.take(int(fields["content-length"]))
        return self.to_end()

    def reply(self):
        status, fields = self.head()
        return status, self.body(fields)

    def close(self):
        self.socket.close()

    def reset(self):
        """Ends the connection by a reset."""
        self.socket.setsockopt(socket.SOL_SOCKET, socket.SO_LINGER, b"\1\0\0\0\0\0\0\0")
        self.socket.close()


def get(path, more=""):
    return f"GET {path} HTTP/1.1\r\nHost: a.example\r\n{more}\r\n".encode()


def post(path, length, more=""):
    return f"POST {path} HTTP/1.1\r\nHost: a.example\r\nContent-Length: {length}\r\n{more}\r\n".encode()


def kept(port):
    """100 requests on one connection."""
    it = Connection(port)
    for _ in range(100):
        it.send(get("/hi"))
        same("a kept connection", it.reply(), (200, b"hi\n"))
    it.send(get("/hi", "Connection: close\r\n"))
    same("the last request", it.reply(), (200, b"hi\n"))
    same("behind the last reply", it.to_end(), b"")


def bytewise(port):
    """A request of which each byte is sent alone."""
    it = Connection(port)
    for at in get("/hi"):
        it.send(bytes([at]))
    same("a request in single bytes", it.reply(), (200, b"hi\n"))


def pipelined(port):
    """50 requests, in one piece, are answered in their order."""
    it = Connection(port)
    it.send(b"".join(get(f"/query?{at}") for at in range(50)))
    for at in range(50):
        same("a pipelined request", it.reply(), (200, f"{at}\n".encode()))


def pipelined_far(port):
    """A client that sends 4,000 requests and reads nothing until then gets each answered, in order."""
    it = Connection(port)
    count = 4000
    it.socket.settimeout(0.05)
    waits = b"".join(get(f"/none/{at}") for at in range(count))
    end = time.monotonic() + 5
    while waits and time.monotonic() < end:
        try:
            waits = waits[it.socket.send(waits):]
        except socket.timeout:
            pass
    it.socket.settimeout(SECONDS)
    it.socket.setblocking(False)
    for _ in range(count):
        while b"\r\n\r\n" not in it.rest:
            if waits:
                try:
                    waits = waits[it.socket.send(waits):]
                except BlockingIOError:
                    pass
            try:
                check(it.more(), "the end came among the replies")
            except BlockingIOError:
                time.sleep(0.001)
            check(time.monotonic() < end + SECONDS, "not all were answered in time")
        it.socket.setblocking(True)
        status, fields = it.head()
        same("its status", status, 404)
        it.body(fields)
        it.socket.setblocking(False)


def upload(port, chunked, mib):
    """A body of so many MiB, by its length or in chunks, of which the program tells the sum."""
    data = os.urandom(1 << 20) * int(mib)
    it = Connection(port)
    if chunked == "chunked":
        it.send(b"POST /sum HTTP/1.1\r\nHost: a.example\r\nTransfer-Encoding: chunked\r\n\r\n")
        for at in range(0, len(data), 65_000):
            piece = data[at : at + 65_000]
            it.send(b"%x\r\n%b\r\n" % (len(piece), piece))
        it.send(b"0\r\n\r\n")
    else:
        it.send(post("/sum", len(data)))
        it.send(data)
    status, fields = it.head()
    same("the status", status, 200)
    same("the sum", it.body(fields), hashlib.md5(data).hexdigest().encode() + b"  -\n")
    # A reply that begins before its request is whole ends the connection.
    if fields.get("connection") != "close":
        it.send(get("/hi"))
        same("behind it", it.reply(), (200, b"hi\n"))


def echo(port, mib):
    """A body comes back while it is still sent: nobody waits for another."""
    data = os.urandom(1 << 20) * int(mib)
    it = Connection(port)
    it.send(post("/echo", len(data)))
    it.socket.setblocking(False)
    sent, seen, end = 0, b"", time.monotonic() + SECONDS
    while sent < len(data):
        check(time.monotonic() < end, f"only {sent} bytes were taken")
        moved = False
        try:
            sent += it.socket.send(data[sent : sent + 262_144])
            moved = True
        except BlockingIOError:
            pass
        try:
            check(it.more(), "the end came while it was sent")
            moved = True
        except BlockingIOError:
            pass
        if not moved:
            time.sleep(0.0005)
    it.socket.settimeout(SECONDS)
    status, seen = it.reply()
    same("its status", status, 200)
    check(seen == data, f"{len(seen)} bytes came back, and not those {len(data)}")


def expects(port):
    """A client that waits for 100 Continue gets it, and none where its body is refused."""
    it = Connection(port)
    it.send(post("/sum", 5, "Expect: 100-continue\r\n"))
    same("the interim reply", it.take(25), b"HTTP/1.1 100 Continue\r\n\r\n")
    it.send(b"hello")
    same("the reply", it.reply(), (200, hashlib.md5(b"hello").hexdigest().encode() + b"  -\n"))
    it = Connection(port)
    it.send(post("/sum", 1 << 30, "Expect: 100-continue\r\n"))
    same("a body that is too long", it.head()[0], 413)
    it = Connection(port)
    it.send(post("/none", 5, "Expect: 100-continue\r\n"))
    same("the interim reply", it.take(25), b"HTTP/1.1 100 Continue\r\n\r\n")
    same("a path that is none, with no wait for the body", it.head()[0], 404)


def heads(port):
    """HEAD is answered without a body, and the next request is answered behind it."""
    it = Connection(port)
    it.send(b"HEAD /hi HTTP/1.1\r\nHost: a.example\r\n\r\n" + get("/hi"))
    status, fields = it.head()
    same("the status", status, 200)
    same("its type", fields["content-type"], "text/plain")
    same("the next", it.reply(), (200, b"hi\n"))


def streamed(port):
    """What a program writes is seen as it comes: its two lines are half a second apart."""
    it = Connection(port)
    it.send(get("/slow"))
    status, fields = it.head()
    same("the status", status, 200)
    same("the first line", it.chunk(), b"one\n")
    begun = time.monotonic()
    same("the second line", it.chunk(), b"two\n")
    check(time.monotonic() - begun > 0.3, "the first line came no sooner than the second")
    same("the end", it.chunk(), b"")


def lateness(port):
    """How many milliseconds after a program wrote its lines half of them are here, and nine of ten, once its reply has
    begun and though nothing else is under way. The program says when it wrote each."""
    it = Connection(port)
    it.send(get("/clock", "Connection: close\r\n"))
    it.head()
    same("the first line", it.chunk(), b"begun\n")
    late = []
    while (data := it.chunk()) != b"":
        # Lines that were read together come in one chunk.
        now = time.time()
        late += [(now - float(line)) * 1000 for line in data.split()]
    late.sort()
    return late[len(late) // 2], late[len(late) * 9 // 10]


def promptly(port):
    """Once a reply has begun, each line of its program is here within some milliseconds."""
    half = lateness(port)[0]
    check(half < 20, f"half of the lines came {half:.1f} ms late or more")


def gone(pid):
    """Whether a process has ended, also where it wasn't waited for."""
    try:
        with open(f"/proc/{pid}/stat") as stat:
            return stat.read().rsplit(")", 1)[1].split()[0] == "Z"
    except OSError:
        return True


def await_end(pid, seconds):
    end = time.monotonic() + seconds
    while not gone(pid):
        check(time.monotonic() < end, f"the program still runs after {seconds} s")
        time.sleep(0.02)


def begin(port, path):
    """A request whose program tells its number, and goes on."""
    it = Connection(port)
    it.send(get(path))
    it.head()
    return it, int(it.chunk())


def leaves(port):
    """Where the connection was reset its program is ended, though it is silent, and where the client has closed it, once the
    program writes."""
    for path, how in (("/long", Connection.reset), ("/chatty", Connection.close)):
        it, pid = begin(port, path)
        check(not gone(pid), f"{path}: the program was not running")
        how(it)
        await_end(pid, 10)


def answers(port, seconds):
    """A script is started and answers within so many seconds."""
    end = time.monotonic() + float(seconds)
    while True:
        try:
            it = Connection(port)
            it.send(get("/hi"))
            found = it.reply()
            it.close()
        except (Wrong, OSError) as error:
            found = error
        if found == (200, b"hi\n"):
            return
        check(time.monotonic() < end, f"it is answered with {found} after {seconds} s")
        time.sleep(0.05)


def crowd(port, path, count, status):
    """So many clients at once, each of which is answered with this status."""
    held = [Connection(port) for _ in range(int(count))]
    for it in held:
        it.send(get(path, "Connection: close\r\n"))
    for it in held:
        same("the status", it.head()[0], int(status))
        it.to_end()


def resets(port, path, count, begun=""):
    """So many clients, 25 at once, which are reset 30 ms after they have asked, or after their replies have begun."""
    for _ in range(0, int(count), 25):
        held = [Connection(port) for _ in range(25)]
        for it in held:
            it.send(get(path))
        if begun:
            for it in held:
                same("the status", it.head()[0], 200)
        time.sleep(0.03)
        for it in held:
            it.reset()


def unread(port, path, count):
    """So many clients at once of a script that ignores its input, of which more is sent than pipes hold. Half of them are reset
    once their replies have begun, and the others hear theirs to the end."""
    held = [Connection(port) for _ in range(int(count))]
    for it in held:
        it.send(post(path, 1 << 18, "Connection: close\r\n"))
        it.socket.settimeout(0.05)
        try:
            it.send(bytes(1 << 18))
        except socket.timeout:
            pass
        it.socket.settimeout(SECONDS)
    for at, it in enumerate(held):
        same("the status", it.head()[0], 200)
        if at % 2 == 0:
            it.reset()
    for it in held[1::2]:
        try:
            it.to_end()
        except ConnectionResetError:
            pass


def kills(port, server, count):
    """The programs of so many requests are killed from outside as soon as they are seen, some while they start. Each request
    is answered all the same."""
    import threading

    over = threading.Event()
    found = []

    def kill():
        while not over.is_set():
            for thread in os.listdir(f"/proc/{server}/task"):
                try:
                    with open(f"/proc/{server}/task/{thread}/children") as children:
                        for pid in children.read().split():
                            os.kill(int(pid), signal.SIGKILL)
                            found.append(pid)
                except OSError:
                    pass

    killer = threading.Thread(target=kill)
    killer.start()
    try:
        for _ in range(int(count)):
            it = Connection(port)
            it.send(get("/hi", "Connection: close\r\n"))
            status, fields = it.head()
            check(status in (200, 502), f"the status is {status}")
            it.to_end()
    finally:
        over.set()
        killer.join()
    check(found, "no program was seen")


def storm(port, path, count):
    """So many clients at once, each of which is reset as soon as all have asked."""
    held = [Connection(port) for _ in range(int(count))]
    for it in held:
        it.send(get(path))
    for it in held:
        it.reset()


def outlives(port):
    """A program that has closed its output and lives on is killed once it has lingered as long as it may, and then the next
    request of its connection is answered."""
    it = Connection(port)
    it.send(get("/outlives"))
    status, body = it.reply()
    same("the status", status, 200)
    check(not gone(int(body)), "the program was not running behind its reply")
    it.send(get("/hi"))
    same("the next request", it.reply(), (200, b"hi\n"))
    check(gone(int(body)), "the program still runs")


def signals(port):
    """A program starts with no signal blocked, and SIGPIPE ends it."""
    it = Connection(port)
    it.send(get("/signals"))
    status, body = it.reply()
    same("the status", status, 200)
    masks = dict(line.split(":\t") for line in body.decode().split("\n") if line)
    same("what is blocked", int(masks["SigBlk"], 16), 0)
    check(not int(masks["SigIgn"], 16) >> (signal.SIGPIPE - 1) & 1, "SIGPIPE is ignored")


def half_closed(port):
    """A client that ends its sending side behind its request is answered."""
    it = Connection(port)
    it.send(get("/slow", "Connection: close\r\n"))
    it.socket.shutdown(socket.SHUT_WR)
    same("its reply", it.reply(), (200, b"one\ntwo\n"))


def reads_late(port):
    """A client that reads nothing of 8 MiB for a while is given all of it, and others are served meanwhile."""
    slow = Connection(port)
    slow.send(get("/zeros"))
    time.sleep(0.5)
    for _ in range(20):
        it = Connection(port)
        it.send(get("/hi"))
        same("another client", it.reply(), (200, b"hi\n"))
        it.close()
    status, body = slow.reply()
    same("its status", status, 200)
    check(body == bytes(8 << 20), f"{len(body)} bytes came")


def half_heads(port, count):
    """Others are served beside so many clients that have sent half a head."""
    held = []
    for _ in range(int(count)):
        it = Connection(port)
        it.send(b"GET /hi HTT")
        held.append(it)
    begun = time.monotonic()
    for _ in range(100):
        it = Connection(port)
        it.send(get("/hi", "Connection: close\r\n"))
        same("a request beside them", it.reply(), (200, b"hi\n"))
        it.close()
    took = time.monotonic() - begun
    check(took < 10, f"100 requests took {took:.1f} s")
    for it in held:
        it.send(b"P/1.1\r\nHost: a.example\r\n\r\n")
    for it in held:
        same("one of them", it.reply(), (200, b"hi\n"))


def many(port, count, most):
    """Of so many programs at once no more than `most` run: the other requests are answered with 503."""
    held = [Connection(port) for _ in range(int(count))]
    for it in held:
        it.send(get("/nap"))
    found = sorted(it.reply()[0] for it in held)
    wanted = [200] * int(most) + [503] * (int(count) - int(most))
    same("the statuses", found, wanted)
    it = Connection(port)
    it.send(get("/nap"))
    same("once they have ended", it.reply(), (200, b"up\n"))


def hosts(port):
    """Each host has its own scripts, and a request for another is misdirected."""
    for host, status in (("a.example", 200), ("www.A.example", 200), ("b.example", 404), ("c.example", 421)):
        it = Connection(port)
        it.send(f"GET /hi HTTP/1.1\r\nHost: {host}\r\n\r\n".encode())
        same(host, it.reply()[0], status)


def refused(port):
    """Requests that are none."""
    for text, status in (
        (b"GET /hi HTTP/1.1\r\n\r\n", 400),
        (b"\0\1\2\r\n\r\n", 400),
        (b"GET /hi HTTP/1.1\r\nHost: a.example\r\nX: " + b"x" * 70000 + b"\r\n\r\n", 431),
        (b"GET /" + b"x" * 9000 + b" HTTP/1.1\r\nHost: a.example\r\n\r\n", 414),
        (post("/sum", 17 << 20), 413),
        (b"GET /none HTTP/1.1\r\nHost: a.example\r\n\r\n", 404),
    ):
        it = Connection(port)
        it.send(text)
        same(f"{text[:20]!r}", it.head()[0], status)


def refused_upload(port):
    """A client that sends its body, though its length is refused, reads the refusal; and one that sends on and on is cut off
    behind it."""
    it = Connection(port)
    it.send(post("/sum", 17 << 20) + bytes(1 << 20))
    same("the status", it.head()[0], 413)
    it.to_end()
    begun = time.monotonic()
    try:
        while True:
            it.send(bytes(1000))
            time.sleep(0.05)
            check(time.monotonic() < begun + 10, "it still takes what is sent")
    except OSError:
        check(time.monotonic() > begun + 1, "it was cut off at once")


def full(port):
    """Where two connections are held, as many as may be, the next is closed after two ticks, and nothing is said to it, unless
    one of them has left by then."""
    held = [Connection(port) for _ in range(2)]
    for it in held:
        it.send(get("/hi"))
        same("a connection", it.reply(), (200, b"hi\n"))
    third = Connection(port)
    third.send(get("/hi"))
    same("the third", third.to_end(), b"")
    third = Connection(port)
    third.send(get("/hi"))
    held[0].close()
    same("the third, once one has left", third.reply(), (200, b"hi\n"))


def turned_away(port):
    """Where the one connection that may be has left and its program still runs, the next client is closed at once; one is
    served when the program is gone."""
    it = Connection(port)
    it.send(get("/outlives", "Connection: close\r\n"))
    same("the status", it.head()[0], 200)
    pid = int(it.to_end())
    it.close()
    same("the next", Connection(port).to_end(), b"")
    check(not gone(pid), "the program was gone before the next client was closed")
    await_end(pid, 10)
    end = time.monotonic() + 10
    while True:
        it = Connection(port)
        try:
            it.send(get("/hi"))
            same("one that comes then", it.reply(), (200, b"hi\n"))
            return
        except (Wrong, OSError):
            check(time.monotonic() < end, "nobody is served though the program is gone")
            time.sleep(0.02)


def takes_nothing(port):
    """Has the server end while a client takes nothing of what is left for it."""
    it = Connection(port)
    it.send(get("/zeros"))
    time.sleep(0.5)
    print("stop", flush=True)
    time.sleep(SECONDS)


def documents(port):
    """A file of a folder of documents is served as it is, and what isn't there isn't."""
    with open("hi", "rb") as file:
        text = file.read()
    it = Connection(port)
    it.send(get("/docs/hi") + get("/docs/none"))
    same("a document", it.reply(), (200, text))
    same("no document", it.reply(), (404, b"no document\n"))


def idle_ends(port):
    """A client that sends nothing is let go once its time is over, with 408 where it had begun a request."""
    silent, begun = Connection(port), Connection(port)
    begun.send(b"GET /hi")
    same("half a head", begun.reply()[0], 408)
    same("nothing", silent.to_end(), b"")


def descriptors(port, count):
    """A program has its three streams open and nothing of the server's, whatever that has open."""
    held = [Connection(port) for _ in range(int(count))]
    it = Connection(port)
    it.send(get("/open"))
    status, body = it.reply()
    same("its status", status, 200)
    # The shell has its script open, too.
    lines = [line.split(b" -> ") for line in body.split(b"\n") if b" -> " in line]
    same("what is open", [at.split()[-1] for at, to in lines if not to.endswith(b"/open")], [b"0", b"1", b"2"])
    for other in held:
        other.close()


def streams(port):
    """A program has pipes for its input and output, and for its standard error what the server was started with, or nothing."""
    it = Connection(port)
    it.send(get("/open"))
    status, body = it.reply()
    same("its status", status, 200)
    for line in body.split(b"\n"):
        if b" -> " in line:
            at, to = line.split(b" -> ")
            number = at.split()[-1]
            if number in (b"0", b"1"):
                check(to.startswith(b"pipe:"), f"its descriptor {number} is {to}")
            else:
                check(to.endswith((b"/said", b"/dev/null", b"/open")), f"its descriptor {number} is {to}")


def under_way(port, what):
    """Requests that are under way when the server is told to end: `stop` ends their programs, `drain` lets them go on. The
    line is written here, to standard output, once they are under way."""
    nap = Connection(port)
    nap.send(get("/nap"))
    long = None
    if what == "stop":
        long, pid = begin(port, "/long")
    time.sleep(0.2)
    print(what, flush=True)
    if what == "drain":
        same("the reply", nap.reply(), (200, b"up\n"))
        return
    await_end(pid, 5)
    long.to_end()
    nap.to_end()


def over_first(port):
    """Where one of several loops has a program that runs on, `drain` ends all kept connections at once, and `stop` is heard
    though the other loops are over."""
    kept = [Connection(port) for _ in range(16)]
    for it in kept:
        it.send(get("/hi"))
        same("a kept connection", it.reply(), (200, b"hi\n"))
    busy, _ = begin(port, "/long")
    print("drain", flush=True)
    time.sleep(1)
    ended = 0
    for it in kept:
        it.socket.settimeout(0.02)
        try:
            ended += not it.more()
        except socket.timeout:
            pass
    same("kept connections that were ended", ended, 16)
    print("stop", flush=True)
    busy.close()


def closed(port, seconds):
    """Within so many seconds nobody listens any more."""
    end = time.monotonic() + float(seconds)
    while time.monotonic() < end:
        try:
            socket.create_connection(("127.0.0.1", port), 1).close()
        except OSError:
            return
        time.sleep(0.02)
    raise Wrong("it still listens")


def load(port, count, clients):
    """So many requests by so many clients, by turns on new connections and on kept ones."""
    import threading

    faults = []

    def one():
        try:
            it = None
            for at in range(int(count) // int(clients)):
                if at % 4 < 2 or it is None:
                    it = Connection(port)
                it.send(get("/hi"))
                same("a request", it.reply(), (200, b"hi\n"))
                if at % 4 < 2:
                    it.close()
                    it = None
        except (Wrong, OSError) as error:
            faults.append(str(error))

    threads = [threading.Thread(target=one) for _ in range(int(clients))]
    for it in threads:
        it.start()
    for it in threads:
        it.join()
    check(not faults, f"{len(faults)} clients: {faults[:1]}")


def idles(port, *paths):
    """Has connections that do nothing for four seconds: one that is silent, half a head, one that is kept, and three for each
    of these paths, of whose reply nothing is read: of the second another request lies there unread, and the third has ended
    its sending side."""
    silent, half, kept = Connection(port), Connection(port), Connection(port)
    half.send(b"GET /hi HTT")
    kept.send(get("/hi"))
    kept.reply()
    held = [silent, half, kept]
    for path in paths:
        for more in (b"", get("/hi"), None):
            it = Connection(port)
            it.send(get(path))
            time.sleep(0.1)
            if more is None:
                it.socket.shutdown(socket.SHUT_WR)
            else:
                it.send(more)
            held.append(it)
    time.sleep(4)


def main(cases):
    """Plays the case that the words name."""
    try:
        cases[sys.argv[1]](int(sys.argv[2]), *sys.argv[3:])
    except (Wrong, OSError) as error:
        print(f"{error}"[:300], file=sys.stderr)
        sys.exit(1)


if __name__ == "__main__":
    main(globals())
