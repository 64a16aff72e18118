#!/usr/bin/env bash
# Prints how much memory the built server has, and how much more for each client and each program of some kinds: what
# docs/deploy.md says of limits counts from the code, and this measures. It wants the program that `rt ci` leaves.
. "$(dirname "$0")/../common.sh"
. "$root/tests/server.sh"

script hi 'printf "Content-Type: text/plain\n\nhi\n"'
script long 'exec sleep 60'
script zeros 'printf "Content-Type: application/octet-stream\n\n"
exec head -c 8388608 /dev/zero'
port=$(free_port)
cat >site <<END
version = 1
port = $port

[limits]
connections = 1024
children = 256

[[script]]
path = "/hi"
program = "$folder/hi"

[[script]]
path = "/long"
program = "$folder/long"

[[script]]
path = "/zeros"
program = "$folder/zeros"
END

# The memory that so many clients of a kind add, over that of a server that has served before.
measures() {
    local kind=$1 count=$2
    start
    python3 - "$port" "$kind" "$count" "$server" <<'END'
import socket, sys, time
port, kind, count, server = int(sys.argv[1]), sys.argv[2], int(sys.argv[3]), sys.argv[4]

def memory():
    time.sleep(1.5)
    with open(f"/proc/{server}/status") as status:
        return next(int(line.split()[1]) for line in status if line.startswith("VmRSS"))

def connect():
    return socket.create_connection(("127.0.0.1", port), 30)

def get(path):
    return f"GET {path} HTTP/1.1\r\nHost: a\r\n\r\n".encode()

def ask(it):
    it.sendall(get("/hi"))
    seen = b""
    while not seen.endswith(b"hi\n"):
        seen += it.recv(65536)

BODY = b"POST /hi HTTP/1.1\r\nHost: a\r\nTransfer-Encoding: chunked\r\n\r\nfff00\r\n" + bytes(0xFFF00)
DOES = {
    "rests before a request": lambda it: None,
    "rests behind a reply": ask,
    "has sent 1 MiB of a body in chunks": lambda it: it.sendall(BODY),
    "takes nothing of a reply of 8 MiB": lambda it: it.sendall(get("/zeros")),
    "waits for a program": lambda it: it.sendall(get("/long")),
}
first = connect()
ask(first)
before = memory()
held = []
for _ in range(count):
    it = connect()
    if kind == "takes nothing of a reply of 8 MiB":
        it.setsockopt(socket.SOL_SOCKET, socket.SO_RCVBUF, 4096)
    DOES[kind](it)
    held.append(it)
after = memory()
print(f"a server that rests: {before} KiB; each of {count} clients that {kind}: {(after - before) / count:.1f} KiB")
END
    end_server
}

measures 'rests before a request' 500
measures 'rests behind a reply' 100
measures 'has sent 1 MiB of a body in chunks' 50
measures 'takes nothing of a reply of 8 MiB' 50
measures 'waits for a program' 100
