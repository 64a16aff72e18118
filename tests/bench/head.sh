#!/usr/bin/env bash
# Prints the processor time per byte of a request head that comes in single bytes, at 4,000 and at 16,000
# bytes, and the one as a multiple of the other: it stays near 1 where a head is read in one pass.
set -eu
program=${CGIHOST:-$(cd "$(dirname "$0")/../.." && pwd)/crates/cgihost/out/cgihost}
command -v python3 >/dev/null || { echo 'head.sh: skipped, there is no python3'; exit 0; }
python3 - "$program" <<'END'
import os, subprocess, sys

PROGRAM = sys.argv[1]


def head(size):
    """A whole request head of so many bytes."""
    begin, end = b"GET /hello HTTP/1.1\r\nHost: a\r\nConnection: close\r\n", b"\r\n"
    lines = b""
    while len(begin) + len(lines) + len(end) < size:
        left = size - len(begin) - len(lines) - len(end)
        take = left if left < 200 else 100
        lines += b"X: " + b"x" * (take - 5) + b"\r\n"
    return begin + lines + end


def seconds(size):
    """The processor time of one run, the least of five, without that of a run over the same bytes in one piece."""
    text = head(size)
    assert len(text) == size, len(text)
    return min(spent(text, 1) for _ in range(5)) - min(spent(text, len(text)) for _ in range(5))


def spent(text, piece):
    child = subprocess.Popen([PROGRAM, "once", "/hello=/bin/cat"], stdin=subprocess.PIPE, stdout=subprocess.DEVNULL)
    for at in range(0, len(text), piece):
        os.write(child.stdin.fileno(), text[at:at + piece])
        wait_taken(child.stdin.fileno())
    child.stdin.close()
    _, status, usage = os.wait4(child.pid, 0)
    assert status == 0, status
    return usage.ru_utime + usage.ru_stime


def wait_taken(fd):
    """Waits until the pipe is empty, so that the next byte is a piece of its own."""
    import array, fcntl, termios
    left = array.array("i", [1])
    while True:
        fcntl.ioctl(fd, termios.FIONREAD, left)
        if left[0] == 0:
            return
        os.sched_yield()


small, large = seconds(4000) / 4000, seconds(16000) / 16000
print(f"processor time per byte: {small * 1e6:.2f} us at 4,000 bytes, {large * 1e6:.2f} us at 16,000 bytes, {large / small:.2f} times")
END
