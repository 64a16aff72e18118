#!/usr/bin/env python3
"""Runs a command and watches it: watch.py FILE SECONDS COMMAND..

It adopts every process that the command's own processes leave behind, so none can hide. After the end it writes to the
file, in one line: the status (124 where the time was up), the most threads and the most descriptors that the command had at once,
the most memory in KiB, and the names of the processes that were left to it, running or as zombies.
"""
import ctypes
import os
import subprocess
import sys
import time

PR_SET_CHILD_SUBREAPER = 36


def children(parent):
    """The names of a process's children by their numbers."""
    found = {}
    for name in os.listdir("/proc"):
        if not name.isdigit():
            continue
        try:
            with open(f"/proc/{name}/stat") as stat:
                head, rest = stat.read().rsplit(")", 1)
        except OSError:
            continue
        if int(rest.split()[1]) == parent:
            found[int(name)] = head.split("(", 1)[1]
    return found


def entries(path):
    """How many entries a folder has, or none where it is gone."""
    try:
        return len(os.listdir(path))
    except OSError:
        return 0


def main():
    file, seconds, command = sys.argv[1], float(sys.argv[2]), sys.argv[3:]
    if ctypes.CDLL(None).prctl(PR_SET_CHILD_SUBREAPER, 1, 0, 0, 0) != 0:
        sys.exit("watch.py: processes can't be adopted")
    watched = subprocess.Popen(command)
    pid = watched.pid
    end = time.monotonic() + seconds
    threads = descriptors = 0
    late = False
    ended = os.WEXITED | os.WNOHANG | os.WNOWAIT
    while os.waitid(os.P_PID, pid, ended) is None:
        threads = max(threads, entries(f"/proc/{pid}/task"))
        descriptors = max(descriptors, entries(f"/proc/{pid}/fd"))
        if time.monotonic() > end and not late:
            late = True
            os.kill(pid, 9)
        time.sleep(0.002)
    left = children(os.getpid())
    left.pop(pid)
    _, status, usage = os.wait4(pid, 0)
    status = 124 if late else os.waitstatus_to_exitcode(status)
    with open(file, "w") as seen:
        print(status, threads, descriptors, usage.ru_maxrss, *sorted(left.values()), file=seen)


main()
