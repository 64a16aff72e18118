#!/usr/bin/python3
# A WebSocket's program in Python: each line is a message, and what isn't flushed isn't sent. See docs/recipes.md.
import sys

for line in sys.stdin:
    print(line.rstrip("\n")[::-1], flush=True)
