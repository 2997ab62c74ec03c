#!/usr/bin/env python3
"""Writes standard input to standard output in pieces of odd lengths: in_pieces.py LENGTH.."""
import itertools
import sys
import time

data = sys.stdin.buffer.read()
at = 0
for length in itertools.cycle(map(int, sys.argv[1:])):
    if at >= len(data):
        break
    sys.stdout.buffer.write(data[at:at + length])
    sys.stdout.buffer.flush()
    at += length
    time.sleep(0.001)
