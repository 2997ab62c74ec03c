#!/usr/bin/env python3
"""Runs a command whose standard error is a terminal, and whose standard input gives bytes slowly; prints what it shows there.

    on_terminal.py SECONDS FILE COMMAND..      FILE in ten parts, with so many seconds between them; ends with the status of the command

With CLOSED_PIPE in the environment its standard output is a pipe that nobody reads.
"""
import os
import subprocess
import sys
import threading
import time

PARTS = 10


def feed(pipe, data, seconds):
    try:
        for k in range(PARTS):
            pipe.write(data[len(data) * k // PARTS:len(data) * (k + 1) // PARTS])
            pipe.flush()
            time.sleep(seconds)
        pipe.close()
    except BrokenPipeError:     # the command has read enough
        pass


def shown_on(terminal):
    """All that is written to it, until its other end is closed."""
    shown = b""
    while True:
        try:
            piece = os.read(terminal, 4096)
        except OSError:
            return shown
        if not piece:
            return shown
        shown += piece


def closed_pipe():
    """The end of a pipe for who writes; the other one is closed."""
    ours, theirs = os.pipe()
    os.close(ours)
    return theirs


def main(seconds, path, command):
    ours, theirs = os.openpty()
    with open(path, "rb") as file:
        data = file.read()
    output = closed_pipe() if "CLOSED_PIPE" in os.environ else subprocess.DEVNULL
    run = subprocess.Popen(command, stdin=subprocess.PIPE, stdout=output, stderr=theirs)
    os.close(theirs)
    threading.Thread(target=feed, args=(run.stdin, data, seconds), daemon=True).start()
    shown = shown_on(ours)
    sys.stdout.buffer.write(shown)
    return run.wait()


if __name__ == "__main__":
    sys.exit(main(float(sys.argv[1]), sys.argv[2], sys.argv[3:]))
