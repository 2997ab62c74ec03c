#!/usr/bin/env python3
"""Runs a command whose standard output is a pipe that nobody reads; ends with its status.

    closed_pipe.py COMMAND..
"""
import subprocess
import sys

import on_terminal

if __name__ == "__main__":
    sys.exit(subprocess.run(sys.argv[1:], stdout=on_terminal.closed_pipe()).returncode)
