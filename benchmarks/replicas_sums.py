#!/usr/bin/env python3
"""replicas_sums.py THREADS CALLS READS: what `nrvs_benchmark replicas` prints, by the draws of its threads alone. Page n is mapped to
the physical address n * 4096. No update changes that, nor does one map or unmap a page that is read."""
import sys

PAGES = 16384
threads, calls, reads = map(int, sys.argv[1:])
for thread in range(threads):
    state = 0x9E3779B97F4A7C15 * (thread + 1) % 2**64
    read = total = 0
    for _ in range(calls):
        state = (state * 6364136223846793005 + 1442695040888963407) % 2**64
        drawn = state >> 33
        if drawn // PAGES % 100 < reads:
            read += 1
            total += drawn % PAGES * 4096 + drawn % 4096
    print(f"reads {read} updates {calls - read} sum {total % 2**64}")
