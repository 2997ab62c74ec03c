"""What Python does while its address space is watched: threads that make and drop large and small things, and a child.

    script.py SEED
"""
import _thread
import os
import random
import sys
import time

THREADS, ROUNDS = 3, 12
LARGE = 300_000         # bytes: malloc maps and unmaps what is as large


def work(draw: random.Random, ended: list[int]) -> None:
    kept: list[bytearray] = []
    for _ in range(ROUNDS):
        kept.append(bytearray(draw.randrange(LARGE // 2, LARGE)))
        texts = [str(number) * 20 for number in range(draw.randrange(1000))]
        if len(kept) > 2 or len(texts) < 200:
            kept.pop(draw.randrange(len(kept)))
    ended.append(len(kept))


def main(seed: int) -> int:
    ended: list[int] = []
    for number in range(THREADS):
        _thread.start_new_thread(work, (random.Random(f"{seed} {number}"), ended))
    page = bytearray(LARGE)
    child = os.fork()
    if not child:
        page[:] = b"1" * LARGE
        os._exit(7)
    page[:] = b"2" * LARGE
    status = os.waitpid(child, 0)[1]
    while len(ended) < THREADS:
        time.sleep(0.01)
    print("DONE,", 0 if os.waitstatus_to_exitcode(status) == 7 else 1, "wrong")
    return 0


if __name__ == "__main__":
    sys.exit(main(int(sys.argv[1])))
