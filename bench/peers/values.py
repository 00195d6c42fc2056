"""What Python's C functions take for the same texts: fromisoformat and isoformat."""
import sys, time
from datetime import date, datetime, time as clock
from pathlib import Path

BURSTS, ROUNDS = 20, 5
folder = Path(sys.argv[1])


def quickest(work):
    least = None
    for _ in range(BURSTS):
        start = time.perf_counter_ns()
        work()
        took = time.perf_counter_ns() - start
        least = took if least is None else min(least, took)
    return least


def measure(name, kind):
    texts = (folder / name).read_text().splitlines()
    values = [kind.fromisoformat(text) for text in texts]
    read, show, count = kind.fromisoformat, kind.isoformat, ROUNDS * len(texts)

    def read_all():
        for _ in range(ROUNDS):
            for text in texts:
                read(text)

    def show_all():
        for _ in range(ROUNDS):
            for value in values:
                show(value)

    print(name, quickest(read_all) * 1_000 // count, quickest(show_all) * 1_000 // count)


measure("date", date)
measure("time", clock)
measure("abstime", datetime)
