#!/usr/bin/env python3
"""How fast an outbound log takes entries, and how fast resends are planned over it, beside a plain Vec.

It makes logs of COUNT entries: one that is a single stretch of session entries, and one where session and application
entries alternate. For each it prints pushes a second and the time of a plan over all numbers, of the log and of a Vec
whose plan goes over each entry, in the same run. Each figure is the median of five runs. Nothing depends on the numbers
but the reader.
"""
import statistics
import subprocess

from building import program_of, words

RUNS = 5
# The program takes no more.
MOST = 10_000_000


def count_of(word):
    count = int(word)
    if not 1 <= count <= MOST:
        raise ValueError(word)
    return count


def main():
    helped = f"how many entries, from 1 to {MOST} (1000000)"
    count = words(__doc__, ("COUNT", dict(nargs="?", type=count_of, default=1_000_000, help=helped))).COUNT
    program = program_of("log_speed")
    rows = {}
    for _ in range(RUNS):
        lines = subprocess.run([program, str(count)], stdout=subprocess.PIPE, check=True, text=True).stdout.splitlines()
        for line in lines:
            mix, name, _, push, _, plan, _, items = line.split()
            rows.setdefault((mix, int(items)), {}).setdefault(name, []).append((int(push), int(plan)))
    for (mix, items), figures in rows.items():
        log_push, log_plan = (statistics.median(column) for column in zip(*figures["log"]))
        vec_push, vec_plan = (statistics.median(column) for column in zip(*figures["vec"]))
        print(f"{mix}: {count:,} entries, {items:,} items")
        print(
            f"  push: log {count * 1e3 / log_push:.1f} million a second, Vec {count * 1e3 / vec_push:.1f},"
            f" {log_push / vec_push:.2f} times its time"
        )
        print(
            f"  plan: log {log_plan / 1e6:.3f} ms, Vec {vec_plan / 1e6:.3f} ms,"
            f" {log_plan / vec_plan:.4f} times its time"
        )


if __name__ == "__main__":
    main()
