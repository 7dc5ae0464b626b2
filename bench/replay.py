#!/usr/bin/env python3
"""How fast `fixgate replay` carries out large scripts, as ratios to a plain Rust program.

Three kinds of scripts of nearly 16 MiB, and each with a tenth of its messages: the orders of one session,
orders of 64 sessions in turn, and a library's calls (it requests a session, polls what came, sends a report
for each order, and gives the session back). Both programs replay each script by turns; the times are the
median of five. bench/plain_replay.rs does the same work in plain Rust: it splits, frames, cuts, checks, keeps, and
writes as much; how many bytes both reports have is printed. The last ratio of a kind is that of the two scripts'
times: near ten where the time is linear. FIXGATE names another program than the repository's own. Nothing depends on the
numbers but the reader.
"""
import os
import statistics
import subprocess
import sys
import tempfile
import time

from building import gateway, words, yardstick

STAMP = "20260105-09:30:00.000"
MOST = 16_777_216
READ = 4096
SESSIONS = 64
# The orders that a library answers in one lease: no more than its ring of notices holds beside the grant.
ROUND = 200


def message(kind, them, number, rest):
    return f"35={kind}|49={them}|56=GATE|34={number}|52={STAMP}|{rest}"


def logon(them):
    return message("A", them, 1, "98=0|108=30|")


def order(them, number):
    return message("D", them, number, f"11=ORDER{number}|55=ACME|54=1|38=100|40=2|44=101.25|")


def frame_length(body):
    return len(body) + len(f"8=FIX.4.4|9={len(body)}|10=000|")


def one_session(orders):
    bodies = [logon("BUYER")] + [order("BUYER", n) for n in range(2, orders + 2)]
    lines = ["session GATE BUYER", "libraries 1", f"at {STAMP}", "connect"]
    lines += ["frame 0 " + body for body in bodies] + ["finish 0"]
    return lines + ["turn"] * (sum(map(frame_length, bodies)) // READ + 2)


def many_sessions(orders):
    names = [f"B{s:02}" for s in range(SESSIONS)]
    lines = [f"session GATE {name}" for name in names] + [f"at {STAMP}"] + ["connect"] * SESSIONS
    lines += [f"frame {s} {logon(name)}" for s, name in enumerate(names)]
    each, taken = orders // SESSIONS, 0
    for n in range(2, each + 2):
        lines += [f"frame {s} {order(name, n)}" for s, name in enumerate(names)]
        taken += frame_length(order("B00", n))
    lines += [f"finish {s}" for s in range(SESSIONS)]
    return lines + ["turn"] * (taken // READ + SESSIONS + 3)


def library_calls(orders):
    lines = ["session GATE BUYER", "libraries 1", f"at {STAMP}", "connect", "frame 0 " + logon("BUYER"), "turn"]
    for first in range(2, orders + 2, ROUND):
        numbers = range(first, min(first + ROUND, orders + 2))
        lines += [f"frame 0 {order('BUYER', n)}" for n in numbers]
        lines += ["turn"] * (sum(frame_length(order("BUYER", n)) for n in numbers) // READ + 1)
        lines += [f"lib 1 request 0 {first - 2}", "turn", "lib 1 poll"]
        for n in numbers:
            lines += ["lib 1 poll", f"lib 1 send 0 35=8|37=O{n}|11=ORDER{n}|17=E{n}|150=0|39=0|55=ACME|54=1|151=100|14=0|6=0|"]
            # A lane holds sixteen messages until the engine takes them.
            if n % 15 == 0:
                lines.append("turn")
        lines += ["lib 1 release 0", "turn"]
    return lines + ["finish 0", "turn"]


def text_of(make, orders):
    return "\n".join(make(orders)) + "\n"


def largest(make):
    """About the most orders whose script is short enough."""
    probe = 6_400
    a_order = (len(text_of(make, 2 * probe)) - len(text_of(make, probe))) / probe
    orders = int(MOST / a_order)
    while len(text_of(make, orders)) > MOST:
        orders -= orders // 200
    return orders


def run(command):
    start = time.perf_counter()
    ended = subprocess.run(command, stdout=subprocess.PIPE)
    took = time.perf_counter() - start
    if ended.returncode != 0:
        sys.exit(f"{' '.join(command)} ended with status {ended.returncode}")
    return took, len(ended.stdout)


def measure(folder, program, plain, name, make, orders):
    path = os.path.join(folder, f"{name}.{orders}.script")
    text = text_of(make, orders)
    with open(path, "w") as file:
        file.write(text)
    runs = [(run([program, "replay", path]), run([plain, path])) for _ in range(5)]
    replayed = statistics.median(took for (took, _), _ in runs)
    plainly_done = statistics.median(took for _, (took, _) in runs)
    (_, told), (_, plainly) = runs[0]
    print(
        f"{name}: {orders} orders, {len(text):,} bytes: replay {replayed:.3f} s, {orders / replayed:,.0f} orders and "
        f"{len(text) / replayed / 1e6:.1f} MB a second; plain Rust {plainly_done:.3f} s; ratio {replayed / plainly_done:.2f}; "
        f"reports of {told:,} and {plainly:,} bytes"
    )
    return replayed


def main():
    words(__doc__)
    program = gateway()
    with tempfile.TemporaryDirectory() as folder:
        plain = yardstick(folder, "plain_replay")
        for name, make in [("one session", one_session), ("64 sessions", many_sessions), ("library calls", library_calls)]:
            most = largest(make)
            whole = measure(folder, program, plain, name, make, most)
            tenth = measure(folder, program, plain, name, make, most // 10)
            print(f"{name}: ratio of the times for {most} and {most // 10} orders: {whole / tenth:.1f}")


if __name__ == "__main__":
    main()
