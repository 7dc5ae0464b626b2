#!/usr/bin/env python3
"""Faults in turn: each read and each write of a replay fails once, in each turn and on each connection that was made by then.

Into each script, the examples and the worked rows if none is named, a line `failread C` or `failwrite C 0` is put before one of
its turns, for each turn and each connection in turn, and the script is replayed. A run is right where it ends with status 0; where
connection C ended by that fault, or as it did without; where C has a session, the journals, logs and holdings of all others are as
without the fault, and so is what was written on their connections; and where C has none, those of all sessions are. Dials are
numbered in the order in which they come, and a fault makes a session dial again: so the numbers of dialled connections aren't
compared, and a script in which two sessions dial says nothing of the others'. Nor are sessions compared that share a library with
C's where that may have more messages than its ring of notices holds: then it hears of each as soon as the others leave room.

FIXGATE names another program than the repository's own. It ends with status 1 where a run wasn't right.
"""

import concurrent.futures
import glob
import os
import re
import subprocess
import sys

from building import TOP, gateway, words

FIRST_DIALLED = 1024
RING = 256
FAULTS = {"failread {}": "read-fault", "failwrite {} 0": "write-fault"}


def replay(program, lines):
    ran = subprocess.run([program, "replay", "/dev/stdin"], input="\n".join(lines).encode("latin-1"), capture_output=True)
    return ran.returncode, ran.stdout.decode("latin-1")


def masked(line):
    """The line without the numbers of dialled connections."""
    return re.sub(r"^( bind| leave|.*cause duplicate) (1\d{3}|2\d{3})$", r"\1 dialled", line)


def told(report):
    """What a report says of its sessions, and of its connections: their sessions, causes and what was written."""
    sessions, connections, part = {}, {}, []
    for line in report.splitlines():
        if head := re.match(r"session (\d+) ", line):
            part = sessions.setdefault(int(head[1]), [])
        elif head := re.match(r"connection (\d+) session (\d+|-) .* cause (\S+)", line):
            session = None if head[2] == "-" else int(head[2])
            part = []
            connections[int(head[1])] = session, head[3], part
            continue
        elif not line.startswith(" "):
            part = []
        part.append(masked(line))
    return sessions, connections


def places(lines):
    """Before which lines which connections can fail."""
    accepted, dialled = 0, 0
    for at, line in enumerate(lines):
        accepted, dialled = accepted + (line == "connect"), dialled + (line == "take")
        if line == "turn":
            yield from ((at, c) for c in [*range(accepted), *range(FIRST_DIALLED, FIRST_DIALLED + dialled)])


def crowded(lines, sessions):
    """For each session those that share a library with it whose ring their messages may fill."""
    asked = {}
    for line in lines:
        if asks := re.match(r"lib (\d+) request (\d+) ", line):
            asked.setdefault(asks[1], set()).add(int(asks[2]))
    found = {}
    for shared in asked.values():
        if sum(line.startswith(" in ") for s in shared for line in sessions.get(s, [])) >= RING:
            for s in shared:
                found.setdefault(s, set()).update(shared)
    return found


def wrong_in(whole, near, status, report, c, cause):
    """What isn't right in a run, and whether the fault was met."""
    if status:
        return f"status {status}", False
    sessions, connections = told(report)
    before, was = whole
    if c not in connections:
        return (None if sessions == before else "the connection never came, and yet a session differs"), False
    session, ended, _ = connections[c]
    old = was.get(c, (None, None, []))
    if ended not in (cause, old[1]):
        return f"it ended by {ended}", False
    own = {session, old[0]} | near.get(session, set()) | near.get(old[0], set())
    for s in before:
        if s not in own and sessions.get(s) != before[s]:
            return f"session {s} differs", False
    for k, (s, _, wrote) in was.items():
        if k < FIRST_DIALLED and s is not None and s not in own and connections.get(k, (0, 0, 0))[2] != wrote:
            return f"what was written on connection {k} differs", False
    return None, ended == cause and old[1] != cause


def faults_in(program, script):
    with open(script, encoding="latin-1") as it:
        lines = it.read().split("\n")
    status, report = replay(program, lines)
    if status:
        return 0, 0, [f"{script}: status {status} without a fault"]
    whole, dialling = told(report), sum(line.startswith("dial ") for line in lines)
    near = crowded(lines, whole[0])
    runs, met, wrong = 0, 0, []
    for at, c in places(lines):
        if dialling > 1 and c >= FIRST_DIALLED:
            continue
        for fault, cause in FAULTS.items():
            line = fault.format(c)
            what, is_met = wrong_in(whole, near, *replay(program, [*lines[:at], line, *lines[at:]]), c, cause)
            runs, met = runs + 1, met + is_met
            if what:
                wrong.append(f"{script}: {line} before line {at + 1}: {what}")
    return runs, met, wrong


def main():
    helped = "a script of replay; all examples and worked rows where none is named"
    scripts = words(__doc__, ("SCRIPT", dict(nargs="*", help=helped))).SCRIPT
    program = gateway()
    scripts = scripts or sorted([*glob.glob(f"{TOP}/examples/*.script"), *glob.glob(f"{TOP}/crates/replay_tests/data/*.script")])
    runs, met, wrong = 0, 0, []
    with concurrent.futures.ThreadPoolExecutor(os.cpu_count()) as pool:
        for some, few, lines in pool.map(lambda script: faults_in(program, script), scripts):
            runs, met, wrong = runs + some, met + few, wrong + lines
    print("\n".join([*wrong, f"{len(scripts)} scripts, {runs} runs with a fault, by which {met} connections ended; {len(wrong)} weren't right"]))
    return 1 if wrong else 0


if __name__ == "__main__":
    sys.exit(main())
