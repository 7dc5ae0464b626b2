#!/usr/bin/env python3
"""A replay at all limits at once: what comes of it, how long it takes, and in how much memory.

The script has 64 sessions, 16 libraries with four of them each, 1,024 connections that come, of which 48 are bound and
all stand at once, and 1,024 dials of 16 sessions, of which the last ones stand. Then, with no turn between the last of
these: the notices of a session fill the ring of each library, another session of each library holds 256 early messages, of
257, on one connection wait 1,048,576 items, and each of the 64 lanes is full. The next turn takes the lanes in, and the
connection with the items has too many. At last every input ends.

What the report says of each session, connection and library is compared with what follows from that. It ends with status 1
where something is otherwise. FIXGATE names another program than the repository's own. Nothing depends on the figures but the
reader: on a processor of 2.5 GHz it took 0.3 s and 266 MB at most.
"""

import os
import re
import subprocess
import sys
import tempfile
import threading
import time

from building import gateway, words

SESSIONS, DIALLING, LIBRARIES = 64, 16, 16
ACCEPTING = SESSIONS - DIALLING
CONNECTIONS, DIALS, FIRST_DIALLED = 1024, 1024, 1024
LANE, RING, HELD, WAITING, READ = 16, 256, 256, 1_048_576, 4096
# Each library has so many sessions: of the first the orders come, of the second the early messages.
EACH = SESSIONS // LIBRARIES
ORDERS = 300
# The session whose connection has all the items, of library 1, and how many reports it was sent.
SLOW, REPORTS = 2, 1024
# The last connections that were dialled stand.
STANDING = FIRST_DIALLED + DIALS - DIALLING


def stamp(ms):
    return f"20260105-09:30:00.{ms:03}"


def names():
    return [f"B{s:02}" for s in range(ACCEPTING)] + [f"H{s:02}" for s in range(DIALLING)]


def connection(s):
    return s if s < ACCEPTING else STANDING + s - ACCEPTING


def message(kind, s, number, rest):
    return f"frame {connection(s)} 35={kind}|49={names()[s]}|56=GATE|34={number}|52={stamp(0)}|{rest}"


def length(line):
    body = line.split(" ", 2)[2]
    return len(body) + len(f"8=FIX.4.4|9={len(body)}|10=000|")


def turns(lines):
    """As many turns as reading the longest of these connections takes, and one more."""
    bytes_of = {}
    for line in lines:
        c = line.split(" ", 2)[1]
        bytes_of[c] = bytes_of.get(c, 0) + length(line)
    return ["turn"] * (max(bytes_of.values()) // READ + 2)


def configuration():
    lines = [f"session GATE {name}" for name in names()[:ACCEPTING]]
    lines += [f"dial GATE {name} hub:1 30 1" for name in names()[ACCEPTING:]]
    return lines + [f"libraries {LIBRARIES}", "option timeout 3600000", f"at {stamp(0)}"]


def connections():
    lines = ["connect"] * CONNECTIONS
    lines += [message("A", s, 1, "98=0|108=30|") for s in range(ACCEPTING)]
    return lines + ["turn"] * CONNECTIONS


def dials():
    lines = []
    for first in range(FIRST_DIALLED, FIRST_DIALLED + DIALS, DIALLING):
        lines += ["take"] * DIALLING
        if first < STANDING:
            lines += [f"finish {first + j}" for j in range(DIALLING)]
        lines += [f"at {stamp((first - FIRST_DIALLED) // DIALLING + 1)}", "turn"]
    lines += [message("A", s, 1, "98=0|108=30|") for s in range(ACCEPTING, SESSIONS)]
    return lines + ["turn"]


def leases():
    lines = []
    for k in range(EACH):
        lines += [f"lib {l} request {(l - 1) * EACH + k} 0" for l in range(1, LIBRARIES + 1)] + ["turn"]
        lines += [f"lib {l} poll" for l in range(1, LIBRARIES + 1)]
    return lines


def reports():
    lines = []
    for first in range(0, REPORTS, LANE):
        lines += [f"lib 1 send {SLOW} 35=8|37=O{n}|" for n in range(first, first + LANE)] + ["turn"]
    return lines


def orders():
    lines = []
    for l in range(LIBRARIES):
        lines += [message("D", l * EACH, n, "11=A1|") for n in range(2, ORDERS + 2)]
    return lines + turns(lines)


def early():
    lines = []
    for l in range(LIBRARIES):
        lines += [message("D", l * EACH + 1, n, "11=A1|") for n in range(3, HELD + 4)]
    return lines + turns(lines)


def items():
    asks = [message("2", SLOW, n, "7=2|16=0|") for n in range(2, WAITING // REPORTS + 2)]
    lines, taken = [f"block {connection(SLOW)} 0"], 0
    for ask in asks:
        taken += length(ask)
        if taken > READ:
            lines.append("turn")
            taken = length(ask)
        lines.append(ask)
    return lines + ["turn", "turn"]


def lanes():
    lines = []
    for s in range(SESSIONS):
        lines += [f"lib {s // EACH + 1} send {s} 35=8|37=L{n}|" for n in range(LANE + 1)]
    return lines + ["turn"]


def ends():
    all_of = list(range(CONNECTIONS)) + list(range(STANDING, FIRST_DIALLED + DIALS))
    return [f"finish {c}" for c in all_of] + ["turn", "turn"]


def script():
    parts = [configuration(), connections(), dials(), leases(), reports(), orders(), early(), items(), lanes(), ends()]
    return "\n".join(line for part in parts for line in part) + "\n"


def differences(report):
    """What is otherwise than it should be, line by line."""
    found = []

    def same(what, is_so, should_be):
        if is_so != should_be:
            found.append(f"{what}: {is_so} and not {should_be}")

    heads = re.findall(r"^session (\d+) \S+ \S+ owner (\d+) lease (\d+) in (\d+) out (\d+)$", report, re.M)
    same("sessions", len(heads), SESSIONS)
    for s, owner, lease, came, out in (map(int, head) for head in heads):
        same(f"owner of session {s}", (owner, lease), (s // EACH + 1, 1))
        same(f"messages of session {s}", came, ORDERS if s % EACH == 0 else 0)
        # A Logon, or one for each dial, the lane, the reports, and a ResendRequest for the gap.
        logons = 1 if s < ACCEPTING else DIALS // DIALLING
        sent = logons + LANE + (REPORTS if s == SLOW else 0) + (1 if s % EACH == 1 else 0)
        same(f"numbers of session {s}", out, sent)
    rows = re.findall(r"^connection (\d+) session (\S+) taken \d+ garbled (\d+) written \d+ cause (.+)$", report, re.M)
    same("connections", len(rows), CONNECTIONS + DIALS)
    too_many = f"slow-consumer {WAITING + LANE}"
    for c, s, garbled, cause in rows:
        c = int(c)
        if c < FIRST_DIALLED:
            same(f"session of connection {c}", s, str(c) if c < ACCEPTING else "-")
        else:
            same(f"session of connection {c}", s, str(ACCEPTING + (c - FIRST_DIALLED) % DIALLING))
        same(f"garbled of connection {c}", garbled, "0")
        same(f"cause of connection {c}", cause, too_many if c == connection(SLOW) else "end")
    same("libraries", len(re.findall(r"^library \d+ reads 0$", report, re.M)), LIBRARIES)
    same("grants", report.count(" poll: granted "), SESSIONS)
    same("full lanes", len(re.findall(r": lane-full ", report)), SESSIONS)
    same("sends", len(re.findall(r": sent ", report)), SESSIONS * LANE + REPORTS)
    return found


def ended(command):
    """The status of a run, what it wrote, and the most memory that it had, in bytes."""
    made = subprocess.Popen(command, stdout=subprocess.PIPE)
    late = threading.Timer(1800, made.kill)
    late.daemon = True
    late.start()
    with made.stdout as out:
        report = out.read()
    _, status, used = os.wait4(made.pid, 0)
    late.cancel()
    made.returncode = os.waitstatus_to_exitcode(status)
    return made.returncode, report, used.ru_maxrss * 1024


def main():
    helped = "write the script to this file, and run nothing"
    written = words(__doc__, ("--script", dict(metavar="FILE", help=helped))).script
    text = script()
    if written:
        with open(written, "w") as file:
            file.write(text)
        return 0
    program = gateway()
    with tempfile.TemporaryDirectory() as folder:
        path = os.path.join(folder, "limits.script")
        with open(path, "w") as file:
            file.write(text)
        begin = time.monotonic()
        status, report, used = ended([program, "replay", path])
        seconds = time.monotonic() - begin
    print(f"status {status}, {seconds:.1f} s, {used / 1e6:.0f} MB at most, script of {len(text)} bytes, report of {len(report)}")
    found = differences(report.decode()) if status == 0 else [f"status {status}"]
    for line in found[:20]:
        print(line)
    print("all is as it should be" if not found else f"{len(found)} differences")
    return 1 if found else 0


if __name__ == "__main__":
    sys.exit(main())
