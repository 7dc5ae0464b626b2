#!/usr/bin/env python3
"""How fast reports are audited, beside plain Rust that cuts the same lines into words and numbers.

Three kinds of reports, each of some 24 to 37 MB and of a tenth of that: the orders of one session, which nobody reads; orders that
a library reads and answers, lease by lease; and leases without orders, whose lines are short. Both programs take each report by
turns; the times are the median of five. The last ratio of a kind is that of the two sizes' times: near ten where the
time is linear. Nothing depends on the numbers but the reader.
"""
import os
import statistics
import subprocess
import tempfile

from building import program_of, words, yardstick

STAMP = "20260105-09:30:00.000"
SIZE = 32_000_000


def order(k):
    return f"35=D|49=BUYER|56=GATE|34={k + 2}|52={STAMP}|11=ORDER{k}|55=ACME|54=1|38=100|40=2|44=101.25|"


def fill(k):
    return f"35=8|37=O{k}|17=E{k}|150=0|39=0|55=ACME|54=1|"


class Session:
    """A session's journal as it grows: its entries, holdings, logs and numbers."""

    def __init__(self):
        self.entries, self.holdings, self.ins, self.outs, self.calls = [], [], [], [], []
        self.start, self.lease, self.asked, self.reads = 0, 0, 0, 0

    def arrive(self, body):
        self.entries.append(f" arrive {len(self.ins)}")
        self.ins.append(body)

    def hold(self, library, lease, since, sends):
        self.holdings.append(f" holding {library} {lease} from {since} start {self.start} end {len(self.ins)} sends {sends}")
        self.start = len(self.ins)

    def lease_out(self, orders):
        """A library gets the session, reads the orders that come, answers each, and gives the session back."""
        self.hold(0, 0, self.start, 0)
        self.lease, self.asked, at = self.lease + 1, self.asked + 1, len(self.ins)
        self.entries.append(f" granted 1 {self.asked} lease {self.lease} from {at} start {at}")
        self.calls += [f" request 0 {at}: asked {self.asked}", f" poll: granted {self.asked} 0 lease {self.lease} from {at} start {at}"]
        for k in range(orders):
            self.arrive(order(at + k))
            self.calls.append(f" poll: message 0 lease {self.lease} pos {at + k} {order(at + k)}")
        for k in range(orders):
            self.outs.append(fill(at + k))
            self.entries.append(f" send {self.lease} 1 {k + 1} {len(self.outs)}")
            self.calls.append(f" send 0 {fill(at + k)}: sent {self.lease} {k + 1}")
        self.entries.append(f" release {self.lease} 1 {orders}")
        self.calls.append(f" release 0: released {self.lease} {orders}")
        self.reads += orders
        self.hold(1, self.lease, at, orders)

    def report(self):
        self.hold(0, 0, self.start, 0)
        lines = ["fixgate report 1", f"session 0 GATE BUYER owner 0 lease {self.lease} in {len(self.ins)} out {len(self.outs)}"]
        lines += self.entries + self.holdings
        lines += [f" in {k} {body}" for k, body in enumerate(self.ins)]
        lines += [f" out {k + 1} {STAMP} {body}" for k, body in enumerate(self.outs)]
        lines += [f"library 1 reads {self.reads}"] + self.calls + ["end", ""]
        return "\n".join(lines).encode()


def unread_orders(size):
    session = Session()
    for k in range(size // 115):
        session.arrive(order(k))
    return session.report()


def read_orders(size):
    session = Session()
    for _ in range(size // 43_000):
        session.lease_out(100)
    return session.report()


def leases_alone(size):
    session = Session()
    for _ in range(size // 335):
        session.lease_out(0)
    return session.report()


KINDS = {"orders that nobody reads": unread_orders, "orders that a library answers": read_orders, "leases without orders": leases_alone}


def time_of(command):
    words = subprocess.run(command, check=True, capture_output=True, text=True).stdout.split()
    return int(words[0]), words[1]


def main():
    words(__doc__)
    program = program_of("audit_speed")
    with tempfile.TemporaryDirectory() as folder:
        plain = yardstick(folder, "plain_words")
        path = os.path.join(folder, "report")
        for kind, make in KINDS.items():
            times = {}
            for size in (SIZE, SIZE // 10):
                text = make(size)
                with open(path, "wb") as file:
                    file.write(text)
                ours, theirs = [], []
                for _ in range(5):
                    taken, named = time_of([program, path])
                    assert named == "0", (kind, size, named)
                    ours.append(taken)
                    theirs.append(time_of([plain, path])[0])
                taken, plainly = statistics.median(ours), statistics.median(theirs)
                times[size] = taken
                rate = len(text) * 1000 / taken
                print(f"{kind}: {len(text)} bytes, {rate:.0f} MB a second, {taken / plainly:.1f} times plain Rust")
            print(f"{kind}: ten times the bytes take {times[SIZE] / times[SIZE // 10]:.1f} times as long")


if __name__ == "__main__":
    main()
