#!/usr/bin/env python3
"""Hostile clients over the loopback interface, while another client trades: against the example broker, and against
`fixgate serve`.

It starts a program on a free port, and lets a client trade one order at a time on a session of its own from beginning to end.
Meanwhile each case does what no client should do, and looks at how its connection ends. One line a case: what was seen, how many
orders a second the other client traded meanwhile and the longest time that one of them took, and the program's resident memory
behind it. A second run has 1,024 connections at once from its beginning. It ends with status 1 where a case ended otherwise than
the rules say.

The broker tells on standard error why a connection ended. `fixgate serve` tells that in its report, so there it is looked at
when the run is over. Its libraries do what a script says: one fills the trading client's orders, of which there are TRADES, so
that client is slowed down to PACE orders a second; one answers the cases, and one the client that never reads.
"""

import datetime
import os
import random
import re
import resource
import socket
import struct
import subprocess
import sys
import tempfile
import threading
import time

from building import gateway, program_of, words

CONNECTIONS = 1024
SESSIONS = 16
# For how many seconds it waits for the end of a connection, which comes behind 10 where it says nothing.
PATIENCE = 40
TRADES = 120_000
PACE = 1_500
# How many orders are sent by the client that never reads, and how many a storm asks for again, and how often.
UNREAD = {"broker": 100_000, "serve": 20_000}
STORM, ASKS = 200, 500


def stamp():
    return datetime.datetime.now(datetime.timezone.utc).strftime("%Y%m%d-%H:%M:%S.%f")[:-3]


def frame(body, wrong_sum=False):
    text = f"8=FIX.4.4\x019={len(body)}\x01{body}".encode()
    return text + b"10=%03d\x01" % ((sum(text) + wrong_sum) % 256)


def message(kind, name, number, *fields):
    head = [f"35={kind}", f"49={name}", "56=GATE", f"34={number}", f"52={stamp()}"]
    return frame("".join(f"{field}\x01" for field in [*head, *fields]))


def order(name, number, tag, *more):
    return message("D", name, number, f"11={name}-{tag}", "55=ACME", "54=1", f"60={stamp()}", "38=100", "40=2", "44=12.50", *more)


def fit(name, number, size):
    """The frame of an order that has just so many bytes."""
    for pad in range(size - 250, size):
        text = order(name, number, "LONG", "58=" + "x" * pad)
        if len(text) == size:
            return text
    raise ValueError(size)


class Reader:
    """Cuts what comes into messages."""

    def __init__(self, made):
        self.socket, self.taken = made, b""

    def read(self):
        while True:
            end = self.taken.find(b"\x0110=")
            if end >= 0 and len(self.taken) >= end + 8:
                text, self.taken = self.taken[: end + 8], self.taken[end + 8 :]
                return dict(field.split("=", 1) for field in text.decode().split("\x01") if field)
            more = self.socket.recv(65536)
            if not more:
                return None
            self.taken += more


class Server:
    """A program that serves sixteen sessions. What it tells of the ends of connections depends on its kind."""

    def __init__(self, words, **streams):
        self.process = subprocess.Popen(words, text=True, **streams)
        self.came, self.most = 0, 0.0

    @staticmethod
    def free_port():
        with socket.socket() as door:
            door.bind(("127.0.0.1", 0))
            return door.getsockname()[1]

    def connect(self, room=None):
        deadline = time.monotonic() + PATIENCE
        while True:
            made = socket.socket()
            try:
                if room:
                    made.setsockopt(socket.SOL_SOCKET, socket.SO_RCVBUF, room)
                made.connect(("127.0.0.1", self.port))
                break
            except OSError:
                made.close()
                if time.monotonic() > deadline:
                    raise
                time.sleep(0.02)
        made.settimeout(PATIENCE)
        self.came += 1
        self.accepted(self.came - 1)
        return made, self.came - 1

    def memory(self):
        try:
            with open(f"/proc/{self.process.pid}/status") as status:
                found = dict(line.split(":", 1) for line in status)
            self.most = max(self.most, int(found["VmHWM"].split()[0]) * 1024 / 1e6)
            return int(found["VmRSS"].split()[0]) * 1024 / 1e6
        except (OSError, KeyError):
            return 0.0

    def wait(self):
        """The status with which it ended."""
        deadline = time.monotonic() + 120
        while self.process.poll() is None:
            self.memory()
            time.sleep(0.02)
            if time.monotonic() > deadline:
                self.process.kill()
                return "none: it still ran"
        return self.process.returncode


class Broker(Server):
    kind, trades, pace = "broker", None, None

    def __init__(self, path, cases):
        self.port = self.free_port()
        sessions = [f"GATE/C{n}" for n in range(SESSIONS)]
        words = [path, f"127.0.0.1:{self.port}", str(CONNECTIONS), *sessions]
        super().__init__(words, stdout=subprocess.DEVNULL, stderr=subprocess.PIPE)
        self.seen, self.causes = set(), {}
        threading.Thread(target=self.read_lines, daemon=True).start()

    def read_lines(self):
        for line in self.process.stderr:
            found = re.match(r"connection (\d+) (accepted|ended|refused)(?:: (\w+))?", line)
            if found and found.group(2) == "accepted":
                self.seen.add(int(found.group(1)))
            elif found:
                self.causes[int(found.group(1))] = re.sub(r"(?<=.)([A-Z])", r"-\1", found.group(3)).lower()

    def accepted(self, number):
        deadline = time.monotonic() + PATIENCE
        while number not in self.seen and time.monotonic() < deadline:
            time.sleep(0.001)

    def ends(self, made, number, *causes):
        """Whether the connection ends by one of these causes, and which cause it was."""
        deadline = time.monotonic() + PATIENCE
        while number not in self.causes and time.monotonic() < deadline:
            time.sleep(0.005)
        cause = self.causes.get(number)
        return cause in causes, cause or "stands"

    def faults(self):
        return []


class Gateway(Server):
    kind, pace = "serve", PACE

    def __init__(self, path, cases):
        self.port = self.free_port()
        self.trades = TRADES if len(cases) > 1 else TRADES // 10
        self.room = tempfile.TemporaryDirectory()
        with open(f"{self.room.name}/script", "w") as script:
            script.writelines(line + "\n" for line in self.script(cases))
        self.report = open(f"{self.room.name}/report", "w")
        words = [path, "serve", script.name, f"127.0.0.1:{self.port}", "1000000000"]
        super().__init__(words, stdout=self.report)
        self.wanted = {}

    def script(self, cases):
        yield from ["libraries 3", f"connections {CONNECTIONS}"]
        yield from (f"session GATE C{n}" for n in range(SESSIONS))
        yield from ["lib 1 request 0 0", "lib 1 answer"]
        for n in range(self.trades):
            yield from ["lib 1 read 1", f"lib 1 send 0 35=8|37={n}|17={n}|150=F|39=2|11=C0-{n}|"]
        for case in cases:
            if case is never_reads:
                yield from ["lib 3 request 6 0", "lib 3 answer"]
                for n in range(UNREAD["serve"]):
                    yield from ["lib 3 read 1", f"lib 3 send 6 35=8|37={n}|17={n}|150=F|39=2|11=C6-{n}|58={'x' * 220}|"]
            elif case in ORDERS:
                name, tags = ORDERS[case]
                yield from [f"lib 2 request {name} 0", "lib 2 answer"]
                for tag in tags:
                    yield from ["lib 2 read 1", f"lib 2 send {name} 35=8|37={tag}|17={tag}|150=F|39=2|11=C{name}-{tag}|"]

    def accepted(self, number):
        pass

    def ends(self, made, number, *causes):
        """Whether the connection ends, where the client didn't end it itself. Its cause is looked at later."""
        self.wanted[number] = causes
        if made.fileno() < 0:
            return True, f"{' or '.join(causes)} by the report"
        try:
            made.settimeout(PATIENCE)
            while made.recv(65536):
                pass
        except socket.timeout:
            return False, "stands"
        except OSError:
            pass
        return True, f"ends, {' or '.join(causes)} by the report"

    def faults(self):
        """The connections that ended otherwise than was wanted."""
        self.report.close()
        with open(self.report.name, encoding="latin-1") as report:
            found = re.findall(r"^connection (\d+) .* cause ([\w-]+)", report.read(), re.MULTILINE)
        causes = {int(number): cause for number, cause in found}
        self.room.cleanup()
        wrong = [f"connection {n}: {causes.get(n)}" for n, wanted in self.wanted.items() if causes.get(n) not in wanted]
        return wrong + ([f"{len(causes)} connections"] if len(causes) != CONNECTIONS else [])


class Trader(threading.Thread):
    """A client that orders, waits for its fill, and orders again."""

    def __init__(self, server):
        super().__init__(daemon=True)
        self.done, self.stop, self.wrong, self.slowest = 0, False, None, 0.0
        self.trades, self.pace = server.trades, server.pace
        self.socket, self.connection = server.connect()
        self.socket.setsockopt(socket.IPPROTO_TCP, socket.TCP_NODELAY, 1)
        self.reader = Reader(self.socket)
        self.socket.sendall(message("A", "C0", 1, "98=0", "108=0"))
        assert self.reader.read()["35"] == "A"

    def run(self):
        begun, last = time.monotonic(), 0
        while self.done != self.trades and not (self.stop and self.trades is None):
            sent = time.monotonic()
            self.socket.sendall(order("C0", self.done + 2, self.done))
            report = self.reader.read()
            if report is None or report["35"] != "8" or report["11"] != f"C0-{self.done}":
                self.wrong = report
                return
            self.done += 1
            now = time.monotonic()
            self.slowest = max(self.slowest, now - sent)
            # Where its orders are counted, the rest of them goes out at once in the end.
            if self.pace and not self.stop:
                begun = max(begun, now - self.done / self.pace)
                time.sleep(max(0.0, begun + self.done / self.pace - now))


def log_on(server, name, number=1, heart=0, room=None):
    made, connection = server.connect(room)
    made.sendall(message("A", name, number, "98=0", f"108={heart}"))
    reader = Reader(made)
    return made, connection, reader, reader.read()


def says_nothing(server):
    made, number = server.connect()
    begun = time.monotonic()
    well, cause = server.ends(made, number, "silent")
    return well, f"{cause} behind {time.monotonic() - begun:.0f} s"


def half_a_frame(server):
    made, number = server.connect()
    made.sendall(message("A", "C1", 1, "98=0", "108=0")[:40])
    return server.ends(made, number, "silent")


def one_byte_at_a_time(server):
    made, number = server.connect()
    made.setsockopt(socket.IPPROTO_TCP, socket.TCP_NODELAY, 1)
    reader, kinds = Reader(made), []
    for text in (message("A", "C1", 1, "98=0", "108=0"), order("C1", 2, "SLOW"), message("5", "C1", 3)):
        for byte in text:
            made.sendall(bytes([byte]))
        kinds.append(reader.read()["35"])
    well, cause = server.ends(made, number, "logged-out")
    return well and kinds == ["A", "8", "5"], f"{kinds}, {cause}"


def trade_and_go(server, made, number, reader, wanted):
    """The next report has to be of the order that is wanted. Then the client goes."""
    report = reader.read()
    made.close()
    well, cause = server.ends(made, number, "end", "read-fault")
    return well and report["35"] == "8" and report["11"] == wanted, f"35={report['35']} 11={report.get('11')}, {cause}"


def longest_frame(server):
    made, number, reader, _ = log_on(server, "C2")
    made.sendall(fit("C2", 2, 65536))
    return trade_and_go(server, made, number, reader, "C2-LONG")


def frame_too_long(server):
    made, number, reader, _ = log_on(server, "C3")
    # The long one is garbled, and the one behind it is taken.
    made.sendall(fit("C3", 2, 65537))
    made.sendall(order("C3", 2, "NEXT"))
    return trade_and_go(server, made, number, reader, "C3-NEXT")


def wrong_sums(server):
    made, number, reader, _ = log_on(server, "C4")
    for _ in range(100):
        made.sendall(frame(f"35=D\x0149=C4\x0156=GATE\x0134=2\x0152={stamp()}\x0111=BAD\x01", wrong_sum=True))
    made.sendall(order("C4", 2, "GOOD"))
    return trade_and_go(server, made, number, reader, "C4-GOOD")


def random_bytes(server):
    made, number = server.connect()
    noise = random.Random(7)
    for _ in range(64):
        made.sendall(noise.randbytes(16384))
    return server.ends(made, number, "silent")


def reset_in_a_frame(server):
    made, number, _, _ = log_on(server, "C5")
    made.sendall(order("C5", 2, "CUT")[:50])
    time.sleep(0.1)
    made.setsockopt(socket.SOL_SOCKET, socket.SO_LINGER, struct.pack("ii", 1, 0))
    made.close()
    return server.ends(made, number, "read-fault", "end")


def never_reads(server):
    made, number, _, _ = log_on(server, "C6", room=4096)
    made.setblocking(False)
    # To a script's library all orders come, since it waits for them.
    wanted, deadline = UNREAD[server.kind], time.monotonic() + (5 if server.kind == "broker" else PATIENCE)
    sent, pending = 0, b""
    while time.monotonic() < deadline and (sent < wanted or pending):
        if not pending:
            pending = order("C6", sent + 2, sent)
            sent += 1
        try:
            pending = pending[made.send(pending) :]
        except BlockingIOError:
            time.sleep(0.001)
        except OSError:
            break
    time.sleep(1)
    memory = server.memory()
    made.close()
    well, cause = server.ends(made, number, "slow-consumer", "end", "read-fault", "write-fault")
    return well, f"{sent} orders, no report read, {memory:.1f} MB; {cause}"


def closes_its_side(server):
    made, number, reader, _ = log_on(server, "C7")
    made.sendall(order("C7", 2, "LAST"))
    report = reader.read()
    made.shutdown(socket.SHUT_WR)
    end = reader.read()
    well, cause = server.ends(made, number, "end")
    return well and report["35"] == "8" and end is None, f"35={report['35']}, {cause}"


def logs_on_twice(server):
    made, number, reader, _ = log_on(server, "C8")
    other, second = server.connect()
    other.sendall(message("A", "C8", 1, "98=0", "108=0"))
    refused, cause = server.ends(other, second, "duplicate")
    made.sendall(order("C8", 2, "STILL"))
    well, seen = trade_and_go(server, made, number, reader, "C8-STILL")
    return refused and well, f"{cause}; the first one trades on: {seen}"


def bytes_behind_a_logout(server):
    made, number, reader, _ = log_on(server, "C9")
    made.sendall(message("5", "C9", 2) + order("C9", 3, "LATE") + b"noise" * 1000)
    kind = reader.read()["35"]
    well, cause = server.ends(made, number, "logged-out")
    return well and kind == "5", f"35={kind}, {cause}"


def storm_of_resends(server):
    made, number, reader, _ = log_on(server, "C10")
    for n in range(STORM):
        made.sendall(order("C10", n + 2, n))
    for _ in range(STORM):
        reader.read()
    begun, again, asked = time.monotonic(), 0, threading.Event()

    def ask():
        for n in range(ASKS):
            made.sendall(message("2", "C10", n + STORM + 2, "7=2", "16=0"))
        asked.set()

    threading.Thread(target=ask, daemon=True).start()
    made.settimeout(5)
    try:
        while again < ASKS * STORM:
            got = reader.read()
            if got is None:
                break
            again += got.get("43") == "Y"
    except socket.timeout:
        pass
    took = time.monotonic() - begun
    asked.wait(5)
    made.close()
    well, cause = server.ends(made, number, "end", "read-fault")
    return well and again == ASKS * STORM, f"{again} reports again in {took:.1f} s, {cause}"


def many_at_once(server):
    left = CONNECTIONS - server.came
    made = [server.connect() for _ in range(left)]
    one_more = socket.create_connection(("127.0.0.1", server.port))
    one_more.settimeout(1)
    try:
        one_more.sendall(message("A", "C11", 1, "98=0", "108=0"))
        answered = one_more.recv(1000)
    except OSError:
        answered = None
    memory = server.memory()
    for one, _ in made:
        one.close()
    ends = [server.ends(one, number, "end", "read-fault", "silent") for one, number in made]
    one_more.close()
    return answered is None and all(well for well, _ in ends), f"{left} at once, {memory:.1f} MB; one more gets {'no answer' if answered is None else 'AN ANSWER'}; {sorted({cause for _, cause in ends})}"


# The orders of each case that are answered: the number of its session, and what its ClOrdIDs end with.
ORDERS = {
    one_byte_at_a_time: (1, ["SLOW"]), longest_frame: (2, ["LONG"]), frame_too_long: (3, ["NEXT"]), wrong_sums: (4, ["GOOD"]),
    closes_its_side: (7, ["LAST"]), logs_on_twice: (8, ["STILL"]), storm_of_resends: (10, range(STORM)),
}

CASES = [
    one_byte_at_a_time, longest_frame, frame_too_long, wrong_sums, random_bytes, reset_in_a_frame, never_reads, closes_its_side,
    logs_on_twice, bytes_behind_a_logout, storm_of_resends, half_a_frame, says_nothing, many_at_once,
]


def run(server, cases):
    """Lets each case do its worst. Answers whether all ended as the rules say."""
    trader = Trader(server)
    trader.start()
    time.sleep(1)
    before, begun, trader.slowest = trader.done, time.monotonic(), 0.0
    time.sleep(2)
    rate = (trader.done - before) / (time.monotonic() - begun)
    print(f"{server.kind}: the other client alone: {rate:.0f} orders/s, at most {trader.slowest * 1e3:.1f} ms, {server.memory():.1f} MB", flush=True)
    fine = True
    for case in cases:
        before, begun, trader.slowest = trader.done, time.monotonic(), 0.0
        try:
            well, seen = case(server)
        except Exception as why:  # The other cases go on.
            well, seen = False, f"{type(why).__name__}: {why}"
        took = time.monotonic() - begun
        rate, word = (trader.done - before) / took, "as the rules say" if well else "OTHERWISE"
        fine = fine and well and trader.wrong is None
        print(
            f"{case.__name__}: {word}: {seen}; the other client {rate:.0f} orders/s for {took:.1f} s, "
            f"at most {trader.slowest * 1e3:.1f} ms, {server.memory():.1f} MB",
            flush=True,
        )
    trader.stop = True
    trader.join(60)
    trader.socket.close()
    status = server.wait()
    faults = server.faults()
    print(
        f"{server.kind} ended with status {status}, at most {server.most:.1f} MB; the other client traded {trader.done} orders, "
        f"wrong: {trader.wrong}; wrong ends: {faults[:8] or 'none'}{f' and {len(faults) - 8} more' if len(faults) > 8 else ''}",
        flush=True,
    )
    return fine and status == 0 and not faults


def main():
    kinds = {"broker": (Broker, lambda: program_of("example_broker")), "serve": (Gateway, gateway)}
    asked = words(
        __doc__,
        ("KIND", dict(choices=kinds, help="the example broker, or `fixgate serve`")),
        ("PROGRAM", dict(nargs="?", help="another program than the repository's own, or, of `serve`, the one that FIXGATE names")),
    )
    kind, own = kinds[asked.KIND]
    path = asked.PROGRAM or own()
    # Both this program and the server have more files open than many systems let a program have at first.
    _, most = resource.getrlimit(resource.RLIMIT_NOFILE)
    resource.setrlimit(resource.RLIMIT_NOFILE, (most, most))
    fine = []
    for cases in (CASES, [many_at_once]):
        server = kind(path, cases)
        try:
            fine.append(run(server, cases))
        finally:
            server.process.kill()
    sys.exit(0 if all(fine) else 1)


if __name__ == "__main__":
    main()
