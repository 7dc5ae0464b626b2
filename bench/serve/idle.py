"""Clients that mostly say nothing, for `idle` and `sixteen` beside this file, which call it. They log on as C0, C1 and so on.

usage: idle.py rest PROCESS SECONDS PORT SESSIONS HEART
       idle.py first PORT SILENCE SHORTER TIMES
       idle.py beside PORT FIRST SESSIONS COMMAND [WORD..]

`rest` logs on by so many sessions with HEART as HeartBtInt (108), none where it is 0 of them, once the port is listened at. It
exchanges Heartbeats with the server, whose process it is told. It prints the processor time that the process takes over so many
seconds, in percent of one processor, and logs out. The log-ons are spread over a second, so that the Heartbeats of both sides are
too.

`first` logs on by one session without Heartbeats, and sends an order behind so many seconds of silence, and TIMES more, each
behind SHORTER seconds. It prints a line for each: the time from its send until the answer came, in microseconds. Right before
that it sends as much to itself, so that what the silence did to this program costs the order little.

`beside` logs on by so many sessions from C<FIRST> on, without Heartbeats, lets the command run, and says nothing meanwhile. Then
each session sends one order, waits for its answer, and logs out. Where the command fails its status is that of the program, and
no order is sent.
"""

import os
import selectors
import signal
import socket
import subprocess
import sys
import time

# For how many seconds it tries to connect, and waits for an answer.
PATIENCE = 30
# For how many seconds a process rests before it is measured.
SETTLING = 2
# How often an order is sent to this program itself before it is sent to a server.
REHEARSALS = 20


def fail(why):
    sys.exit(f"idle.py: {why}")


def frame(*fields):
    body = "".join(f"{field}\x01" for field in fields)
    text = f"8=FIX.4.4\x019={len(body)}\x01{body}"
    return f"{text}10={sum(text.encode()) % 256:03}\x01".encode()


def stamp():
    return time.strftime("%Y%m%d-%H:%M:%S", time.gmtime()) + ".000"


class Session:
    """A session that logs on over a connection of its own."""

    def __init__(self, port, name, heart):
        self.name, self.heart = name, heart
        # The numbers of the last message that was sent, and of the last one that came; how many orders were made, and the
        # ClOrdIDs of the last one, and of the last that was answered.
        self.number, self.came, self.orders, self.ordered, self.answered = 0, 0, 0, None, None
        self.taken, self.ready, self.over = b"", False, False
        self.heard = time.monotonic()
        self.socket = connect(port)
        self.socket.setsockopt(socket.IPPROTO_TCP, socket.TCP_NODELAY, 1)
        self.send("A", "98=0", f"108={heart}")

    def message(self, kind, *fields):
        """The bytes of the next message, which is sent at once."""
        self.number += 1
        self.sent = time.monotonic()
        return frame(f"35={kind}", f"49={self.name}", "56=GATE", f"34={self.number}", f"52={stamp()}", *fields)

    def send(self, kind, *fields):
        self.socket.sendall(self.message(kind, *fields))

    def order(self):
        """The bytes of an order, which is sent at once. Its ClOrdID is the one that a script's answer to it has."""
        self.ordered = f"{self.name}-{self.orders}"
        self.orders += 1
        return self.message("D", f"11={self.ordered}", "55=ACME", "54=1", f"60={stamp()}", "38=100", "40=2", "44=12.50")

    def due(self):
        """When its next Heartbeat is due."""
        return self.sent + self.heart if self.heart and not self.over else float("inf")

    def take(self, more):
        """Takes in what came, and answers it."""
        if not more:
            fail(f"{self.name}: the connection ended behind message {self.came}")
        self.taken += more
        self.heard = time.monotonic()
        while (end := self.taken.find(b"\x0110=")) >= 0 and len(self.taken) >= end + 8:
            text, self.taken = self.taken[: end + 8], self.taken[end + 8 :]
            self.hear(dict(field.split("=", 1) for field in text.decode().split("\x01") if field))

    def hear(self, message):
        self.came += 1
        kind = message["35"]
        if int(message["34"]) != self.came:
            fail(f"{self.name}: message {message['34']} came in place of {self.came}")
        if kind == "A":
            self.ready = True
        elif kind == "1":
            self.send("0", f"112={message['112']}")
        elif kind in ("8", "D"):
            # An echo server sends the order back.
            self.answered = message["11"]
        elif kind == "5":
            self.over = True
        elif kind != "0":
            fail(f"{self.name}: a message of type {kind} wasn't wanted")


class Clients:
    """Sessions in one thread."""

    def __init__(self):
        self.sessions, self.selector = [], selectors.DefaultSelector()

    def log_on(self, port, first, count, heart):
        """Logs on by so many sessions. With Heartbeats it takes a second."""
        begun = time.monotonic()
        for n in range(count):
            if heart:
                self.go_on(begun + n / count)
            session = Session(port, f"C{first + n}", heart)
            self.sessions.append(session)
            self.selector.register(session.socket, selectors.EVENT_READ, session)
        self.wait("logged on", lambda: all(it.ready for it in self.sessions))

    def go_on(self, until, seen=lambda: False):
        """Takes in what comes, and sends the Heartbeats that are due, until a moment or until something is seen, which is the
        answer."""
        while not (done := seen()) and (now := time.monotonic()) < until:
            for session in self.sessions:
                if session.due() <= now:
                    session.send("0")
            next_one = min([until, *(it.due() for it in self.sessions)])
            for key, _ in self.selector.select(max(0.0, next_one - now)):
                key.data.take(key.fileobj.recv(65536))
                if key.data.over:
                    self.selector.unregister(key.fileobj)
                    key.fileobj.close()
        return done

    def wait(self, what, seen):
        if not self.go_on(time.monotonic() + PATIENCE, seen):
            fail(f"behind {PATIENCE} s not all were {what}")

    def order(self):
        """An order of each session, and its answer."""
        for session in self.sessions:
            session.socket.sendall(session.order())
        self.wait_for_answers()

    def wait_for_answers(self):
        self.wait("answered", lambda: all(it.answered == it.ordered for it in self.sessions))

    def log_out(self):
        for session in self.sessions:
            session.send("5")
        self.wait("logged out", lambda: all(it.over for it in self.sessions))


def connect(port):
    """A connection, as soon as there is a listener."""
    deadline = time.monotonic() + PATIENCE
    while True:
        try:
            return socket.create_connection(("127.0.0.1", port), timeout=PATIENCE)
        except OSError as why:
            if time.monotonic() > deadline:
                fail(f"cannot connect: {why}")
            time.sleep(0.01)


def wait_for_listener(port):
    """Waits until the port is listened at, without a connection to it."""
    deadline = time.monotonic() + PATIENCE
    while True:
        with open("/proc/net/tcp") as table:
            lines = [line.split() for line in table]
        # 0A is the state of a listener.
        if any(it[1].endswith(f":{port:04X}") and it[3] == "0A" for it in lines):
            return
        if time.monotonic() > deadline:
            fail(f"nobody listens at {port}")
        time.sleep(0.01)


def processor_time(process):
    """How many seconds of a processor a process has taken, all its threads together."""
    try:
        with open(f"/proc/{process}/stat") as line:
            # Behind the program's name, which may hold spaces, utime and stime are the twelfth and the thirteenth word.
            found = line.read().rpartition(")")[2].split()
    except OSError:
        fail(f"process {process} has ended")
    return (int(found[11]) + int(found[12])) / os.sysconf("SC_CLK_TCK")


def rest(process, seconds, port, count, heart):
    wait_for_listener(port)
    clients = Clients()
    clients.log_on(port, 0, count, heart)
    clients.go_on(time.monotonic() + SETTLING)
    begun, before = time.monotonic(), processor_time(process)
    clients.go_on(begun + seconds)
    taken, took = processor_time(process) - before, time.monotonic() - begun
    for session in clients.sessions:
        if heart and time.monotonic() - session.heard > 3 * heart:
            fail(f"{session.name}: no Heartbeat came")
    print(f"{100 * taken / took:.2f}", flush=True)
    clients.log_out()


def exchange(made, text):
    """Sends a text. Answers what comes, and behind how many nanoseconds."""
    begun = time.perf_counter_ns()
    made.send(text)
    more = made.recv(65536)
    return more, time.perf_counter_ns() - begun


def first(port, silence, shorter, times):
    clients = Clients()
    clients.log_on(port, 0, 1, 0)
    session = clients.sessions[0]
    ours, theirs = socket.socketpair()
    for pause in [silence] + [shorter] * times:
        clients.go_on(time.monotonic() + pause)
        text = session.order()
        for _ in range(REHEARSALS):
            theirs.send(text)
            exchange(ours, text)
            theirs.recv(65536)
        more, took = exchange(session.socket, text)
        session.take(more)
        clients.wait_for_answers()
        print(f"{took / 1000:.0f}", flush=True)
    clients.log_out()


def beside(port, start, count, command):
    clients = Clients()
    clients.log_on(port, start, count, 0)
    running = subprocess.Popen(command)
    try:
        status = running.wait()
    finally:
        # Where this program is told to end the command ends with it.
        running.terminate()
        running.wait()
    if status:
        sys.exit(status if status > 0 else 128 - status)
    clients.order()
    clients.log_out()


def main():
    signal.signal(signal.SIGTERM, lambda *_: sys.exit(143))
    kind, words = sys.argv[1] if len(sys.argv) > 1 else "", sys.argv[2:]
    if kind == "rest" and len(words) == 5:
        rest(*map(int, words))
    elif kind == "first" and len(words) == 4:
        first(*map(int, words))
    elif kind == "beside" and len(words) > 3:
        beside(*map(int, words[:3]), words[3:])
    else:
        print(__doc__, file=sys.stderr)
        sys.exit(2)


main()
