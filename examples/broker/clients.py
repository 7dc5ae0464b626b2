#!/usr/bin/env python3
"""Clients for the example broker: several counterparties at once, each of which orders, is cut off, and comes back.

usage: clients.py HOST PORT CLIENTS ORDERS [WINDOW [CUTS]]

Client N is the counterparty CN of the session GATE/CN, from C0 on. It logs on, sends its orders with at most WINDOW
(32) of them without their fill, and logs out. CUTS (1) times on its way it drops its connection in the middle of a
message, the first time and then every second time by a reset behind many orders, logs on again, and asks for what it
missed (ResendRequest, 35=2). What the broker asks for it sends again with PossDupFlag (43=Y), and some orders that were
filled it sends once more as new messages, some of them with that flag. The run takes
CLIENTS x (CUTS + 1) connections. It prints one line a client, and ends with status 1 where an order hasn't exactly one
fill.
"""

import datetime
import socket
import struct
import sys
import threading
import time

US = "GATE"
# For how many seconds a client tries to connect, and waits for a message.
PATIENCE = 30
# How many orders it sends before it resets its connection.
BURST = 500
# For how many seconds it stays away.
PAUSE = 0.5


def stamp():
    return datetime.datetime.now(datetime.timezone.utc).strftime("%Y%m%d-%H:%M:%S.%f")[:-3]


def frame(body):
    text = f"8=FIX.4.4\x019={len(body)}\x01{body}".encode()
    return text + b"10=%03d\x01" % (sum(text) % 256)


class Lost(Exception):
    """The connection ended."""


class Client:
    def __init__(self, host, port, name, orders, window, cuts):
        self.host, self.port, self.name = host, port, name
        self.orders, self.window, self.cuts = orders, window, cuts
        # What was sent, by its number: the type, the fields, and when.
        self.sent = {}
        self.number = 0
        # The number of the next message that is to come, and those that came early.
        self.expected = 1
        self.early = {}
        self.next_order = 0
        self.fills = {}
        self.reports = set()
        self.repeats = 0
        self.resent = 0
        self.taken = b""
        self.socket = None
        self.asked = False

    # The wire.

    def connect(self):
        deadline = time.monotonic() + PATIENCE
        while True:
            try:
                self.socket = socket.create_connection((self.host, self.port))
                break
            except OSError:
                if time.monotonic() > deadline:
                    raise
                time.sleep(0.05)
        self.socket.setsockopt(socket.IPPROTO_TCP, socket.TCP_NODELAY, 1)
        self.socket.settimeout(PATIENCE)
        self.taken = b""
        self.asked = False

    def put(self, number, kind, fields, sent_at, again=False):
        head = [f"35={kind}", f"49={self.name}", f"56={US}", f"34={number}"]
        if again:
            head += ["43=Y", f"52={stamp()}", f"122={sent_at}"]
        else:
            head += [f"52={sent_at}"]
        self.socket.sendall(frame("".join(f"{field}\x01" for field in [*head, *fields])))

    def send(self, kind, *fields, again=False):
        self.number += 1
        now = stamp()
        self.sent[self.number] = (kind, fields, now)
        self.put(self.number, kind, fields, now, again)

    def read(self):
        """The next message, as its fields by their tags."""
        while True:
            end = self.taken.find(b"\x0110=")
            if end >= 0 and len(self.taken) >= end + 8:
                text, self.taken = self.taken[: end + 8], self.taken[end + 8 :]
                return dict(field.split("=", 1) for field in text.decode().split("\x01") if field)
            more = self.socket.recv(65536)
            if not more:
                raise Lost
            self.taken += more

    # The session.

    def log_on(self):
        self.connect()
        self.send("A", "98=0", "108=0")
        while True:
            message = self.read()
            if self.hear(message) and message["35"] == "A":
                return

    def hear(self, message):
        """Takes a message in. Answers whether it came in its turn."""
        number = int(message["34"])
        if message["35"] == "4":
            # What lies between needs no sending again.
            self.expected = max(self.expected, int(message["36"]))
        elif message.get("43") == "Y" and number < self.expected:
            return False
        elif number > self.expected:
            self.early[number] = message
            if not self.asked:
                self.asked = True
                self.send("2", f"7={self.expected}", "16=0")
            return message["35"] == "A"
        else:
            self.expected = number + 1
            self.handle(message)
        while self.expected in self.early:
            message = self.early.pop(self.expected)
            self.expected += 1
            self.handle(message)
        if not self.early:
            self.asked = False
        return True

    def handle(self, message):
        kind = message["35"]
        if kind == "8":
            self.reports.add(message["17"])
            order = message["11"]
            self.fills[order] = self.fills.get(order, 0) + 1
        elif kind == "1":
            self.send("0", f"112={message['112']}")
        elif kind == "2":
            self.send_again(int(message["7"]))

    def send_again(self, begin):
        """Sends the orders from this number on again, and says what lies between them."""
        at = begin
        gap = None
        for number in range(begin, self.number + 1):
            kind, fields, sent_at = self.sent[number]
            if kind == "D":
                if gap is not None:
                    self.fill_gap(gap, number)
                    gap = None
                self.put(number, kind, fields, sent_at, again=True)
                self.resent += 1
            elif gap is None:
                gap = number
        if gap is not None:
            self.fill_gap(gap, self.number + 1)

    def fill_gap(self, at, until):
        self.put(at, "4", ("123=Y", f"36={until}"), stamp(), again=True)

    # The orders.

    def order(self, number):
        return f"{self.name}-{number}"

    def send_order(self, number, again=False):
        side = "1" if number % 2 else "2"
        # Every seventh is a market order.
        price = ("40=1",) if number % 7 == 0 else ("40=2", f"44={10 + number % 50}.25")
        self.send("D", f"11={self.order(number)}", "55=ACME", f"54={side}", "38=100", *price, again=again)

    def trade(self, until):
        """Orders up to this number, and waits for each fill."""
        while len(self.fills) < until:
            while self.next_order < until and self.next_order - len(self.fills) < self.window:
                self.send_order(self.next_order)
                self.next_order += 1
            self.hear(self.read())

    def be_cut_off(self, reset):
        """Sends some orders and half of a message, and drops the connection without reading. A reset takes bytes with
        it that the broker hasn't read yet."""
        burst = BURST if reset else self.window
        for _ in range(min(burst, self.orders - self.next_order)):
            self.send_order(self.next_order)
            self.next_order += 1
        half = frame(f"35=D\x0149={self.name}\x0156={US}\x0134={self.number + 1}\x01")
        self.socket.sendall(half[: len(half) // 2])
        if reset:
            self.socket.setsockopt(socket.SOL_SOCKET, socket.SO_LINGER, struct.pack("ii", 1, 0))
        self.socket.close()
        # While the broker hasn't seen the end of this connection, it refuses another one.
        time.sleep(PAUSE)

    def repeat(self, count):
        """Sends some orders that were filled once more, as new messages, every second one with PossDupFlag (43=Y)."""
        for number in range(min(count, self.next_order)):
            self.send_order(number, again=number % 2 == 0)
            self.repeats += 1

    def run(self):
        self.log_on()
        for cut in range(self.cuts):
            self.trade(self.orders * (cut + 1) // (self.cuts + 1))
            self.be_cut_off(reset=cut % 2 == 0)
            self.log_on()
            self.trade(self.next_order)
            self.repeat(10)
        self.trade(self.orders)
        # A message of each other kind that the broker answers: each is answered behind all orders.
        self.send("F", "11=LATE", f"41={self.order(0)}", "55=ACME", "54=1", "60=" + stamp())
        while True:
            message = self.read()
            if self.hear(message) and message["35"] == "9":
                break
        self.send("5")
        while self.read()["35"] != "5":
            pass
        self.socket.close()

    def faults(self):
        wrong = [f"{order}: {count} fills" for order, count in self.fills.items() if count != 1]
        wrong += [f"{self.order(n)}: no fill" for n in range(self.orders) if self.order(n) not in self.fills]
        if len(self.reports) != len(self.fills):
            wrong.append(f"{len(self.reports)} executions")
        return wrong


def main():
    if len(sys.argv) not in (5, 6, 7):
        sys.exit(__doc__.strip().splitlines()[2])
    host, port, clients, orders = sys.argv[1], *map(int, sys.argv[2:5])
    window = int(sys.argv[5]) if len(sys.argv) > 5 else 32
    cuts = int(sys.argv[6]) if len(sys.argv) > 6 else 1
    all_clients = [Client(host, port, f"C{n}", orders, window, cuts) for n in range(clients)]
    errors = {}

    def work(client):
        try:
            client.run()
        except Exception as why:  # The other clients go on.
            errors[client.name] = f"{type(why).__name__}: {why}"

    threads = [threading.Thread(target=work, args=(client,)) for client in all_clients]
    for thread in threads:
        thread.start()
    for thread in threads:
        thread.join()
    failed = False
    for client in all_clients:
        wrong = client.faults()
        if client.name in errors:
            wrong.append(errors[client.name])
        failed = failed or bool(wrong)
        told = "each order has one fill" if not wrong else "; ".join(wrong[:5])
        print(
            f"{client.name}: {client.next_order} orders, {len(client.fills)} filled, {client.cuts} cuts, "
            f"{client.resent} sent again, {client.repeats} repeated: {told}"
        )
    sys.exit(1 if failed else 0)


if __name__ == "__main__":
    main()
