#!/usr/bin/env python3
"""A small FIX 4.4 client for `fixgate serve`: it logs on, sends three orders, asks for the reports again, and logs out.

usage: client.py HOST PORT

Each message that it sends is printed behind `> `, each one that comes behind `< `, with `|` in the place of the byte
that ends a field. It ends with status 0 where everything came that it waited for.
"""

import datetime
import socket
import sys
import time

US, THEM = "BUYER", "GATE"
# For how many seconds it tries to connect, and waits for a message.
PATIENCE = 20


class Client:
    def __init__(self, host, port):
        self.socket = connect(host, port)
        self.socket.settimeout(PATIENCE)
        self.number = 0
        self.taken = b""

    def send(self, kind, *fields):
        """Sends a message of this type (35) with these further fields."""
        self.number += 1
        now = datetime.datetime.now(datetime.timezone.utc).strftime("%Y%m%d-%H:%M:%S.%f")[:-3]
        head = [f"35={kind}", f"49={US}", f"56={THEM}", f"34={self.number}", f"52={now}"]
        body = "".join(f"{field}\x01" for field in [*head, *fields])
        text = f"8=FIX.4.4\x019={len(body)}\x01{body}"
        text += f"10={sum(text.encode()) % 256:03}\x01"
        self.socket.sendall(text.encode())
        print(">", printed(text), flush=True)

    def read(self):
        """The next message, as a list of tags with their values."""
        while True:
            end = self.taken.find(b"\x0110=")
            if end >= 0 and len(self.taken) >= end + 8:
                text, self.taken = self.taken[: end + 8].decode(), self.taken[end + 8 :]
                print("<", printed(text), flush=True)
                return [tuple(field.split("=", 1)) for field in text.split("\x01") if field]
            more = self.socket.recv(4096)
            if not more:
                sys.exit("client: the gateway ended the connection")
            self.taken += more

    def expect(self, kind):
        """Reads a message, which has to be of this type."""
        fields = dict(self.read())
        if fields["35"] != kind:
            sys.exit(f"client: a message of type {fields['35']} came in place of {kind}")
        return fields


def connect(host, port):
    """A connection, as soon as the gateway listens."""
    deadline = time.monotonic() + PATIENCE
    while True:
        try:
            return socket.create_connection((host, port))
        except OSError as why:
            if time.monotonic() > deadline:
                sys.exit(f"client: cannot connect: {why}")
            time.sleep(0.05)


def printed(text):
    return text.replace("\x01", "|")


def main():
    if len(sys.argv) != 3:
        sys.exit(__doc__.strip().splitlines()[2])
    client = Client(sys.argv[1], int(sys.argv[2]))
    client.send("A", "98=0", "108=30")
    client.expect("A")
    orders = [("A1", "1", "100", "12.50"), ("A2", "2", "50", "12.75"), ("A3", "1", "10", "12.60")]
    for order, side, quantity, price in orders:
        client.send("D", f"11={order}", "55=ACME", f"54={side}", f"38={quantity}", "40=2", f"44={price}")
        report = client.expect("8")
        if report["11"] != order:
            sys.exit(f"client: the report is of order {report['11']}, and not of {order}")
    # All messages from the first report on once more.
    client.send("2", "7=2", "16=0")
    for order, _, _, _ in orders:
        report = client.expect("8")
        if report["43"] != "Y" or report["11"] != order:
            sys.exit("client: another message came again")
    client.send("5")
    client.expect("5")


if __name__ == "__main__":
    main()
