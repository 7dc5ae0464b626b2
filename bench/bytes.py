#!/usr/bin/env python3
"""How fast the byte layers are: streams of good frames and hostile ones, cut and read.

For each stream it prints megabytes a second of the cut beside the time in which bench/scan_bytes.rs passes once over the
same bytes, in the same run, as a ratio; and for good frames messages a second with their fields read, beside the time in
which bench/scan_fields.rs, plain Rust, does the same work: it takes each frame, compares its sum, and notes the tag and the
value of each field. Each figure is the median of five runs by turns. Nothing depends on the numbers but the reader.
"""
import os
import statistics
import subprocess
import tempfile

from building import program_of, words, yardstick

SIZE = 16_000_000


def frame(body):
    head = b"8=FIX.4.4\x019=%d\x01" % len(body) + body
    return head + b"10=%03d\x01" % (sum(head) % 256)


def order(length):
    """A new order with a body of this many bytes, or a few more."""
    body = b"35=D\x0149=BUYER\x0156=GATE\x0134=2\x0152=20260105-09:30:00.000\x0111=ORDER1\x01"
    more = [b"55=ACME\x01", b"54=1\x01", b"38=100\x01", b"40=2\x01", b"44=101.25\x01", b"1=ACCOUNT7\x01", b"59=0\x01"]
    at = 0
    while len(body) < length:
        body += more[at % len(more)]
        at += 1
    return body


def many_fields():
    """A new order of 166 bytes with 15 fields."""
    text = (
        b"35=D|49=BUYER|56=GATE|34=2|52=20260105-09:30:00.000|11=ORDER1|21=1|55=ACME|54=1|60=20260105-09:30:00.000|"
        b"38=100|40=2|44=101.25|1=ACCOUNT7|59=0|"
    )
    return text.replace(b"|", b"\x01")


def repeated(unit):
    return unit * (SIZE // len(unit))


STREAMS = {
    "frames with bodies of 80 bytes": (repeated(frame(order(80))), True),
    "frames with bodies of 250 bytes": (repeated(frame(order(250))), True),
    "orders of 166 bytes with 15 fields": (repeated(frame(many_fields())), True),
    "a stray byte before each frame": (repeated(b"8" + frame(order(80))), False),
    "frames with wrong sums": (repeated(frame(order(80))[:-4] + b"999\x01"), False),
    "heads alone": (repeated(b"8=FIX.4.4\x019="), False),
    "lengths of bodies that never come": (repeated(b"8=FIX.4.4\x019=65000\x0135="), False),
    "the byte 8": (repeated(b"8"), False),
    "the byte x": (repeated(b"x"), False),
}


def nanoseconds(*commands):
    """The median of each command's times, where they run by turns, so that each meets the same machine."""
    times = [[] for _ in commands]
    for _ in range(5):
        for taken, command in zip(times, commands):
            output = subprocess.run(command, stdout=subprocess.PIPE, check=True).stdout
            taken.append(int(output.split()[0]))
    return [statistics.median(taken) for taken in times]


def main():
    words(__doc__)
    program = program_of("byte_speed")
    with tempfile.TemporaryDirectory() as folder:
        scan, scan_fields = yardstick(folder, "scan_bytes"), yardstick(folder, "scan_fields")
        for name, (stream, good) in STREAMS.items():
            path = os.path.join(folder, "stream")
            with open(path, "wb") as file:
                file.write(stream)
            scanned, cut, bytewise = nanoseconds(
                [scan, path], [program, "cut", path, "4096"], [program, "cut", path, "1"]
            )
            line = (
                f"{name}: cut {len(stream) * 1e3 / cut:.0f} MB a second, {cut / scanned:.1f} times the scan; "
                f"fed byte by byte {bytewise / scanned:.1f} times"
            )
            if good:
                read, plain = nanoseconds([program, "read", path, "4096"], [scan_fields, path])
                messages = stream.count(b"\x0135=")
                line += (
                    f"; with fields {messages * 1e9 / read:,.0f} messages a second, {read / messages:.0f} ns each, "
                    f"{read / plain:.2f} times plain Rust"
                )
            print(line)


if __name__ == "__main__":
    main()
