#!/usr/bin/env python3
"""Measures migrations between two processes over loopback, beside a plain loop over the same kind of socket.

usage: tools/migration_speed.py PROGRAM [SIZE_IN_MIB] [RUNS] [PAUSES]

PROGRAM is `vmmem_migrate`, as a build with proofs leaves it. Each run sends so many bytes, 256 MiB by default, by a
loop of sends and reads of 1 MiB between two processes, and then the first round of a guest of random bytes and of one
of which three of four pages are zeros. Then come migrations beside four writing threads, with their pauses beside what
was allowed. A machine that does other things makes all of this slower, and not each part alike.
"""

import re
import socket
import statistics
import subprocess
import sys
import time
from multiprocessing import Process

CHUNK = 2**20
ALLOWED = 100  # milliseconds
WRITTEN = 10_000  # pages a second


def take(listener, count):
    connection, _ = listener.accept()
    buffer = bytearray(CHUNK)
    view = memoryview(buffer)
    for _ in range(count):
        got = 0
        while got < CHUNK:
            read = connection.recv_into(view[got:])
            if read == 0:
                sys.exit("the plain loop ended early")
            got += read
    connection.sendall(b"1")
    connection.close()


def plain(mebibytes):
    """The milliseconds that so many bytes take from one process to another, with a byte back at the end."""
    listener = socket.create_server(("127.0.0.1", 0))
    process = Process(target=take, args=(listener, mebibytes))
    process.start()
    chunk = bytes(range(256)) * (CHUNK // 256)
    with socket.create_connection(listener.getsockname()) as connection:
        connection.setsockopt(socket.IPPROTO_TCP, socket.TCP_NODELAY, 1)
        start = time.monotonic()
        for _ in range(mebibytes):
            connection.sendall(chunk)
        connection.recv(1)
        taken = (time.monotonic() - start) * 1000
    process.join()
    listener.close()
    return taken


def migrate(program, *options):
    """What both ends of a migration print."""
    receive = [program, "receive", "127.0.0.1:0"] + [word for word in options if word == "--verify"]
    with subprocess.Popen(receive, stdout=subprocess.PIPE, text=True) as receiver:
        address = receiver.stdout.readline().split()[-1]
        sent = subprocess.run([program, "send", address, *options], capture_output=True, text=True)
        came = receiver.stdout.read()
    if sent.returncode or receiver.returncode:
        sys.exit(f"a migration failed: {sent.stdout}{sent.stderr}{came}")
    return sent.stdout, came


def first_round(program, mebibytes, zeros):
    """The milliseconds of the first round of a guest that nothing writes."""
    words = ["--size", f"{mebibytes}M", "--threads", "1", "--rate", "0", "--zeros", str(zeros)]
    text, _ = migrate(program, *words)
    return float(re.search(r"^ +0 +\d+ +\d+ +([\d.]+)", text, re.M).group(1))


def pause(program, mebibytes, seed):
    """The milliseconds of a pause, and how many rounds there were, with blocks that are compared."""
    words = ["--size", f"{mebibytes}M", "--threads", "4", "--rate", str(WRITTEN), "--seed", str(seed)]
    text, came = migrate(program, *words, "--downtime", str(ALLOWED), "--verify")
    if "NOT EQUAL" in text + came or " equal" not in text or " equal" not in came:
        sys.exit(f"blocks differ: {text}{came}")
    took = float(re.search(r"the guest stood for ([\d.]+) ms", text).group(1))
    return took, int(re.search(r"^in all +(\d+)", text, re.M).group(1))


def main():
    if len(sys.argv) < 2:
        sys.exit(__doc__)
    program = sys.argv[1]
    mebibytes, runs, pauses = (int(word) for word in (sys.argv[2:] + ["256", "5", "20"][len(sys.argv) - 2 :])[:3])
    rows = []
    print(f"{mebibytes} MiB   plain loop   random bytes   of the loop   3/4 zeros   of the loop")
    for run in range(runs):
        row = (plain(mebibytes), first_round(program, mebibytes, 0), first_round(program, mebibytes, 6))
        rows.append(row)
        tell(f"run {run + 1}", row)
    tell("middle", [statistics.median(column) for column in zip(*rows)])
    took = []
    for run in range(pauses):
        millis, rounds = pause(program, mebibytes, run + 1)
        took.append(millis)
        word = "" if millis <= 2 * ALLOWED else "   ABOVE TWICE"
        print(f"run {run + 1:>2}: {rounds:>2} rounds, a pause of {millis:.1f} ms of {ALLOWED} allowed{word}")
    if took:
        print(f"pauses: {min(took):.1f} to {max(took):.1f} ms, in the middle {statistics.median(took):.1f}")


def tell(name, row):
    loop, full, sparse = row
    print(f"{name:<8} {loop:>10.1f} ms {full:>11.1f} ms {loop / full:>13.2f} {sparse:>8.1f} ms {loop / sparse:>13.2f}")


if __name__ == "__main__":
    main()
