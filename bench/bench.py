#!/usr/bin/env python3
"""Measures the program: bench/bench.py [MEGABYTES]

Feeds the built program a full hour, a large input (a thousand megabytes, or as many as are given) and a line without an end,
and tells for each the throughput and the most memory that the process had. It is no part of the gate.
"""
import fcntl
import os
import subprocess
import sys
import termios
import time

TOP = os.path.dirname(os.path.dirname(os.path.abspath(__file__)))
PROGRAM = os.path.join(TOP, "crates", "hourbook", "out", "hourbook")
MEGABYTE = 1_000_000


def block(names, rows):
    lines = [names] + [" ".join(str(value) for value in row) for row in rows]
    return "\n".join(lines) + "\n\n"


def entries():
    areas = [(area, "C" if area == 1 else "W") for area in range(1, 17)]
    parties = [(party, party if 1 < party <= 16 else 1) for party in range(1, 65)]
    owners = [party for party, area in parties if area == 1]
    resources = [(resource, owners[resource % len(owners)], "PSD"[resource % 3], resource % 2, 0) for resource in range(1, 129)]
    return block("area kind", areas) + block("party area", parties) + block("resource owner kind net exempt", resources)


def posts():
    """Every record of every row, so that a settle has all its work."""
    places = [(resource, interval) for resource in range(1, 129) for interval in range(1, 13)]
    energy = [(r, i, 4_000_000 + r * i, 3_000_000, 5_000_000, 6_000_000, 9_000 + r, 800 - i, 70, 60, 50, 40, 1, "TEST") for r, i in places]
    tags = [(r, i, 9_000 + 7 * i, 100 + r * i % 13, 0) for r, i in places if r % 3]
    elections = [(area, 1, 100_000_000, 900, 0) for area in range(1, 17)]
    tests = [(area, quarter, 2_400 + area, 1_200, 0) for area in range(1, 17) for quarter in range(1, 5)]
    transfers = [(area, i, 500 + i, 100, 90 + area, 10) for area in range(1, 17) for i in range(1, 13)]
    payers = [party for party in range(1, 65) if not 1 < party <= 16]
    demand = [(party, i, 1_000 + party * i) for party in payers for i in range(1, 13)]
    given = [(party, i, code, 100 * party + i) for party in payers for i in range(1, 13) for code in (6470, 6474, 6475)]
    return (
        block("energy interval lmp mss resprice edprice iie oa mssiie res above edqty resflag ed", energy)
        + block("tag interval kw telemetry curtailed", tags)
        + block("election in cap up nopay", elections)
        + block("test quarter capacity ramp nopay", tests)
        + block("transfer interval to baseto from basefrom", transfers)
        + block("demand interval units", demand)
        + block("given interval code cents", given)
    )


def told(process, field):
    """What the system tells of a process under a field."""
    with open(f"/proc/{process.pid}/status") as status:
        return next(line.split()[1] for line in status if line.startswith(field))


def most_memory(process):
    """The most memory that the process has had, in kilobytes, once it has read all that was written and waits for more."""
    while fcntl.ioctl(process.stdin, termios.FIONREAD, bytes(4)) != bytes(4) or told(process, "State") != "S":
        time.sleep(0.0005)
    return int(told(process, "VmHWM"))


def measure(name, pieces):
    """Runs the program on the pieces, which are ready before, and prints what it took."""
    start = time.perf_counter()
    with subprocess.Popen([PROGRAM], stdin=subprocess.PIPE, stdout=subprocess.DEVNULL, bufsize=0) as process:
        for piece in pieces:
            process.stdin.write(piece)
        memory = most_memory(process)
        process.stdin.close()
        _, status, usage = os.wait4(process.pid, 0)
        process.returncode = status
    seconds = time.perf_counter() - start
    size = sum(map(len, pieces)) / MEGABYTE
    print(
        f"{name}: {size:.1f} MB in {seconds:.3f} s, {size / seconds:.0f} MB/s;"
        f" processor {usage.ru_utime + usage.ru_stime:.3f} s; at most {memory} kB of memory; status {status}"
    )


def main():
    megabytes = int(sys.argv[1]) if len(sys.argv) > 1 else 1_000
    subprocess.run([os.path.join(TOP, "hourbook")], stdin=subprocess.DEVNULL, stdout=subprocess.DEVNULL, check=True)
    entered, posted = entries().encode(), posts().encode()
    settled = b"settle\nL\nR\n\n"
    measure("a full hour, settled twice", [entered, posted, settled])
    times = max(1, megabytes * MEGABYTE // len(posted))
    measure(f"its records posted {times} times, settled once", [entered] + [posted] * times + [settled])
    measure("a line without an end", [b"1" * MEGABYTE] * megabytes)
    measure("lines that are refused", [entered + b"party area\n"] + [b"1 1\n" * (MEGABYTE // 4)] * (megabytes // 10))
    measure("an empty input", [])


if __name__ == "__main__":
    main()
