"""Medians of what bench/bank/run ran: for each number of cores and each program.

Each line of the input is a program, a number of cores, what the line tells, and two numbers: of a time the
nanoseconds and how many were done, of `live` the blocks and the bytes that were asked for, of `resident`
the bytes before and behind the blocks.
"""
import statistics
import sys

found = {}
for line in sys.stdin:
    name, cores, what, first, second = line.split()
    found.setdefault((int(cores), name), {}).setdefault(what, []).append((float(first), float(second)))


def median(values):
    return statistics.median(values) if values else float("nan")


print(f"{'cores':>6} {'':9}{'blocks':>10}{'asked, MiB':>12}{'grow, us':>10}{'fill':>9}{'replace':>9}"
      f"{'read':>9}{'write':>9}{'resident':>10}")
for (cores, name), told in sorted(found.items()):
    blocks, asked = told["live"][0]
    grow = median([nanos / 1000 for nanos, done in told.get("grow", []) if done])
    held = median([(after - before) / blocks for before, after in told["resident"]])
    times = "".join(f"{median([nanos for nanos, _ in told[what]]):9.1f}"
                    for what in ("fill", "replace", "read", "write"))
    grown = f"{grow:10.1f}" if grow == grow else f"{'-':>10}"
    print(f"{cores:6} {name:9}{int(blocks):10}{asked / 2**20:12.1f}{grown}{times}{held:10.1f}")
print("\nfill, replace, read and write: nanoseconds each; resident: bytes a live block, with what the program notes of it")
