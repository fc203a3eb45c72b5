"""Medians of what bench/threads/run ran: for each program, threads, and hundredths that are handed on.

Each line of the input is a program, a number of threads, the hundredths, nanoseconds, and steps.
"""
import statistics
import sys

rates = {}
for line in sys.stdin:
    name, threads, sent, nanos, steps = line.split()
    rates.setdefault((name, int(sent)), {}).setdefault(int(threads), []).append(1000 * int(steps) / int(nanos))

print(f"{'':10}{'handed on':>10}{'steps/us, 1':>13}{'2':>9}{'4':>9}{'2 to 1':>9}{'4 to 1':>9}")
for (name, sent), told in sorted(rates.items(), key=lambda it: (it[0][1], it[0][0])):
    medians = "".join(f"{statistics.median(told[n]):{13 if n == 1 else 9}.2f}" for n in (1, 2, 4))
    ratios = "".join(f"{statistics.median(b / a for a, b in zip(told[1], told[n])):9.2f}" for n in (2, 4))
    print(f"{name:10}{sent:9}%{medians}{ratios}")
