"""Medians of microseconds an audit, and a segment of it, by segments and by case.

Each line of the input is `audit CASE SEGMENTS NS DONE`; the cases are named in their order.
"""
import statistics
import sys

times = {}
for line in sys.stdin:
    _, case, segments, nanos, _ = line.split()
    times.setdefault((int(segments), case), []).append(int(nanos) / 1000)

for what, share in (("microseconds an audit", 0), ("microseconds a segment", 1)):
    print(f"\n{what}\n{'segments':10}" + "".join(f"{case:>12}" for case in sys.argv[1:]))
    for segments in sorted({segments for segments, _ in times}):
        found = [statistics.median(times[segments, case]) for case in sys.argv[1:]]
        print(f"{segments:<10}" + "".join(f"{it / segments if share else it:12.1f}" for it in found))
