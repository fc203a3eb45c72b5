"""Medians of nanoseconds an operation for each case and program, of the instructions of one, and of
ratios within a round beside the goals. Of `mem` the figure is resident bytes a live block.

Each line of the input is a round and what a program printed: its name, the case, the threads, the
nanoseconds an operation and how many were done. A case in more threads than one stands under its
name with their number, as scale2. The first file that is named has a goal a line: a case and its
program, the case and the program that it is divided by, <= or >=, what is wanted and what is aimed
at. The second has the instructions of two runs of a case and how many operations each did.
"""
import statistics
import sys

goals = [line.split() for line in open(sys.argv[1]) if line.strip() and line[0] != "#"]

counts = {}
for line in open(sys.argv[2]):
    name, case, few, few_done, many, many_done = line.split()
    if int(many_done) > int(few_done):
        counts[case, name] = (int(many) - int(few)) / (int(many_done) - int(few_done))

times = {}
names, cases = [], []
for line in sys.stdin:
    turn, name, case, threads, nanos, done = line.split()
    if case.startswith("scale"):
        case += threads
    times.setdefault((case, name), {})[turn] = float(nanos)
    if name not in names:
        names.append(name)
    if case not in cases:
        cases.append(case)


def ratios(case, name, peer_case, peer):
    """The ratios within a round of one case of a program to one of another."""
    own, other = times[case, name], times[peer_case, peer]
    return [own[turn] / other[turn] for turn in own if turn in other and other[turn] > 0]


def cell(value):
    return f"{value:13.1f}" if value is not None else f"{'-':>13}"


print("\nnanoseconds an operation" + (" (mem: bytes a block)" if "mem" in cases else ""))
print(f"{'case':10}" + "".join(f"{name:>13}" for name in names))
for case in cases:
    values = [times.get((case, name)) for name in names]
    print(f"{case:10}" + "".join(
        cell(statistics.median(value.values()) if value else None) for value in values
    ))

print("\ninstructions an operation")
for case in cases:
    if any((case, name) in counts for name in names):
        print(f"{case:10}" + "".join(cell(counts.get((case, name))) for name in names))

print("\ncase      beside              ratio   least    most    must         aim")
for case, name, peer_case, peer, sign, must, *aim in goals:
    if (case, name) in times and (peer_case, peer) in times:
        found = ratios(case, name, peer_case, peer)
        beside = peer if peer_case == case else f"{peer} {peer_case}"
        print(f"{case:10}{beside:16}{statistics.median(found):9.2f}"
              f"{min(found):8.2f}{max(found):8.2f}   {sign} {must:>6}   {' '.join(aim):>6}")
