"""Medians of nanoseconds a call for each kind of call and program, and of ratios within a round.

Each line of the input is a round, a program, a kind of call, how many calls there were, what they
came to, and their nanoseconds. What they came to has to be the same in both programs and all
rounds. The file that is named has the instructions of 100,000 calls, by program and function.
"""
import statistics
import sys

FUNCTIONS = {"pair": "pairs", "churn": "churn", "read": "read_all", "write": "write_all"}

counts = {}
for line in open(sys.argv[1]):
    program, function, instructions = line.split()
    counts[function, program] = int(instructions) / 100_000

times = {}
sums = {}
for line in sys.stdin:
    turn, program, kind, calls, total, nanos = line.split()
    times.setdefault((kind, program), []).append(int(nanos) / max(int(calls), 1))
    sums.setdefault(kind, set()).add((calls, total))

for kind, seen in sums.items():
    if len(seen) != 1:
        sys.exit(f"{kind}: the programs don't agree")

print("call    proved ns  Rust ns  ratio  least   most   instructions: proved   Rust")
for kind, function in FUNCTIONS.items():
    proved, rust = times[kind, "proved"], times[kind, "rust"]
    ratios = [p / r for p, r in zip(proved, rust)]
    print(
        f"{kind:7} {statistics.median(proved):9.1f} {statistics.median(rust):8.1f}"
        f" {statistics.median(ratios):6.2f} {min(ratios):6.2f} {max(ratios):6.2f}"
        f" {counts[function, 'proved']:22.0f} {counts[function, 'rust']:6.0f}"
    )
