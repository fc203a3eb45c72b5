"""Medians of nanoseconds a call, less what the clock took, for each kind of call and program."""
import statistics
import sys

rounds = {}
for line in sys.stdin:
    program, kind, calls, nanos = line.split()
    rounds.setdefault((kind, program), []).append((int(calls), int(nanos)))

def per_call(kind, program):
    # places are put back with a question of each whether it is used, which is timed by itself too
    less = "ask" if kind == "put" else "clock"
    times = []
    for (calls, nanos), (_, less_nanos) in zip(rounds[kind, program], rounds[less, program]):
        # a pair by turns is two calls
        times.append((nanos - less_nanos) / (calls * (2 if kind == "turns" else 1)))
    return statistics.median(times)

print("call         proved ns   Rust ns   ratio   mimalloc's lists ns   ratio")
for kind, name in [("take", "pop"), ("put", "push_local"), ("turns", "by turns")]:
    proved, rust, lists = (per_call(kind, program) for program in ("proved", "rust", "mimalloc"))
    print(f"{name:12} {proved:9.2f} {rust:9.2f} {proved / rust:7.2f} {lists:21.2f} {proved / lists:7.2f}")
