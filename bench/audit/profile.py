"""By function what a run of callgrind took above another one, over as many segments: profile.py
SEGMENTS FEW MANY, each as callgrind_annotate prints it."""
import re
import sys


def read(path):
    """The instructions of each function, and of all."""
    found = {}
    for line in open(path):
        told = re.match(r"\s*([\d,]+)\s+(?:\([\d.]+%\)\s+)?(\S.*)", line)
        if told and (":" in told[2] or told[2].startswith("PROGRAM")):
            name = re.sub(r"^.*?:", "", told[2]).split(" [")[0]
            found[name] = found.get(name, 0) + int(told[1].replace(",", ""))
    return found


few, many = read(sys.argv[2]), read(sys.argv[3])
more = {name: (count - few.get(name, 0)) / int(sys.argv[1]) for name, count in many.items()}
for name, count in sorted(more.items(), key=lambda it: -it[1]):
    if count >= 100:
        print(f"{count:12.0f}  {name}")
