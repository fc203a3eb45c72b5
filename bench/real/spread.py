"""How a trace of one tenant lies over pages, by what heapguard answered it:

    spread.py TRACE ANSWERS [PARTS]

The trace is one of tools/from_mtrace: refill, alloc, free and collect alone, all of worker 0. For each
of so many equal PARTS of the answers (10), and where most pages were in use, a line: the bytes of live
blocks that were asked for, those of their classes, the pages in which a block lives, the pages that
have a class (an idle one keeps it until it is collected), each as bytes; and of all segments that
ever had a block how many.
"""
import importlib.machinery
import os
import re
import sys
import types

sys.dont_write_bytecode = True
PAGE = 4096
TOOLS = f"{os.path.dirname(os.path.realpath(__file__))}/../../tools"


def loaded(name):
    """A tool, whose file has no ending."""
    module = types.ModuleType(name)
    importlib.machinery.SourceFileLoader(name, f"{TOOLS}/{name}").exec_module(module)
    return module


class_bytes = loaded("from_mtrace").class_bytes


class Heap:
    """What lives where: of each page without a cover the pages it lies over and its live blocks."""

    def __init__(self):
        self.blocks, self.pages, self.segments = {}, {}, set()
        self.asked = self.classes = self.used = self.held = 0
        self.refused = 0

    def alloc(self, label, size, place):
        segment, page, _ = place
        over = max(1, class_bytes(size) // PAGE)
        if (segment, page) not in self.pages:
            self.pages[segment, page] = [over, 0]
            self.held += over
        it = self.pages[segment, page]
        self.used += over * (not it[1])
        it[1] += 1
        self.blocks[label] = size, (segment, page)
        self.segments.add(segment)
        self.asked += size
        self.classes += class_bytes(size)

    def free(self, label):
        size, page = self.blocks.pop(label)
        it = self.pages[page]
        it[1] -= 1
        self.used -= it[0] * (not it[1])
        self.asked -= size
        self.classes -= class_bytes(size)

    def collect(self):
        self.held = self.used
        self.pages = {page: it for page, it in self.pages.items() if it[1]}

    def row(self, calls):
        bytes_used = self.used * PAGE
        lost = 100 * (1 - self.asked / bytes_used) if bytes_used else 0
        return (
            f"{calls:>9} {self.asked:>9} {self.classes:>9} {bytes_used:>9} {self.held * PAGE:>9}"
            f" {len(self.segments):>8} {lost:>5.0f} %"
        )


def main():
    trace, answers = (open(path, encoding="ascii").read().splitlines() for path in sys.argv[1:3])
    parts = int(sys.argv[3]) if len(sys.argv) > 3 else 10
    heap, most, rows = Heap(), None, []
    if len(trace) != len(answers):
        sys.exit("spread.py: not as many answers as lines")
    for number, (line, answer) in enumerate(zip(trace, answers), 1):
        words = line.split()
        if words[1] == "alloc":
            found = re.fullmatch(r"ok @(\d+)\.(\d+)\.(\d+)\.\d+", answer)
            if found:
                heap.alloc(words[6], int(words[4]), tuple(map(int, found.groups())))
            else:
                heap.refused += 1
        elif words[1] == "free" and answer == "ok":
            heap.free(words[3])
        elif words[1] == "collect":
            heap.collect()
        if most is None or heap.used > most[0]:
            most = heap.used, heap.row(number)
        if number * parts // len(trace) != (number - 1) * parts // len(trace):
            rows.append(heap.row(number))
    print(f"{'lines':>9} {'asked':>9} {'classes':>9} {'in pages':>9} {'held':>9} segments   lost")
    print("\n".join(rows))
    print("at most\n" + most[1])
    print(f"refused {heap.refused}")


if __name__ == "__main__":
    main()
