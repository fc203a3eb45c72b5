"""A plain machine that says beforehand what heapguard answers, and events that are drawn from seeds: of both
tools/core_cases makes traces of the program, and tools/served_cases the events of a service.

The machine is written by docs/MODEL.md: the rules by which an event is denied or refused, what it changes,
and the order of choice. It keeps how often each place was given out, the blocks, the class and the lists of
each page, the queues, the delayed lists, who holds which segment, and what is in each hand; a charge is
counted anew. So an answer can be compared whole: of an allocation the very place and generation.

Four workers have events for three tenants and a stranger, under policies with groups and with lines that
deny, by which a place has few lives, many or one. They come by stretches, each with a liking of its own for
commands and sizes, so that lists grow long and queues too.
"""

import collections

# The words of a block, by class.
CLASSES = (
    1, 2, 3, 4, 5, 6, 7, 8, 10, 12, 14, 16, 20, 24, 28, 32, 40, 48, 56, 64, 80, 96, 112, 128, 160, 192, 224,
    256, 320, 384, 448, 512, 1024, 2048, 4096, 8192)
PAGES, PAGE_WORDS, SEGMENT_WORDS = range(16), 512, 8192
LARGEST = 2**32 - 1
VALUES = 2**64

RIGHTS = "read", "write", "list", "free"
STRANGER, NOWHERE = "eve", "attic"


def words_for(count):
    """The words of a block for so many bytes, or none where no class holds them."""
    return next((it for it in CLASSES if 8 * it >= count), None)


# The words of a block, by how many words are asked for.
WORDS_FOR = [words_for(8 * it) for it in range(SEGMENT_WORDS + 1)]


def places_of(words):
    """How many blocks of so many words begin in a page."""
    return max(PAGE_WORDS // words, 1)


def pages_of(words):
    """Over how many pages a block of so many words lies."""
    return -(-words // PAGE_WORDS)


def handle_text(place, generation):
    """A handle."""
    return "@%d.%d.%d.%d" % (*place, generation)


class Policy:
    """A policy: tenants with their limits, arenas with their segments and those whom they admit, groups, and
    lines that grant or deny. Owner and actor of a line are tenants or groups."""

    def __init__(self, most, tenants, arenas, groups, grants, denies):
        self.most, self.limits, self.arenas, self.groups = most, tenants, arenas, groups
        self.grants, self.denies = grants, denies
        self.workers = range(4)
        self.arena_of = [name for name, (count, _) in arenas.items() for _ in range(count)]
        self.segments = range(len(self.arena_of))
        self.granted, self.denied = self.rights(grants), self.rights(denies)

    def meant(self, name):
        """The tenants for whom a name stands."""
        return self.groups.get(name, (name,))

    def rights(self, lines):
        """Owner, actor and right of each of these lines, of an actor and another's blocks."""
        return {
            (owner, actor, right) for of, to, rights in lines for right in rights.split()
            for owner in self.meant(of) for actor in self.meant(to) if owner != actor}

    def admits(self, arena, actor):
        """Whether an arena admits a tenant."""
        if arena not in self.arenas:
            return False
        names = self.arenas[arena][1]
        return names is None or any(actor in self.meant(it) for it in names)

    def denial(self, owner, actor, right, arena):
        """The rule that denies a tenant a right on a live block, if one does."""
        if not self.admits(arena, actor):
            return "arena"
        if (owner, actor, right) in self.denied:
            return "forbidden"
        return None if owner == actor or (owner, actor, right) in self.granted else "grant"

    def may_read(self, owner, actor, arena):
        """Whether an actor may read an owner's blocks in an arena."""
        return actor in self.limits and self.denial(owner, actor, "read", arena) is None

    def document(self):
        """It as a document."""
        def listed(names):
            return "[" + ", ".join(f'"{it}"' for it in names) + "]"

        def lines(kind, rows):
            return "".join(
                f'[[{kind}]]\nowner = "{owner}"\nto = "{to}"\nrights = {listed(rights.split())}\n'
                for owner, to, rights in rows)

        most = "" if self.most == LARGEST else f"max_generation = {self.most}\n"
        return (
            f"version = 2\nworkers = {len(self.workers)}\n{most}"
            + "".join(f'[[tenant]]\nname = "{it}"\nlimit = {limit}\n' for it, limit in self.limits.items())
            + "".join(
                f'[[arena]]\nname = "{it}"\nsegments = {count}\n'
                + ("" if names is None else f"exclusive = {listed(names)}\n")
                for it, (count, names) in self.arenas.items())
            + "".join(f'[[group]]\nname = "{it}"\nmembers = {listed(names)}\n' for it, names in self.groups.items())
            + lines("grant", self.grants) + lines("deny", self.denies))


class Block:
    """A block: whose it is, whether it is parted, and its words that aren't 0."""

    def __init__(self, owner):
        self.owner, self.is_parted, self.words = owner, False, {}


class Page:
    """A page that has a class: the words of a block, its lists of places by index, the front first, its
    blocks, live or parted, and how many of them each tenant has."""

    def __init__(self, words, free):
        self.words, self.free = words, collections.deque(free)
        self.local_free, self.thread_free = collections.deque(), collections.deque()
        self.blocks, self.owned = {}, collections.Counter()

    def has_place(self):
        """Whether it has a place to give out."""
        return bool(self.free or self.local_free)

    def open(self, index, owner):
        """A place has a new block."""
        self.blocks[index] = Block(owner)
        self.owned[owner] += 1

    def close(self, index):
        """It has none any more."""
        self.owned[self.blocks.pop(index).owner] -= 1


class Machine:
    """The machine, with its choices. A place is a segment, a page and an index, a page's name the first two."""

    def __init__(self, policy):
        self.policy = policy
        # How often each place was given out, and the pages that have a class.
        self.given, self.pages = collections.Counter(), {}
        # The places that were sent to a segment and stand on its delayed list.
        self.delayed = {it: collections.deque() for it in policy.segments}
        # Who holds a segment; those that were given up, oldest first; those that nobody held yet.
        self.holders, self.orphans, self.fresh = {}, [], list(policy.segments)
        # What is in hand, and by worker, arena and class the pages of a queue.
        self.hands, self.queues = {}, collections.defaultdict(collections.deque)
        # What came about; of the last event on a block whose it was and where; and why the last one was denied
        # that was stale or above a limit.
        self.found, self.reached, self.reason = set(), None, ""

    # What is asked.

    def block_at(self, place):
        """The block at a place, live or parted, if there is one."""
        page = self.pages.get(place[:2])
        return page and page.blocks.get(place[2])

    def arena_of(self, segment):
        """The arena of a segment, if there is one."""
        return self.policy.arena_of[segment] if segment in self.policy.segments else None

    def is_worn(self, place):
        """Whether a place that is home is given out no more."""
        return self.given[place] == self.policy.most

    def held(self, worker, arena=None):
        """The segments that a worker holds, of an arena or of all, rising."""
        return [
            it for it in self.policy.segments
            if self.holders.get(it) == worker and arena in (None, self.policy.arena_of[it])]

    def pages_in(self, segment):
        """The pages of a segment that have a class, by name, rising."""
        return [(segment, it) for it in PAGES if (segment, it) in self.pages]

    def charge(self, worker, tenant):
        """The bytes of a tenant's blocks in the segments that a worker holds."""
        pages = (self.pages[it] for segment in self.held(worker) for it in self.pages_in(segment))
        return sum(8 * it.words * it.owned[tenant] for it in pages)

    def lying_over(self, segment):
        """By page of a segment the page whose block lies over it, if one does: itself, or an earlier one."""
        over = [None] * len(PAGES)
        for _, page in self.pages_in(segment):
            for at in range(page, page + pages_of(self.pages[segment, page].words)):
                over[at] = page
        return over

    def is_blank(self, segment):
        """Whether some page of a segment is without a class."""
        return None in self.lying_over(segment)

    @staticmethod
    def may_begin(over, page, words):
        """Whether a block of so many words may begin in a page without a class: it, and the pages behind it
        over which the block lies, have none."""
        lies = over[page:page + pages_of(words)]
        return len(lies) == pages_of(words) and not any(it is not None for it in lies)

    def usable(self, segment, page, words):
        """The places that blocks of so many words may have in a page that may get the class, rising."""
        places = ((segment, page, it) for it in range(places_of(words)))
        return [it[2] for it in places if not self.is_worn(it)]

    def blank_page(self, worker, arena, words):
        """The first page that may get the class of such a block and has a place for it."""
        for segment in self.held(worker, arena):
            over = self.lying_over(segment)
            for page in PAGES:
                if self.may_begin(over, page, words) and self.usable(segment, page, words):
                    return segment, page
        return None

    def queue_of(self, name):
        """The queue of a page's key."""
        segment, _ = name
        return self.queues[self.holders[segment], self.policy.arena_of[segment], self.pages[name].words]

    def denial(self, actor, right, place, generation):
        """The answer by the first rule that denies it, if one does."""
        block, arena = self.block_at(place), self.arena_of(place[0])
        self.reached = block and (block.owner, arena)
        if actor not in self.policy.limits:
            return "denied stranger"
        if arena is None or self.given[place] != generation:
            self.note_stale(right, place)
            return "denied stale"
        if block is None or block.is_parted:
            return "denied freed"
        rule = self.policy.denial(block.owner, actor, right, arena)
        return rule and f"denied {rule}"

    # What is changed.

    def requeue(self, name):
        """A page stands in its queue where it has a place to give out: where it had none, in front."""
        queue = self.queue_of(name)
        if not self.pages[name].has_place():
            if name in queue:
                queue.remove(name)
        elif name not in queue:
            if queue:
                self.found.add("a page goes in front of others")
            queue.appendleft(name)

    def come_home(self, place):
        """A place comes home, in front of its page's local-free list, or on no list where it is worn."""
        page = self.pages[place[:2]]
        page.close(place[2])
        if not self.is_worn(place):
            page.local_free.appendleft(place[2])
        self.requeue(place[:2])

    def drained(self, segment):
        """The places that were sent to a segment, in the order in which they come home: for each on the
        delayed list those of its page's thread-free list, and then that place."""
        for place in self.delayed[segment]:
            yield from ((*place[:2], it) for it in self.pages[place[:2]].thread_free)
            yield place

    # The events. Each gives its answer.

    def alloc(self, worker, actor, arena, count):
        if actor not in self.policy.limits:
            return "denied stranger"
        if not self.policy.admits(arena, actor):
            return "denied arena"
        if count > 8 * SEGMENT_WORDS:
            return "large"
        words = WORDS_FOR[-(-count // 8)]
        charge, limit = self.charge(worker, actor), self.policy.limits[actor]
        if charge + 8 * words > limit:
            self.reason = (f"{actor} has {charge} of {limit} bytes with worker {worker}, and asks for {count},"
                           f" a block of {8 * words}")
            return "denied limit"
        queue = self.queues[worker, arena, words]
        name = queue[0] if queue else self.blank_page(worker, arena, words)
        if name is None:
            self.note_no_room(worker, arena, words)
            return "noroom"
        self.note_alloc(worker, name, arena, words)
        return self.give_out(actor, name, words)

    def give_out(self, actor, name, words):
        """Gives out a place of a page, which gets the class where it has none."""
        if name not in self.pages:
            self.pages[name] = Page(words, self.usable(*name, words))
        page = self.pages[name]
        if not page.free:
            if len(page.local_free) > 1:
                self.found.add("several places freed by the holder become free")
            page.free, page.local_free = page.local_free, page.free
        place = (*name, page.free.popleft())
        page.open(place[2], actor)
        self.requeue(name)
        self.given[place] += 1
        if self.given[place] > 1:
            self.found.add("a place is given out again")
        return "ok " + handle_text(place, self.given[place])

    def free(self, worker, actor, handle):
        place, generation = handle
        denied = self.denial(actor, "free", place, generation)
        if denied:
            return denied
        if self.holders.get(place[0]) == worker:
            self.come_home(place)
            return "ok"
        if worker in self.hands:
            return "busy"
        self.block_at(place).is_parted = True
        self.hands[worker] = place
        if place[0] in self.orphans:
            self.found.add("a block is parted whose segment nobody holds")
        return "parted"

    def deliver(self, worker):
        if worker not in self.hands:
            return "empty"
        place = self.hands.pop(worker)
        delayed = self.delayed[place[0]]
        if place[0] in self.orphans:
            self.found.add("something is sent to a segment that nobody holds")
        if any(it[:2] == place[:2] for it in delayed):
            self.found.add("a page's second place is sent")
            self.pages[place[:2]].thread_free.appendleft(place[2])
        else:
            delayed.appendleft(place)
        return "ok"

    def take(self, worker, segment):
        if self.holders.get(segment) != worker:
            return "notheld"
        places = list(self.drained(segment))
        self.note_take(segment, places)
        for place in places:
            self.pages[place[:2]].thread_free.clear()
            self.come_home(place)
        self.delayed[segment].clear()
        return f"taken {len(places)}"

    def collect(self, worker):
        idle = [it for segment in self.held(worker) for it in self.pages_in(segment) if not self.pages[it].blocks]
        for name in idle:
            queue = self.queue_of(name)
            if name in queue:
                if queue[0] != name:
                    self.found.add("a page leaves a queue from behind others")
                queue.remove(name)
            self.found.add("a page loses its class")
            if self.pages.pop(name).words > PAGE_WORDS:
                self.found.add("a page of a block of several pages loses its class")
        return f"pages {len(idle)}"

    def read(self, worker, actor, handle, index):
        place, generation = handle
        refused = self.out_of_reach(worker, self.denial(actor, "read", place, generation), place, index)
        return refused or f"word {self.block_at(place).words.get(index, 0)}"

    def write(self, worker, actor, handle, index, value):
        place, generation = handle
        refused = self.out_of_reach(worker, self.denial(actor, "write", place, generation), place, index)
        if refused:
            return refused
        self.block_at(place).words[index] = value
        return "ok"

    def out_of_reach(self, worker, denied, place, index):
        """Why a word of a block isn't reached, if it isn't."""
        if denied:
            return denied
        if self.holders.get(place[0]) != worker:
            return "elsewhere"
        return "range" if index >= self.pages[place[:2]].words else None

    def look(self, worker, actor, place):
        denied = self.denial(actor, "list", place, max(self.given[place], 1))
        if denied or self.holders.get(place[0]) != worker:
            return denied or "elsewhere"
        return self.row(place)

    def row(self, place):
        """What is told of a block."""
        block, size = self.block_at(place), 8 * self.pages[place[:2]].words
        return f"{handle_text(place, self.given[place]):21} {block.owner:16} {size:5}"

    def list(self, worker, actor):
        rows = [
            self.row((*name, index)) for segment in self.held(worker) for name in self.pages_in(segment)
            for index, block in sorted(self.pages[name].blocks.items())
            if actor in self.policy.limits and not block.is_parted
            and self.policy.denial(block.owner, actor, "list", self.policy.arena_of[segment]) is None]
        return "\n".join([*rows, f"rows {len(rows)}"])

    def abandon(self, worker, segment):
        if self.holders.get(segment) != worker:
            return "notheld"
        for name in self.pages_in(segment):
            queue = self.queue_of(name)
            if name in queue:
                queue.remove(name)
        del self.holders[segment]
        self.orphans.append(segment)
        return "ok"

    def refill(self, worker, arena):
        segment = next((it for it in self.orphans + self.fresh if self.policy.arena_of[it] == arena), None)
        if segment is None:
            return "nosegment"
        self.note_refill(segment)
        (self.orphans if segment in self.orphans else self.fresh).remove(segment)
        self.holders[segment] = worker
        for name in self.pages_in(segment):
            if self.pages[name].has_place():
                if self.queue_of(name):
                    self.found.add("a page that comes goes in front of others")
                self.queue_of(name).appendleft(name)
        return f"segment {segment}"

    # What came about.

    def note_stale(self, right, place):
        """A handle is stale."""
        seen = self.given[place]
        self.found.add(f"{right} stale, " + ("given out" if seen else "never given out"))
        self.reason = f"the place is in generation {seen}" if seen else "no block was given out there"
        if place[0] not in self.policy.segments:
            self.reason = f"segment {place[0]} isn't in the policy"

    def note_no_room(self, worker, arena, words):
        """There is no room for a block."""
        if words > PAGE_WORDS and any(self.is_blank(it) for it in self.held(worker, arena)):
            self.found.add("no room for a block of several pages beside pages without a class")

    def note_alloc(self, worker, name, arena, words):
        """A block is about to be given out of a page."""
        segment, page = name
        pages = [it for other in self.held(worker, arena) for it in self.pages_in(other)]
        if any(self.pages[it].words == words and len(self.pages[it].blocks) == places_of(words) for it in pages):
            self.found.add("a block is given out beside a full page of its class")
        if len(self.queues[worker, arena, words]) > 2:
            self.found.add("a block is given out of a queue of three pages")
        if self.policy.most < LARGEST and name in self.pages and any(
                it not in self.pages[name].blocks and self.is_worn((*name, it)) for it in range(places_of(words))):
            self.found.add("a block is given out of a page with a worn place")
        if name not in self.pages and words > PAGE_WORDS:
            self.found.add("a block of several pages is given out")
            over = self.lying_over(segment)
            for earlier in range(page):
                self.found.add("one behind " + self.kind_of(segment, over, earlier, words))

    def kind_of(self, segment, over, page, words):
        """What a page is to a block of several pages that begins behind it."""
        if over[page] is None:
            return "a worn place" if self.may_begin(over, page, words) else "pages that are too few"
        if over[page] < page:
            return "a page that a block lies over"
        return "a page of its like" if self.pages[segment, page].words > PAGE_WORDS else "a page with a class"

    def note_take(self, segment, places):
        """These places are about to come home."""
        if places:
            self.found.add("something is taken")
            if any(it[0] == segment for it in self.hands.values()):
                self.found.add("a place stays in a hand while others are taken")
        if len(self.delayed[segment]) > 1:
            self.found.add("places of several pages are taken")
        if any(len(self.pages[it[:2]].thread_free) > 1 for it in self.delayed[segment]):
            self.found.add("three places of a page are taken")

    def note_refill(self, segment):
        """A segment is about to be taken."""
        if segment in self.fresh:
            self.found.add("a fresh segment is taken")
            return
        self.found.add("an orphan is taken")
        if self.orphans[0] != segment:
            self.found.add("an orphan is taken from behind others")
        blocks = [it for name in self.pages_in(segment) for it in self.pages[name].blocks.values()]
        if any(not it.is_parted for it in blocks):
            self.found.add("an orphan with live blocks is taken")
        if self.delayed[segment]:
            self.found.add("an orphan to which places were sent is taken")


def line_of(worker, command, *words):
    """An event as a line: a handle has a place and a generation, a place three numbers."""
    parts = [f"w{worker}", command]
    for it in words:
        if isinstance(it, tuple):
            it = "%d.%d.%d" % it if len(it) == 3 else handle_text(*it)
        parts.append(str(it))
    return " ".join(parts)


class Numbers:
    """Numbers from a seed."""

    def __init__(self, seed):
        self.random = seed

    def next(self):
        """A number of 32 bits."""
        self.random = (self.random * 6364136223846793005 + 1442695040888963407) % 2**64
        return self.random >> 32

    def below(self, bound):
        """A number below a bound."""
        return self.next() % bound

    def one_of(self, things):
        """One of these."""
        return things[self.next() % len(things)]


# The answers whose reasons are compared.
REASONED = "denied stale", "denied limit"

# How often a command is drawn, by what a stretch likes.
LIKINGS = [
    {"alloc": 20, "free": 16, "deliver": 6, "take": 4, "collect": 1, "read": 3, "write": 6, "look": 4,
     "list": 1, "abandon": 1, "refill": 2},
    {"alloc": 40, "free": 6, "deliver": 2, "take": 1, "read": 1, "write": 8, "look": 1, "refill": 2},
    {"alloc": 6, "free": 40, "deliver": 6, "take": 3, "collect": 1, "read": 1, "write": 8, "look": 2, "abandon": 1},
    {"alloc": 24, "free": 4, "send": 24, "deliver": 2, "take": 1, "write": 2, "refill": 1},
    {"alloc": 16, "free": 16, "deliver": 8, "take": 8, "collect": 4, "write": 4, "abandon": 4, "refill": 8},
    {"alloc": 8, "free": 4, "read": 12, "write": 24, "look": 12, "list": 1, "refill": 2},
]
LIKINGS = [[it for it, times in liking.items() for _ in range(times)] for liking in LIKINGS]

# The bytes that are asked for: those of each class, and few that no class holds.
BYTES = 0, *(8 * it for it in CLASSES), 1, 100, 4097, 20000, 65537, 1000000, VALUES - 1
SOON_FULL = [8 * it for it in CLASSES if 48 <= it <= PAGE_WORDS]
SEVERAL_PAGES = 8192, 8192, 16384, 32768


class Drawn:
    """Events from a seed, with the machine's answers to them."""

    def __init__(self, policy, seed):
        self.policy, self.machine, self.numbers = policy, Machine(policy), Numbers(seed)
        self.below, self.one_of = self.numbers.below, self.numbers.one_of
        # The events, their lines and their answers, some with reasons; and by number of an event on a word the
        # owner and the arena of its block.
        self.events, self.lines, self.answers, self.reasons, self.reached = [], [], [], [], {}
        self.handles, self.sizes, self.favourite, self.likings = [], BYTES, 0, LIKINGS

    def serve(self, worker, command, *words):
        """The machine's answer to an event."""
        answer = getattr(self.machine, command)(worker, *words)
        if command in ("read", "write") and self.machine.reached:
            self.reached[len(self.events)] = self.machine.reached
        if answer in REASONED:
            self.reasons.append(f"{answer}: {self.machine.reason}")
        self.note(answer, worker, command, *words)
        if answer.startswith("ok @"):
            place = tuple(int(it) for it in answer[len("ok @"):].split("."))
            self.handles.append((place[:3], place[3]))
        return answer

    def note(self, answer, worker, command, *words):
        """An event is answered so."""
        self.events.append((worker, command, *words))
        self.lines.append(line_of(worker, command, *words))
        self.answers.append(answer)

    # What is drawn.

    def worker(self):
        return self.one_of(self.policy.workers)

    def worker_at(self, segment):
        """A worker, mostly the one that holds the segment."""
        holder = self.machine.holders.get(segment)
        return holder if holder is not None and self.below(4) else self.worker()

    def actor(self):
        """A tenant, or now and then a stranger."""
        return self.one_of(list(self.policy.limits)) if self.below(16) else STRANGER

    def actor_at(self, place):
        """An actor, by half the owner of the block at a place."""
        block = self.machine.block_at(place)
        return block.owner if block and self.below(2) else self.actor()

    def segment(self):
        """A segment, often the favourite, now and then one that the policy lacks."""
        if self.below(3) == 0:
            return self.favourite
        return self.one_of(self.policy.segments) if self.below(32) else self.one_of((len(self.policy.segments), 63))

    def arena(self):
        """The arena of a segment."""
        return self.machine.arena_of(self.segment()) or NOWHERE

    def handle(self):
        """A handle that was given out, or now and then any. One whose block is gone mostly isn't drawn again."""
        if not self.handles or not self.below(32):
            segment = self.below(64) if self.below(4) == 0 else self.segment()
            return (segment, self.below(16), self.below(512)), 1 + self.below(3)
        at = self.below(len(self.handles))
        if self.handles[at][0][0] != self.favourite:
            at = self.below(len(self.handles))
        place, generation = self.handles[at]
        if not self.below(32):
            return place, generation + 1
        block = self.machine.block_at(place)
        is_out = block and not block.is_parted and self.machine.given[place] == generation
        if not is_out and self.below(4):
            self.handles[at] = self.handles[-1]
            self.handles.pop()
        return place, generation

    def index(self, place):
        """An index of a word, mostly in the block: its first, its last, one between, the one behind."""
        page = self.machine.pages.get(place[:2])
        if page is None or not self.below(32):
            return 2**32 - 1
        return self.one_of((0, page.words - 1, self.below(page.words), page.words))

    def alloc(self):
        segment, actor = self.segment(), self.actor()
        worker, arena = self.worker_at(segment), self.machine.arena_of(segment) or NOWHERE
        return worker, "alloc", actor, arena, self.one_of(self.sizes) if self.below(12) else self.rest(worker, actor)

    def rest(self, worker, actor):
        """The bytes of the largest block that an actor's limit leaves it, or one more."""
        left = self.policy.limits.get(actor, 0) - self.machine.charge(worker, actor)
        return 8 * max((it for it in CLASSES if 8 * it <= left), default=1) + self.below(2)

    def free(self):
        handle = self.handle()
        segment = handle[0][0]
        worker = self.worker_at(segment) if self.below(2) else self.worker()
        return worker, "free", self.actor_at(handle[0]), handle

    def send(self):
        """A block is freed for its owner by a worker that mostly doesn't hold it, and delivered."""
        handle, worker = self.handle(), self.worker()
        block = self.machine.block_at(handle[0])
        self.serve(worker, "free", block.owner if block else self.actor(), handle)
        return worker, "deliver"

    def deliver(self):
        return self.worker(), "deliver"

    def take(self):
        segment = self.segment()
        return self.worker_at(segment), "take", segment

    def collect(self):
        return self.worker(), "collect"

    def read(self):
        handle = self.handle()
        place = handle[0]
        return self.worker_at(place[0]), "read", self.actor_at(place), handle, self.index(place)

    def write(self):
        handle = self.handle()
        place, value = handle[0], self.numbers.next() << 32 | self.numbers.next()
        return self.worker_at(place[0]), "write", self.actor_at(place), handle, self.index(place), value

    def look(self):
        place, _ = self.handle()
        return self.worker_at(place[0]), "look", self.actor_at(place), place

    def list(self):
        return self.worker(), "list", self.actor()

    def abandon(self):
        segment = self.segment()
        return self.worker_at(segment), "abandon", segment

    def refill(self):
        return self.worker(), "refill", self.arena()

    # Many events.

    def some_sizes(self, number):
        """By turns all sizes, few of them such that pages are soon full, and few with blocks of several pages."""
        if number % 3 == 0:
            return BYTES
        few = [self.one_of(SOON_FULL) for _ in range(1 + self.below(3))]
        return few if number % 3 == 1 else [*few, *SEVERAL_PAGES]

    def stretch(self, count):
        """So many events by one liking, often on one segment."""
        liking, self.favourite = self.one_of(self.likings), self.one_of(self.policy.segments)
        for _ in range(count):
            event = getattr(self, self.one_of(liking))()
            if self.serve(*event) == "ok" and event[1] == "write":
                self.read_back(*event)

    def read_back(self, worker, _, actor, handle, index, __):
        """A word that was written is read by its owner, by who wrote it, and by another; some such blocks are
        freed then."""
        owner, _ = self.machine.reached
        for reader in (owner, actor, self.actor()):
            self.serve(worker, "read", reader, handle, index)
        if not self.below(3):
            self.serve(worker, "free", owner, handle)

    def many(self, count):
        """So many events, by stretches of 150, of which four have the same sizes."""
        for number in range(count // 150):
            if number % 4 == 0:
                self.sizes = self.some_sizes(number // 4)
            self.stretch(150)

    def fill(self):
        """Each worker asks for more blocks of one word than a page has."""
        for worker in self.policy.workers:
            for _ in range(PAGE_WORDS + 10):
                self.serve(worker, "alloc", next(iter(self.policy.limits)), "main", 8)

    def visit_all(self):
        """Each worker lists for some actor. Each place that was given out is looked at for who has it, and all
        words of the blocks are read."""
        for worker in self.policy.workers:
            self.serve(worker, "list", self.one_of(list(self.policy.limits)))
        for place in sorted(self.machine.given):
            self.visit(place)

    def visit(self, place):
        """A place is looked at by some worker, and the words of its block are read, and what is behind them."""
        block, worker = self.machine.block_at(place), self.machine.holders.get(place[0], 0)
        owner = block.owner if block else self.actor()
        self.serve(worker if self.below(8) else self.worker(), "look", owner, place)
        if block:
            for index in range(self.machine.pages[place[:2]].words + 1):
                self.serve(worker, "read", owner, (place, self.machine.given[place]), index)


GROUPS = {"staff": ("alice", "carol"), "guests": ("bob", "carol"), "all": ("alice", "bob", "carol"), "none": ()}

# Places are soon worn.
FEW_LIVES = Policy(
    3, {"alice": 90000, "bob": 20000, "carol": 4000},
    {"main": (3, None), "vault": (2, ("alice", "bob"))}, GROUPS,
    (("alice", "bob", "read free"), ("bob", "alice", "list write"), ("alice", "carol", "read write list free"),
     ("carol", "alice", "free"), ("none", "all", "write")),
    (("alice", "all", "free"), ("bob", "staff", "read"), ("all", "carol", "write list")))

# No place is worn.
MANY_LIVES = Policy(
    LARGEST, {"alice": 70000, "bob": 70000, "carol": 3000},
    {"main": (2, None), "vault": (3, ("guests",))}, GROUPS,
    (("bob", "alice", "read write list free"), ("carol", "bob", "list free"), ("carol", "guests", "write")),
    (("guests", "alice", "read free"), ("alice", "guests", "write"), ("guests", "guests", "list")))

# Each place is given out once, and there is room for many blocks of several pages.
ONE_LIFE = Policy(
    1, {"alice": 400000, "bob": 200000, "carol": 50000},
    {"main": (3, None), "vault": (2, ("alice", "bob"))}, GROUPS,
    (("alice", "all", "read free"), ("bob", "alice", "list write free"), ("carol", "bob", "read")),
    (("alice", "carol", "read"), ("bob", "guests", "free list"), ("carol", "bob", "read"),
     ("guests", "alice", "write")))

TENANTS = "alice", "bob", "carol"


def policy_of(seed):
    """A policy that is drawn from a seed."""
    numbers = Numbers(seed)

    def some(things):
        return [it for it in things if numbers.below(2)]

    def line():
        return numbers.one_of(names), numbers.one_of(names), " ".join(some(RIGHTS))

    names = *TENANTS, *GROUPS
    return Policy(
        numbers.one_of((1, 2, 5, LARGEST)), {it: numbers.one_of((2000, 30000, 200000)) for it in TENANTS},
        {"main": (3, None), "vault": (2, some(names))},
        {**GROUPS, "staff": some(TENANTS), "guests": some(TENANTS)},
        [line() for _ in range(6)], [line() for _ in range(4)])


# How a command can be answered.
DENIALS = ["denied stranger", "denied stale", "denied freed", "denied arena", "denied forbidden", "denied grant"]
ANSWERS = {
    "alloc": ["ok @", "denied stranger", "denied arena", "large", "denied limit", "noroom"],
    "free": ["ok", "parted", "busy", *DENIALS],
    "deliver": ["ok", "empty"],
    "take": ["taken", "notheld"],
    "collect": ["pages"],
    "read": ["word", "elsewhere", "range", *DENIALS],
    "write": ["ok", "elsewhere", "range", *DENIALS],
    "look": ["a row", "elsewhere", *DENIALS],
    "list": ["rows"],
    "abandon": ["ok", "notheld"],
    "refill": ["segment", "nosegment"],
}

# What has to come about in each run, and where places are worn or aren't.
FOUND = {
    "free stale, given out", "free stale, never given out", "read stale, given out",
    "read stale, never given out", "write stale, given out", "write stale, never given out",
    "list stale, never given out",
    "a block is given out beside a full page of its class",
    "a block is parted whose segment nobody holds", "something is sent to a segment that nobody holds",
    "a page's second place is sent", "something is taken", "places of several pages are taken",
    "three places of a page are taken", "a place stays in a hand while others are taken",
    "a page loses its class", "a page of a block of several pages loses its class",
    "a fresh segment is taken", "an orphan is taken", "an orphan is taken from behind others",
    "an orphan with live blocks is taken", "an orphan to which places were sent is taken",
    "a page that comes goes in front of others",
    "a block of several pages is given out", "one behind pages that are too few",
    "one behind a page with a class", "one behind a page of its like", "one behind a page that a block lies over",
    "no room for a block of several pages beside pages without a class",
}
LIVES = {
    "a place is given out again", "a page goes in front of others",
    "several places freed by the holder become free",
    "a page leaves a queue from behind others", "a block is given out of a queue of three pages",
}
WORN = {"one behind a worn place"}
BESIDE_WORN = {"a block is given out of a page with a worn place"}

RUNS = {
    "few lives": (FEW_LIVES, (7, 31, 99, 2026), FOUND | LIVES | WORN | BESIDE_WORN),
    "many lives": (MANY_LIVES, (11, 23, 2027, 4711), FOUND | LIVES),
    "one life": (ONE_LIFE, (3, 5, 1729), FOUND | WORN),
}


def joined(lines):
    """A text of these lines."""
    return "".join(f"{it}\n" for it in lines)


def apart(lines, wanted, told):
    """The first line that isn't answered as it is to be."""
    told = told.split("\n")
    at = 0
    for number, (line, answer) in enumerate(zip(lines, wanted), 1):
        many = answer.count("\n") + 1
        if told[at:at + many] != answer.split("\n"):
            return f"line {number}, {line}: {told[at:at + many]}, wanted: {answer!r}"
        at += many
    return f"{told[at:at + 3]} behind the last answer"


def kind_of(answer):
    """An answer without what it tells: the kind of its last line."""
    if answer.startswith("@"):
        return "rows" if "\n" in answer else "a row"
    if answer.startswith("ok @"):
        return "ok @"
    first = answer.split()[0]
    return first if first in ("word", "taken", "pages", "segment", "rows") else answer
