"""The register of the demonstration: its subscribers, the threads that own its parts, and what the page's buttons do."""
import bisect
import collections
import contextlib
import random
import threading
import time
from typing import Any, Callable, Dict, Iterator, List, Optional, Tuple

import hlr

ZONES = 32
TICK = 0.02  # seconds between two turns of a thread
AREA = 1 << 28


def _letters(chance: random.Random, count: int) -> str:
    return "".join(chance.choices("ABCDEFGHIJKLMNOPQRSTUVWXYZ", k=count))


def drawn_subscribers(chance: random.Random, count: int) -> Tuple[int, List[int]]:
    """A zone's width, and about `count` subscribers in order: many in the first zones, and few in the last ones."""
    width = max(4, -(-count * 100 // (55 * ZONES)))
    return width, [s_id for s_id in range(1, ZONES * width + 1)
                   if chance.random() < 0.95 - 0.8 * ((s_id - 1) // width) / (ZONES - 1)]


def populate(register: Any, chance: random.Random, s_id: int) -> None:
    """The rows of a subscriber, whose number is its s_id, as TATP has them."""
    register.add_subscriber(hlr.Subscriber(s_id, s_id, vlr_location=AREA * min(15, int(chance.gammavariate(4, 1.2)))
                                           + chance.randrange(1, AREA)))
    for ai_type in chance.sample(range(1, 5), chance.randint(1, 4)):
        register.add_access(hlr.Access(s_id, ai_type, chance.randrange(256), chance.randrange(256),
                                       _letters(chance, 3), _letters(chance, 5)))
    for sf_type in chance.sample(range(1, 5), chance.randint(1, 4)):
        register.add_facility(hlr.Facility(s_id, sf_type, chance.random() < 0.85, chance.randrange(256),
                                           chance.randrange(256), _letters(chance, 5)))
        for start in chance.sample((0, 8, 16), chance.randint(0, 3)):
            register.insert_forwarding(s_id, sf_type, start, start + chance.randint(1, 8), chance.randrange(10 ** 15))


def call(register: Any, chance: random.Random, s_id: int) -> None:
    """A transaction of TATP's mix, by an s_id, which is the number too. Subscribers go where most go now, an area further
    on each four seconds."""
    roll = chance.randrange(100)
    sf_type, start = chance.randint(1, 4), chance.choice((0, 8, 16))
    if roll < 35:
        register.subscriber_data(s_id)
    elif roll < 45:
        register.new_destination(s_id, sf_type, start, chance.randint(1, 24))
    elif roll < 80:
        register.access_data(s_id, chance.randint(1, 4))
    elif roll < 82:
        register.update_subscriber(s_id, sf_type, chance.randint(0, 1), chance.randrange(256))
    elif roll < 96:
        area = int(time.monotonic() / 4 + chance.gauss(0, 2)) % 16
        register.update_location(s_id, AREA * area + chance.randrange(1, AREA))
    elif roll < 98:
        register.insert_forwarding(s_id, sf_type, start, chance.randint(1, 24), chance.randrange(10 ** 15))
    else:
        register.delete_forwarding(s_id, sf_type, start)


class Shown:
    """What a page shows: a register at which threads work, and how many calls they made. `lock` is for all of it."""

    def __init__(self, pace: int, seed: int) -> None:
        self.lock = threading.RLock()
        self.news = threading.Condition(self.lock)
        self.ending = threading.Event()
        self.pace, self.seed, self.is_running = pace, seed, True
        self.version = self.calls = self.refused = self.moving = 0
        self.threads: List[threading.Thread] = []

    def _staff(self) -> None:
        """Starts the threads that call."""
        raise NotImplementedError

    def state(self) -> Dict[str, Any]:
        """Returns what the page is told."""
        raise NotImplementedError

    def act(self, action: str, part: int) -> str:
        """Does what a button says, for the part that is chosen, and returns what came of it."""
        raise NotImplementedError

    def close(self) -> None:
        """Gives back what the register has."""
        raise NotImplementedError

    def start(self) -> None:
        """Starts the threads."""
        with self.lock:
            self._start("news", self._tell)
            self._staff()

    def end(self) -> None:
        """Ends the threads, and has the page told so."""
        with self.lock:
            self.ending.set()
            self.news.notify_all()
            threads = list(self.threads)
        for thread in threads:
            thread.join()

    def _start(self, name: str, work: Callable[..., None], *passed: int) -> None:
        self.threads.append(threading.Thread(target=work, name=name, args=passed))
        self.threads[-1].start()

    def _tell(self) -> None:
        """The thread that has the page told four times a second."""
        while not self.ending.wait(0.25):
            self.changed()

    def changed(self) -> None:
        """Has the page told."""
        with self.lock:
            self.version += 1
            self.news.notify_all()

    def next(self, version: int) -> Dict[str, Any]:
        """Waits until there is something newer than a version, or the end, and tells it."""
        with self.lock:
            self.news.wait_for(lambda: self.version > version or self.ending.is_set())
            return self.state()


class Store(Shown):
    """A register in parts, each with a thread that is lent the part at each of its turns, and works on it alone.

    Whoever works on the register has `lock`; calls on a part that is out need none. While a piece is loose, the thread of
    the part beside it goes on to call for its subscribers, and is refused with Moving.
    """

    def __init__(self, parts: int, subscribers: int, pace: int, seed: int) -> None:
        super().__init__(pace, seed)
        chance = random.Random(seed)
        self.came_home = threading.Condition(self.lock)
        self.out = self.wanted = 0  # how many parts are out, and how many calls wait for them
        self.width, self.subscribers = drawn_subscribers(chance, subscribers)
        self.register = hlr.Register(parts, self.width)
        for s_id in self.subscribers:
            populate(self.register, chance, s_id)
        self.proposed: List[int] = []
        self.regions: List[hlr.Region] = []
        self.served: List[range] = []

    def close(self) -> None:
        """Closes the register."""
        self.register.close()

    # The threads.

    def _staff(self) -> None:
        """Looks which subscribers each part's thread calls for, and starts threads for new parts. These are the part's
        own, and those of loose pieces behind it; the first part's thread also has those of pieces in front."""
        self.regions, self.served = self.register.regions(), []
        for region in self.regions:
            last = bisect.bisect_left(self.subscribers, region.hi)
            if not region.is_piece:
                self.served.append(range(self.served[-1].stop if self.served else 0, last))
            elif self.served:
                self.served[-1] = range(self.served[-1].start, last)
        names = {thread.name for thread in self.threads}
        for part in range(len(self.served)):
            if f"part {part}" not in names:
                self._start(f"part {part}", self._serve, part)

    def _serve(self, part: int) -> None:
        """The thread of a part, as long as there is one. Each subscriber is called for as often as any other."""
        chance, due = random.Random(f"{self.seed} {part}"), 0.0
        while not self.ending.wait(TICK):
            with self.lock:
                if part >= len(self.served):
                    self.threads.remove(threading.current_thread())
                    return
                served = self.served[part]
                owner = self._lent(part) if served else None
            due += self.pace * TICK * len(served) / len(self.subscribers)
            if owner is not None:
                self._take_turn(owner, part, [self.subscribers[chance.choice(served)] for _ in range(int(due))], chance)
            due -= int(due)

    def _lent(self, part: int) -> Optional[hlr.Part]:
        """The part, unless no calls are made, or somebody waits until all parts are at home."""
        if not self.is_running or self.wanted:
            return None
        owner = self.register.lend(part)
        self.out += 1
        return owner

    def _take_turn(self, owner: hlr.Part, part: int, s_ids: List[int], chance: random.Random) -> None:
        """Calls for subscribers, and then sends the part home, where it is taken in."""
        with owner:
            ended = collections.Counter(self._call(owner, chance, s_id) for s_id in s_ids)
        with self.lock:
            self.register.back(part)
            self.out -= 1
            self.calls += len(s_ids)
            self.moving += ended["moving"]
            self.refused += ended["refused"]
            self.came_home.notify_all()

    def _call(self, owner: hlr.Part, chance: random.Random, s_id: int) -> str:
        """How a call for a subscriber ends. Whoever isn't in the part is in a loose piece, as the register knows."""
        try:
            call(owner, chance, s_id)
        except hlr.Elsewhere:
            with self.lock:
                return self._call_register(chance, s_id)
        except hlr.Refused:
            return "refused"
        return "done"

    def _call_register(self, chance: random.Random, s_id: int) -> str:
        try:
            call(self.register, chance, s_id)
        except hlr.Moving:
            return "moving"
        except hlr.Refused:
            return "refused"
        return "done"

    @contextlib.contextmanager
    def _all_home(self) -> Iterator[None]:
        """Has the lock, and all parts at home, where they stay."""
        with self.lock:
            self.wanted += 1
            try:
                self.came_home.wait_for(lambda: self.out == 0)
                yield
            finally:
                self.wanted -= 1

    # What the page is told.

    def state(self) -> Dict[str, Any]:
        """The counts and the regions now."""
        with self._all_home():
            published, unposted = self.register.views()
            regions = [{"lo": region.lo, "hi": region.hi, "is_piece": region.is_piece, "number": region.number,
                        "subscribers": self._between(region.lo, region.hi)} for region in self.register.regions()]
            return {"version": self.version, "is_running": self.is_running, "calls": self.calls,
                    "refused": self.refused, "moving": self.moving, "published": published, "unposted": unposted,
                    "regions": regions, "proposed": self.proposed, "width": self.width,
                    "subscribers": len(self.subscribers), "server": ""}

    def _between(self, lo: int, hi: int) -> int:
        return bisect.bisect_left(self.subscribers, hi) - bisect.bisect_left(self.subscribers, lo)

    # What the buttons do. Each tells what it did, or raises the library's refusal.

    def act(self, action: str, part: int) -> str:
        """Does what a button says, for the part that is chosen."""
        with self._all_home():
            try:
                said = ACTIONS[action](self, part)
            except hlr.Refused as refused:
                said = f"refused, {int(refused.code)}, {type(refused).__name__}: {refused}"
            self._staff()
            self.changed()
        return said

    def _middle(self, part: int) -> int:
        """The subscriber in the middle of a part's."""
        own = [region for region in self.regions if not region.is_piece and region.number == part]
        if not own:
            return 0
        at = sum(bisect.bisect_left(self.subscribers, bound) for bound in (own[0].lo, own[0].hi)) // 2
        return self.subscribers[min(at, len(self.subscribers) - 1)]

    def post(self, part: int) -> str:
        return f"part {part} posted {_count(self.register.post(part), 'cell')}"

    def post_all(self, _part: int) -> str:
        posted = sum(self.register.post(part) for part in range(len(self.served)))
        return f"{_count(len(self.served), 'part')} posted {_count(posted, 'cell')}"

    def give_low(self, part: int) -> str:
        return self._given(part, self.register.give(part, hlr.Side.LOW, self._middle(part)))

    def give_high(self, part: int) -> str:
        return self._given(part, self.register.give(part, hlr.Side.HIGH, self._middle(part)))

    def _given(self, part: int, piece: hlr.Region) -> str:
        count = _count(self._between(piece.lo, piece.hi), "subscriber")
        return f"part {part} gave {count} away: piece {piece.number} is loose"

    def take(self, part: int) -> str:
        """The piece beside the part; else the first one, which is refused, as it is where there is none."""
        beside = [one if one.is_piece else other for one, other in zip(self.regions, self.regions[1:])
                  if one.is_piece != other.is_piece and part in (n.number for n in (one, other) if not n.is_piece)]
        piece = (beside or [region for region in self.regions if region.is_piece] or [hlr.Region(0, 0, True, 1)])[0]
        self.register.take(piece.number, part)
        return f"part {part} took {_count(self._between(piece.lo, piece.hi), 'subscriber')}: piece {piece.number}"

    def divide(self, part: int) -> str:
        made = self.register.divide(part, self._middle(part))
        self.proposed = []
        count = _count(self._between(made.lo, made.hi), "subscriber")
        return f"part {part} was divided: part {made.number} has {count}"

    def dissolve(self, part: int) -> str:
        front = self.register.dissolve(part)
        self.proposed = []
        return f"part {part} was dissolved: its rows are those of part {front.number}"

    def propose(self, _part: int) -> str:
        self.proposed = self.register.propose()
        return f"proposed by the published counts: {', '.join(map(str, self.proposed)) or 'no bound'}"

    def recut(self, _part: int) -> str:
        moved = self.register.recut(self.proposed or self.register.propose())
        self.proposed = []
        return f"{_count(moved, 'bound')} moved"

    def compare(self, _part: int) -> str:
        """The sums, and the counts of a scan, with no call in between."""
        published, unposted = self.register.views()
        counted = self.register.scan()
        wrong = [cell for cell in range(hlr.CELLS) if published[cell] + unposted[cell] != counted[cell]]
        if wrong:
            return f"{len(wrong)} of the {hlr.CELLS} sums differ from a scan: cells {', '.join(map(str, wrong))}"
        return f"all {hlr.CELLS} sums agree with a scan of {_count(sum(counted[40:]), 'row')}"

    def pause(self, _part: int) -> str:
        self.is_running = not self.is_running
        return "calls go on" if self.is_running else "no calls are made"


def _count(number: int, noun: str) -> str:
    return f"{number:,} {noun}" + ("s" if number != 1 else "")


ACTIONS = {name: getattr(Store, name) for name in (
    "post", "post_all", "give_low", "give_high", "take", "divide", "dissolve", "propose", "recut", "compare", "pause")}
