"""The register of the demonstration in a Redis server: its rows, and the clients that call."""
import random
from typing import Any, Dict, Iterable, List

import redis

import hlr
import hlr.remote
from hlr.records import access_fields, facility_fields, subscriber_fields
from store import TICK, Shown, call, drawn_subscribers, populate

KEY = "live"


class _Records:
    """Takes rows as a register does, and keeps them as records."""

    def __init__(self) -> None:
        self.lines: List[str] = []

    def _keep(self, name: str, fields: Iterable[object]) -> None:
        self.lines.append(",".join(map(str, [name, *fields])))

    def add_subscriber(self, row: hlr.Subscriber) -> None:
        self._keep("sub", subscriber_fields(row))

    def add_access(self, row: hlr.Access) -> None:
        self._keep("acc", access_fields(row))

    def add_facility(self, row: hlr.Facility) -> None:
        self._keep("fac", facility_fields(row))

    def insert_forwarding(self, *fields: int) -> None:
        self._keep("icf", fields)


class ServedStore(Shown):
    """A register at the key `live` of a server, and threads that call as clients do. While the server doesn't answer,
    the page keeps the last counts, and the threads try again."""

    def __init__(self, url: str, clients: int, subscribers: int, pace: int, seed: int) -> None:
        super().__init__(pace, seed)
        chance = random.Random(seed)
        self.url, self.clients, self.client = url, clients, redis.Redis.from_url(url, socket_timeout=5)
        self.width, self.subscribers = drawn_subscribers(chance, subscribers)
        records = _Records()
        for s_id in self.subscribers:
            populate(records, chance, s_id)
        self.register = hlr.remote.Register.create(self.client, KEY, self.width)
        hlr.remote.load(self.register, records.lines)
        self.counts = self.register.views()
        self.is_lost = False

    def close(self) -> None:
        """Removes the register from the server."""
        try:
            self.client.unlink(KEY)
        except redis.RedisError:
            pass
        self.client.connection_pool.disconnect()

    def _staff(self) -> None:
        for client in range(self.clients):
            self._start(f"client {client}", self._serve, client)

    def _serve(self, client: int) -> None:
        """The thread of a client."""
        chance, due = random.Random(f"{self.seed} {client}"), 0.0
        while not self.ending.wait(TICK):
            due += self.pace * TICK / self.clients if self.is_running else 0
            calls, due = int(due), due % 1
            refused = 0
            try:
                for _ in range(calls):
                    refused += self._is_refused(chance)
            except redis.RedisError:
                self.ending.wait(0.5)
                continue
            with self.lock:
                self.calls += calls
                self.refused += refused

    def _is_refused(self, chance: random.Random) -> bool:
        try:
            call(self.register, chance, chance.choice(self.subscribers))
        except hlr.Refused:
            return True
        return False

    def state(self) -> Dict[str, Any]:
        """The counts now."""
        with self.lock:
            try:
                self.counts, self.is_lost = self.register.views(), False
            except (redis.RedisError, hlr.Refused):
                self.is_lost = True
            published, unposted = self.counts
            return {"version": self.version, "is_running": self.is_running, "calls": self.calls,
                    "refused": self.refused, "moving": self.moving, "published": published, "unposted": unposted,
                    "regions": [], "proposed": [], "width": self.width, "subscribers": len(self.subscribers),
                    "server": self.url + (", which doesn't answer" if self.is_lost else "")}

    def act(self, action: str, part: int) -> str:
        """Does what a button says. A register in a server has no parts, so there are two buttons."""
        if action == "pause":
            self.is_running = not self.is_running
            self.changed()
            return "calls go on" if self.is_running else "no calls are made"
        if action != "compare":
            return "a register in a server has no parts"
        try:
            return self._compared()
        except redis.RedisError as fault:
            return f"the server doesn't answer: {fault}"

    def _compared(self) -> str:
        """The counts, and those of a walk over all rows, in one transaction with no call in between."""
        with self.client.pipeline(transaction=True) as both:
            both.execute_command("HLR.COUNTS", KEY)
            both.execute_command("HLR.RECOUNT", KEY)
            live, counted = both.execute()
        if live != counted:
            return "the counts differ from a scan"
        return f"all {hlr.CELLS} sums agree with a scan of {sum(live[-1]):,} rows"
