"""A cluster of three nodes with twelve registers: redis-cli moves their slots while four clients write and read back.

    cluster.py MODULE
"""
import random
import sys
import threading
import time

from checks import check, ended, same
from resp import Connection, Error, code
from servers import PATIENCE, Server, command_line, wait_for

REGISTERS = 12
SUBSCRIBERS = 500
CLIENTS = 4
SLOTS = 400


def slot_of(key):
    """CRC16, as clusters of Redis have it."""
    crc = 0
    for octet in key.encode():
        crc ^= octet << 8
        for _ in range(8):
            crc = (crc << 1 ^ (0x1021 if crc & 0x8000 else 0)) & 0xffff
    return crc % 16384


def keys():
    """Keys of twelve registers: six in the lowest slots of the first node, which are to move, and three of each other node."""
    names, number = [], 0
    for low, high, count in ((0, SLOTS, 6), (5461, 10923, 3), (10923, 16384, 3)):
        while count:
            number += 1
            if low <= slot_of(f"hlr:{number}") < high:
                names.append(f"hlr:{number}")
                count -= 1
    return names


KEYS = keys()


class Client:
    """A client of a cluster: it follows MOVED and ASK, and waits where a slot can't be served for a moment."""

    def __init__(self, ports):
        self.ports, self.connections, self.places, self.redirected = ports, {}, {}, 0

    def at(self, port):
        if port not in self.connections:
            self.connections[port] = Connection(port)
        return self.connections[port]

    def __call__(self, name, key, *words):
        port, slot = self.places.get(slot_of(key), self.ports[0]), slot_of(key)
        end = time.monotonic() + PATIENCE
        while time.monotonic() < end:
            reply = self.at(port)(name, key, *words)
            while isinstance(reply, Error) and reply.code == "ASK":
                self.redirected += 1
                asked = self.at(int(reply.rsplit(":", 1)[1]))
                asked("ASKING")
                reply = asked(name, key, *words)
            if not isinstance(reply, Error) or reply.code not in ("MOVED", "TRYAGAIN", "CLUSTERDOWN"):
                self.places[slot] = port
                return reply
            if reply.code == "MOVED":
                self.redirected += 1
                port = int(reply.rsplit(":", 1)[1])
            else:
                time.sleep(0.05)
        raise TimeoutError(f"{name} {key}: {reply}")


class Worker(threading.Thread):
    """Writes to its own subscribers of all registers, and reads each of them back: of every reply it knows what is right."""

    def __init__(self, ports, mine, is_stopped):
        super().__init__(daemon=True)
        self.ports, self.mine, self.is_stopped = ports, mine, is_stopped
        self.client, self.locations, self.forwardings, self.wrong, self.done, self.worst = Client(ports), {}, {}, [], 0, 0.0

    def run(self):
        drawn = random.Random(self.mine)
        while not self.is_stopped.is_set():
            begin = time.monotonic()
            place = drawn.randrange(REGISTERS), 1 + self.mine + CLIENTS * drawn.randrange(SUBSCRIBERS // CLIENTS)
            drawn.choice((self.move, self.read, self.insert, self.delete))(drawn, KEYS[place[0]], place)
            self.done += 1
            self.worst = max(self.worst, time.monotonic() - begin)

    def expect(self, what, reply, wanted):
        if reply != wanted:
            self.wrong.append((what, reply, wanted))

    def move(self, drawn, key, place):
        location = drawn.randint(1, 2**32 - 1)
        self.expect("UL", self.client("HLR.UL", key, place[1], location), "OK")
        self.locations[place] = location

    def read(self, drawn, key, place):
        del drawn
        self.expect("GSD", self.client("HLR.GSD", key, place[1])[-1], self.locations.get(place, 1))

    def insert(self, drawn, key, place):
        number = f"{drawn.randrange(10**15):015}"
        reply = code(self.client("HLR.ICF", key, place[1], 1, 8, 16, number))
        self.expect("ICF", reply, "EXISTS" if self.forwardings.get(place) else "OK")
        if reply == "OK":
            self.forwardings[place] = number

    def delete(self, drawn, key, place):
        del drawn
        numbers = self.client("HLR.GND", key, place[1], 1, 8, 9)
        was = self.forwardings.pop(place, None)
        self.expect("GND", numbers, [was] if was else [])
        self.expect("DCF", code(self.client("HLR.DCF", key, place[1], 1, 8)), "OK" if was else "NOFORWARDING")


def fill(client):
    for key in KEYS:
        same("HLR.CREATE", client("HLR.CREATE", key, "ZONE", 20), "OK")
        records = [f"sub,{s_id},{s_id},0000000000,0000000000,{'0' * 20},1,1\nfac,{s_id},1,1,0,0,ABCDE" for s_id in range(1, SUBSCRIBERS + 1)]
        same("HLR.ADD", client("HLR.ADD", key, *records)[:4], ["added", 2 * SUBSCRIBERS, "refused", 0])


def is_whole(nodes):
    """Each node has seen all slots served, and knows the other two."""
    for node in nodes:
        with node.connection() as one:
            told = one("CLUSTER", "INFO")
            if "cluster_state:ok" not in told or "cluster_known_nodes:3" not in told:
                return False
    return True


def spread(nodes):
    """How many registers each node has."""
    counts = []
    for node in nodes:
        with node.connection() as one:
            counts.append(one("DBSIZE"))
    return counts


def moved(nodes):
    """The lowest slots, which have half of the registers, go round: to the second node, to the third, and back."""
    names, spreads, begin = [], [spread(nodes)], time.monotonic()
    for node in nodes:
        with node.connection() as one:
            names.append(one("CLUSTER", "MYID"))
    for giver, taker in ((0, 1), (1, 2), (2, 0)):
        command_line("reshard", f"127.0.0.1:{nodes[0].port}", "--cluster-from", names[giver], "--cluster-to", names[taker],
                     "--cluster-slots", str(SLOTS), "--cluster-yes")
        wait_for("no register is under way", lambda: sum(spread(nodes)) == REGISTERS)
        spreads.append(spread(nodes))
    same("registers of each node", spreads, [[6, 3, 3], [0, 9, 3], [0, 3, 9], [6, 3, 3]])
    print(f"{3 * SLOTS} slots with {3 * 6} registers moved in {time.monotonic() - begin:.1f} s", flush=True)


def checked(client, nodes, workers):
    """What was acknowledged is there, the counts of all registers add up, and the slots are right."""
    lost = []
    for worker in workers:
        same("wrong replies", worker.wrong[:3], [])
        lost += [place for place, location in worker.locations.items() if client("HLR.GSD", KEYS[place[0]], place[1])[-1] != location]
    same("lost writes", lost, [])
    hours = 0
    for key in KEYS:
        counts = client("HLR.COUNTS", key)
        same("counts", counts, client("HLR.RECOUNT", key))
        hours += counts[1][8]
    same("forwardings of all registers at 8", hours, sum(len(worker.forwardings) for worker in workers))
    check("the cluster is whole", "[OK] All 16384 slots covered" in command_line("check", f"127.0.0.1:{nodes[0].port}"))
    same("two keys of two slots", code(client("COPY", KEYS[0], KEYS[-1])), "CROSSSLOT")


def main():
    nodes = [Server(f"node{number}", sys.argv[1], "--cluster-enabled", "yes", "--cluster-node-timeout", "5000") for number in range(3)]
    command_line("create", *(f"127.0.0.1:{node.port}" for node in nodes), "--cluster-yes")
    wait_for("the cluster is whole", lambda: is_whole(nodes))
    ports = [node.port for node in nodes]
    client = Client(ports)
    fill(client)
    check("registers lie on all nodes", min(spread(nodes)) > 0, spread(nodes))
    is_stopped = threading.Event()
    workers = [Worker(ports, mine, is_stopped) for mine in range(CLIENTS)]
    for worker in workers:
        worker.start()
    moved(nodes)
    is_stopped.set()
    for worker in workers:
        worker.join()
    done = sum(worker.done for worker in workers)
    check("clients were redirected", all(worker.client.redirected > 5 for worker in workers), [worker.client.redirected for worker in workers])
    print(f"{done} transactions meanwhile, the longest took {max(worker.worst for worker in workers) * 1000:.0f} ms", flush=True)
    checked(client, nodes, workers)
    ended()


main()
