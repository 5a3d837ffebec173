#!/usr/bin/env python3
"""Publishes a served store by three nodes of etcd to replicas on this machine, and measures:

    bench/fleet.py PROGRAM [--replicas N] [--write]

- the delay of a change: from the reply to its commit until a replica has it on the disk, while some changes come a second;
- how many changes a second all replicas apply, if many come at once;
- the processor time of a change on a replica;
- the bytes of a change: in etcd, in what a replica reads of a node, and in what each node writes to its disk;
- the memory of a node for each replica that waits.
"""
import base64
import http.client
import json
import os
import random
import selectors
import signal
import socket
import statistics
import subprocess
import sys
import tempfile
import threading
import time
import uuid

sys.dont_write_bytecode = True
TOP = os.path.dirname(os.path.dirname(os.path.abspath(__file__)))
sys.path[:0] = [os.path.join(TOP, "tests")]
from broker_build import built  # noqa: E402
from fleet_bench import PREFIX, Cluster, children_of, copied  # noqa: E402
from measured import head, tell, words  # noqa: E402
from scratch import Program, memory  # noqa: E402
from served_store import ID, Lines, Served, transaction, until  # noqa: E402

REPLICATE = f"{TOP}/clients/python/regtx-replicate"
# changes of the delay, and how many come a second; and changes of the greatest rate
SLOW, RATE, FAST = 100, 4, 300
WATCHERS, SECONDS = 1_000, 900


class Replica:
    """A replica, and when it told that it has each change."""

    def __init__(self, folder, target, program):
        self.process = subprocess.Popen([REPLICATE, "subscribe", folder, "--from", target, "--program", program, "--verbose", "--report", "3600",
                                         "--name", os.path.basename(folder)], stdin=subprocess.DEVNULL, stdout=subprocess.PIPE,
                                        stderr=subprocess.DEVNULL)
        self.rest, self.times = b"", {}

    def read(self):
        came = os.read(self.process.stdout.fileno(), 1 << 16)
        now = time.monotonic()
        *lines, self.rest = (self.rest + came).split(b"\n")
        for line in lines:
            if line.startswith(b"applied "):
                self.times.setdefault(int(line.split()[1]), now)
        return bool(came)


class Replicas:
    """All replicas, which a thread listens to."""

    def __init__(self, folders, target, program):
        self.all = [Replica(folder, target, program) for folder in folders]
        self.selector = selectors.DefaultSelector()
        for each in self.all:
            self.selector.register(each.process.stdout, selectors.EVENT_READ, each)
        threading.Thread(target=self.listen, daemon=True).start()

    def listen(self):
        while self.selector.get_map():
            for key, _ in self.selector.select():
                if not key.data.read():
                    self.selector.unregister(key.fileobj)

    def have(self, number):
        return until(lambda: all(number in each.times for each in self.all), SECONDS)

    def end(self, but=0):
        """Ends all but the first ones."""
        for each in self.all[but:]:
            each.process.terminate()
        for each in self.all[but:]:
            each.process.wait()
        del self.all[but:]

    def rate(self, client, begin):
        """How many changes a second all of them apply, if many come at once; and the processor time of one."""
        before, count = sum(spent(each.process.pid) for each in self.all), len(self.all)
        began, last = write_fast(client, begin)
        if not self.have(last):
            raise OSError(f"change {last} hasn't come to all replicas")
        took = sum(spent(each.process.pid) for each in self.all) - before
        return FAST / (max(each.times[last] for each in self.all) - began), took / count / FAST


class Wire(threading.Thread):
    """Counts what a node sends to one who watches all changes."""

    def __init__(self, port):
        super().__init__(daemon=True)
        self.bytes, self.connection = 0, watching(port, f"{PREFIX}/{ID}/changes/")
        self.start()

    def run(self):
        try:
            while got := self.connection.recv(1 << 16):
                self.bytes += len(got)
        except OSError:
            pass


def watching(port, key):
    """A connection that watches keys, as a replica does."""
    body = json.dumps({"create_request": {"key": base64.b64encode(key.encode()).decode(), "range_end": base64.b64encode(f"{key}~".encode()).decode()}})
    connection = socket.create_connection(("127.0.0.1", port))
    connection.sendall(f"POST /v3/watch HTTP/1.1\r\nHost: etcd\r\nContent-Length: {len(body)}\r\n\r\n{body}".encode())
    connection.recv(1 << 16)
    return connection


def spent(process):
    """The processor seconds that a process and its children have taken."""
    def of(each):
        with open(f"/proc/{each}/stat", encoding="ascii") as file:
            return sum(map(int, file.read().rpartition(") ")[2].split()[11:13])) / os.sysconf("SC_CLK_TCK")
    return of(process) + sum(of(child) for child in children_of(process))


def changes(count, begin):
    """Transactions of three values each, as an installer makes them."""
    chance = random.Random(begin)
    for number in range(begin, begin + count):
        key = f"0:Software\\Product{number % 50}"
        yield transaction(uuid.UUID(int=number), f"set {key} Version 1 {chance.randbytes(8).hex()}", f"set {key} Port 4 {chance.randbytes(4).hex()}",
                          f"set {key} Path 1 {chance.randbytes(60).hex()}")


def write_slowly(client, begin):
    """Makes changes at a rate; when each was committed."""
    told = {}
    for lines in changes(SLOW, begin):
        replies = client.ask(*lines)
        told[int(replies[-2].split(" ")[1])] = time.monotonic()
        time.sleep(1 / RATE)
    return told


def write_fast(client, begin):
    """Makes changes of one value each, all of which become durable at once; when that was, and the last number."""
    lines = [f"set 0:Software\\Product{number % 50} Port 4 {number:08x}" for number in range(begin, begin + FAST)]
    last = int(client.ask(*lines, "flush")[-1].split(" ")[1])
    return time.monotonic(), last


def resident(process):
    with open(f"/proc/{process}/status", encoding="ascii") as file:
        return next(int(line.split()[1]) for line in file if line.startswith("VmRSS"))


def memory_of_watchers(node):
    """How many kB a node takes more for each of many connections that watch."""
    before = resident(node.process.pid)
    connections = [watching(node.port, f"{PREFIX}/{ID}/changes/") for _ in range(WATCHERS)]
    time.sleep(2)
    taken = (resident(node.process.pid) - before) / WATCHERS
    for each in connections:
        each.close()
    return taken


def stored(node, count):
    """How many bytes of keys and values a change is in etcd, with the head that is written with it."""
    def sizes(key, end):
        connection = http.client.HTTPConnection("127.0.0.1", node.port, timeout=60)
        connection.request("POST", "/v3/kv/range", json.dumps({"key": base64.b64encode(key.encode()).decode(),
                                                               "range_end": base64.b64encode(end.encode()).decode() if end else ""}))
        kvs = json.loads(connection.getresponse().read()).get("kvs", [])
        return [len(base64.b64decode(kv["key"])) + len(base64.b64decode(kv["value"])) for kv in kvs]
    found = sizes(f"{PREFIX}/{ID}/changes/", f"{PREFIX}/{ID}/changes~")[-count:]
    return statistics.mean(found), sizes(f"{PREFIX}/{ID}/head", "")[0]


def written(process):
    with open(f"/proc/{process}/io", encoding="ascii") as file:
        return next(int(line.split()[1]) for line in file if line.startswith("write_bytes"))


def measured(program, cluster, store, home, memory_home, count):
    backup = copied(store.store, f"{home}/backup")
    store.start()
    client = Lines(store.path)
    client.ask(*transaction(uuid.UUID(int=1), *(f"create 0:Software\\Product{number}" for number in range(50))))
    publisher = subprocess.Popen([REPLICATE, "publish", store.store, "--to", cluster.target(), "--program", program, "--after", "0"],
                                 stdin=subprocess.DEVNULL, stderr=subprocess.DEVNULL)
    node = cluster.nodes[0]
    until(lambda: subprocess.run([REPLICATE, "status", "--from", cluster.target(), "--id", ID], capture_output=True, check=False).returncode == 0)
    subprocess.run([REPLICATE, "begin", f"{memory_home}/replica0", "--of", backup, "--from", cluster.target(), "--program", program], check=True,
                   stdout=subprocess.DEVNULL)
    first = f"{memory_home}/replica0"
    folders = [first, *(copied(first, f"{memory_home}/replica{number}") for number in range(1, count))]
    replicas = Replicas(folders, cluster.target(), program)
    try:
        if not replicas.have(1):
            raise OSError("the first change hasn't come to all replicas")
        wire, before = Wire(node.port), written(node.process.pid)
        committed = write_slowly(client, 2)
        last = max(committed)
        replicas.have(last)
        delays = [each.times[number] - moment for each in replicas.all for number, moment in committed.items()]
        on_wire, on_disk = wire.bytes / SLOW, (written(node.process.pid) - before) / SLOW
        sizes = stored(node, SLOW)
        all_rate, processor = replicas.rate(client, 2 + SLOW)
        replicas.end(1)
        one_rate, _ = replicas.rate(client, 2 + SLOW + FAST)
        yield from rows(delays, all_rate, one_rate, processor, sizes, on_wire, on_disk, memory_of_watchers(node))
    finally:
        replicas.end()
        publisher.terminate()
        publisher.wait()
        client.close()


def rows(delays, all_rate, one_rate, processor, sizes, on_wire, on_disk, memory):
    delays.sort()
    yield "| what | measured |"
    yield "|---|---|"
    yield f"| delay of a change at {RATE} a second, the median | {statistics.median(delays) * 1000:.0f} ms |"
    yield f"| the same, 99 of 100 changes | {delays[len(delays) * 99 // 100] * 1000:.0f} ms |"
    yield f"| changes a second that all replicas apply, after {FAST:,} of one value came at once | {all_rate:.0f} |"
    yield f"| the same, of one replica without the others | {one_rate:.0f} |"
    yield f"| processor time of a replica and its program for such a change | {processor * 1000:.1f} ms |"
    yield f"| bytes of a change in etcd, key and value | {sizes[0]:.0f} |"
    yield f"| bytes of the head, which is written with one or several changes | {sizes[1]} |"
    yield f"| bytes that a node sends to a replica for a change | {on_wire:.0f} |"
    yield f"| bytes that a node writes to its disk for a change at {RATE} a second | {on_disk:,.0f} |"
    yield f"| memory of a node for each replica that waits, of {WATCHERS:,} | {memory:.0f} kB |"


def lines_of(program, count):
    yield (f"{head('fleet')}, three nodes of {etcd_version()} and {count} replicas. Each change sets three values, of 72 bytes together. The nodes and "
           "the store are on one disk, and the replicas in memory, since each machine has a disk of its own.")
    yield ""
    with tempfile.TemporaryDirectory(prefix="fleet-") as home, tempfile.TemporaryDirectory(prefix="fleet-", dir=memory()) as memory_home:
        os.chmod(home, 0o755)
        os.mkdir(f"{home}/etcd")
        cluster = Cluster(f"{home}/etcd").start()
        broker = built("regtxd", home)
        store = Served(Program(program, home), broker, "served", options=("-s", f"{home}/served/store"))
        try:
            until(cluster.is_ready)
            yield from measured(program, cluster, store, home, memory_home, count)
        finally:
            store.close()
            cluster.close()


def etcd_version():
    return subprocess.run(["etcd", "--version"], stdout=subprocess.PIPE, text=True, check=True).stdout.splitlines()[0].replace(" Version:", "")


def main():
    parser = words(__doc__, "program")
    parser.add_argument("--replicas", type=int, default=50)
    given = parser.parse_args()
    # so that nothing that was started stays
    signal.signal(signal.SIGTERM, lambda *_: sys.exit("ended by a signal"))
    tell(lines_of(given.program, given.replicas), "bench/fleet.py", given.write)


main()
