"""Publishers, replicas and nodes of etcd that tests start and kill: what the parts of tests/replication.py share."""
import http.client
import json
import os
import shutil
import signal
import socket
import subprocess
import sys
import time
from contextlib import contextmanager

from served_store import ID, SECONDS, Bench, until

TOP = os.path.dirname(os.path.dirname(os.path.abspath(__file__)))
sys.path.insert(0, os.path.join(TOP, "clients", "python"))
from regtx.fleet.command import main as replicate  # noqa: E402

PREFIX = "/fleet"
# the moment of a change is made of its number
FIRST_MOMENT, MOMENTS = 132_223_104_000_000_000, 10_000_000
NODES = 3


def moment(number):
    return FIRST_MOMENT + number * MOMENTS


def children_of(process):
    """The processes that one has started."""
    try:
        with open(f"/proc/{process}/task/{process}/children", encoding="ascii") as file:
            return [int(word) for word in file.read().split()]
    except OSError:
        return []


def kill(process, number=signal.SIGKILL):
    try:
        os.kill(process, number)
    except ProcessLookupError:
        pass


class Worker:
    """A `regtx-replicate` with these words: a process of its own, which is forked, so that its start costs little."""

    def __init__(self, bench, name, *words):
        self.words, self.log, self.process, self.status = [str(word) for word in words], bench.at(f"{name}.log"), None, None
        with open(self.log, "wb"):
            pass
        self.start()

    def start(self):
        sys.stdout.flush()
        sys.stderr.flush()
        self.status = None
        self.process = os.fork()
        if self.process:
            return self
        # only this is left of the parent: its signals and its files are not the worker's
        status = 70
        try:
            for number in (signal.SIGALRM, signal.SIGINT, signal.SIGTERM):
                signal.signal(number, signal.SIG_DFL)
            with open(os.devnull, "rb") as nothing, open(self.log, "ab") as log:
                os.dup2(nothing.fileno(), 0)
                os.dup2(log.fileno(), 1)
                os.dup2(log.fileno(), 2)
            status = replicate(self.words)
        except SystemExit as ended:
            status = ended.code
        finally:
            os._exit(status if isinstance(status, int) else 71)

    def is_running(self):
        if self.status is None:
            done, status = os.waitpid(self.process, os.WNOHANG)
            if done:
                self.status = os.waitstatus_to_exitcode(status)
        return self.status is None

    def wait(self, seconds=SECONDS):
        """Its status; None if it goes on after so long."""
        until(lambda: not self.is_running(), seconds)
        return self.status

    def kill(self, with_children=False):
        """Kills it, and also what it has started, if so asked."""
        for each in [self.process, *(children_of(self.process) if with_children else [])]:
            kill(each)
        return self.wait()

    def end(self):
        """Tells it to end; its status."""
        if self.is_running():
            kill(self.process, signal.SIGTERM)
        return self.wait()

    def text(self):
        with open(self.log, encoding="utf-8", errors="replace") as file:
            return file.read()

    def says(self, text, seconds=SECONDS):
        return until(lambda: text in self.text() or not self.is_running(), seconds) and text in self.text()


def free_ports(count):
    """Ports of the loopback that nobody listens at just now."""
    sockets = [socket.socket() for _ in range(count)]
    try:
        for each in sockets:
            each.bind(("127.0.0.1", 0))
        return [each.getsockname()[1] for each in sockets]
    finally:
        for each in sockets:
            each.close()


class Node:
    """A node of etcd."""

    def __init__(self, home, number, ports, scheme="http", options=()):
        self.name, self.port, self.peer, self.scheme = f"n{number}", ports[0], ports[1], scheme
        self.home, self.options, self.process = home, list(options), None

    def start(self, cluster):
        mine, peer = f"{self.scheme}://127.0.0.1:{self.port}", f"http://127.0.0.1:{self.peer}"
        words = ["etcd", "--name", self.name, "--data-dir", f"{self.home}/{self.name}", "--listen-client-urls", mine, "--advertise-client-urls", mine,
                 "--listen-peer-urls", peer, "--initial-advertise-peer-urls", peer, "--initial-cluster", cluster, "--logger", "zap",
                 "--heartbeat-interval", "50", "--election-timeout", "500", *self.options]
        with open(f"{self.home}/{self.name}.log", "ab") as log:
            self.process = subprocess.Popen(words, stdin=subprocess.DEVNULL, stdout=log, stderr=log)

    def ask(self, path, body, seconds=2):
        """An answer of this node; None if none came."""
        connection = http.client.HTTPConnection("127.0.0.1", self.port, timeout=seconds)
        try:
            connection.request("POST", path, json.dumps(body))
            return json.loads(connection.getresponse().read())
        except (OSError, ValueError, http.client.HTTPException):
            return None
        finally:
            connection.close()

    def signal(self, number):
        self.process.send_signal(number)

    def kill(self):
        self.process.kill()
        self.process.wait()


class Cluster:
    """Nodes of etcd."""

    def __init__(self, home, count=NODES, scheme="http", options=()):
        ports = free_ports(2 * count)
        self.nodes = [Node(home, number, ports[2 * number:2 * number + 2], scheme, options) for number in range(count)]
        self.text = ",".join(f"{node.name}=http://127.0.0.1:{node.peer}" for node in self.nodes)

    def start(self):
        for node in self.nodes:
            node.start(self.text)
        return self

    def target(self, nodes=None):
        return f"etcd://{','.join(f'127.0.0.1:{node.port}' for node in nodes or self.nodes)}{PREFIX}"

    def leader(self):
        """The node that leads, as some node says; None if none does."""
        told = {node: node.ask("/v3/maintenance/status", {}, 0.5) for node in self.nodes}
        named = {answer["header"]["member_id"]: node for node, answer in told.items() if answer and "header" in answer}
        return next((named[answer["leader"]] for answer in told.values() if answer and answer.get("leader") in named), None)

    def is_ready(self):
        return self.leader() is not None and all(node.ask("/v3/kv/range", {"key": "YQ=="}, 0.5) for node in self.nodes)

    def restart(self, node):
        node.kill()
        node.start(self.text)

    def close(self):
        for node in self.nodes:
            if node.process and node.process.poll() is None:
                node.process.kill()
                node.process.wait()


class Fleet(Bench):
    """Where a part publishes a store and keeps replicas of it. Whatever happens, nothing that it started stays."""

    def __init__(self, *given):
        super().__init__(*given)
        self.workers, self.clusters = [], []

    def cluster(self, **given):
        home = self.at(f"etcd{len(self.clusters)}")
        os.mkdir(home)
        self.clusters.append(Cluster(home, **given))
        self.clusters[-1].start()
        return self.clusters[-1]

    def worker(self, name, *words):
        self.workers.append(Worker(self, name, *words))
        return self.workers[-1]

    def publisher(self, it, target, *words, name="publisher"):
        return self.worker(name, "publish", it.store, "--to", target, "--program", self.program.path, *words)

    def subscriber(self, folder, target, *words, name=None):
        name = name or os.path.basename(folder)
        return self.worker(name, "subscribe", folder, "--from", target, "--program", self.program.path, "--name", name, *words)

    def begun(self, folder, backup, target):
        """Makes a replica of a backup: its status, and what is told."""
        it = self.worker(f"begin-{os.path.basename(folder)}-{len(self.workers)}", "begin", folder, "--of", backup, "--from", target,
                         "--program", self.program.path)
        return it.wait(), it.text()

    def status(self, target):
        it = self.worker(f"status{len(self.workers)}", "status", "--from", target, "--id", ID)
        it.wait()
        return it.text()

    def reported(self, target):
        """Which number each replica has told."""
        lines = [line.split() for line in self.status(target).splitlines()]
        return {words[1]: int(words[2]) for words in lines if words[0] == "replica"}

    def check(self, folder):
        """The number of a store at rest; None if it isn't whole."""
        ran = self.ran("check", folder)
        lines = dict(line.split(" ", 1) for line in ran.splitlines() if " " in line)
        return int(lines["number"]) if ran.endswith("whole\n") or "next run" in ran else None

    def ran(self, *words):
        """What the program prints, once nobody else has the store."""
        return subprocess.run([self.program.path, "wait", "60", *words], stdout=subprocess.PIPE, stderr=subprocess.DEVNULL, text=True,
                              timeout=SECONDS, stdin=subprocess.DEVNULL).stdout

    def exported(self, folder):
        return self.ran("export-tsv", folder)

    def close(self):
        for worker in self.workers:
            if worker.process and worker.is_running():
                worker.kill(True)
        for cluster in self.clusters:
            cluster.close()


@contextmanager
def fleet(bench):
    it = Fleet(bench.program, bench.broker, bench.library, bench.home, bench.is_full)
    try:
        yield it
    finally:
        it.close()


class Writer:
    """Makes changes in a served store, each of which is known beforehand. `trees[N]` is what its hives have after change N."""

    def __init__(self, it, chance):
        self.lines, self.chance, self.trees = it.lines(), chance, [{"0:": {}, "1:": {}}]
        # how many replies are to come, and those that were refusals
        self.asked, self.refused = 0, []

    @property
    def number(self):
        return len(self.trees) - 1

    def _next(self):
        """The requests of the next change, and the tree after it."""
        number, tree = self.number + 1, {key: dict(values) for key, values in self.trees[-1].items()}
        count, key, name = f"4 {number.to_bytes(4, 'little').hex()}", f"0:K{number % 7}", f"v{number % 5}"
        data = self.chance.randbytes(self.chance.randrange(1, 200)).hex()
        requests = []
        if number == 1:
            requests, tree["0:Count"], tree["1:Count"] = ["create 0:Count", "create 1:Count"], {}, {}
        elif number % 4 == 0:
            requests = [f"delete {key}" if key in tree else f"create {key}"]
            if key in tree:
                del tree[key]
            else:
                tree[key] = {}
        elif number % 4 == 1:
            requests, tree["1:Count"][name] = [f"set 1:Count {name} 3 {data}"], ("REG_BINARY", data)
        elif number % 4 == 3 and name in tree["1:Count"]:
            requests = [f"unset 1:Count {name}"]
            del tree["1:Count"][name]
        if number % 4 != 2:
            requests.append(f"set 1:Count n {count}")
            tree["1:Count"]["n"] = ("REG_DWORD", count[2:])
        requests.append(f"set 0:Count n {count}")
        tree["0:Count"]["n"] = ("REG_DWORD", count[2:])
        return requests, tree

    def send(self, count):
        """Sends so many changes, once those before are answered."""
        self.read()
        for _ in range(count):
            requests, tree = self._next()
            self.trees.append(tree)
            if len(requests) > 1:
                requests = [f"begin t {self.unit(self.number)}", *(f"tx t {each}" for each in requests), "commit t", "close t"]
            self.lines.send(f"at {moment(self.number)}", *requests)
            self.asked += 1 + len(requests)

    def read(self):
        for _ in range(self.asked):
            reply = self.lines.read()
            if reply is None or reply.startswith(("E", "line ")):
                self.refused.append(reply)
        self.asked = 0

    @staticmethod
    def unit(number):
        return f"00000000-0000-4000-8000-{number:012x}"

    def settle(self):
        """The reply to a flush, and how many were refusals."""
        self.read()
        return self.lines.ask("flush"), len(self.refused)

    def write(self, count):
        self.send(count)
        return self.settle()


def tree_of(text):
    """The keys and values of a store's text, as `export-tsv` prints it; and the moments of keys."""
    keys, moments = {}, {}
    for line in text.splitlines():
        key, time_of, name, kind, data, *_ = [*line.split("\t"), "", "", "", ""]
        values = keys.setdefault(key, {})
        moments[key] = int(time_of)
        if kind:
            values[name] = (kind, data)
    return keys, moments


def is_as_of(fleet_bench, folder, number, writer):
    """What is wrong with a replica that says that it is at a number; None if nothing is."""
    keys, moments = tree_of(fleet_bench.exported(folder))
    if keys != writer.trees[number]:
        return f"at {number} it has {keys}"
    if number and moments["0:Count"] != moment(number):
        return f"at {number} a key is of {moments['0:Count']}"
    return None


def copied(source, target):
    shutil.copytree(source, target)
    return target


def pause(chance, seconds):
    time.sleep(chance.random() * seconds)
