"""Changes that are published in etcd: parts of tests/replication.py."""
import base64
import os
import random
import shutil
import signal
import subprocess
import uuid

from fleet_bench import PREFIX, Writer, copied, fleet, is_as_of
from regtx.fleet import etcd, pauses
from regtx.fleet.etcd import Access, Etcd
from regtx.fleet.etcd_log import EtcdLog
from regtx.fleet.records import Head, Published
from scratch import are_there, expect
from served_store import ID, SECONDS, transaction, until

ANEW = "Begin it anew by `regtx-replicate begin`, from a backup or a snapshot"
# values of a change whose text is longer than one request of etcd may be; and of one that is in parts by a little
LARGE, LITTLE = [1_000_000, 900_000, 1_048_576, 1_000_000], [140_000]


def encode(text):
    return base64.b64encode(text.encode()).decode()


class Place:
    """A served store, nodes of etcd, and a copy of the store from before any change."""

    def __init__(self, it, store, seed, **given):
        self.it, self.store, self.cluster = it, store, it.cluster(**given)
        self.backup = copied(store.store, it.at("backup"))
        self.started, self.target = store.start(), self.cluster.target()
        self.is_ready = until(self.cluster.is_ready)
        self.writer = Writer(store, random.Random(seed))

    def publisher(self, *words, **given):
        publisher = self.it.publisher(self.store, self.target, *words, **given)
        publisher.says("publishes store")
        return publisher

    def replica(self, name, *words):
        """A replica that follows, from before any change."""
        folder = self.it.at(name)
        self.it.begun(folder, self.backup, self.target)
        return self.it.subscriber(folder, self.target, "--idle", 1, "--report", 0.1, *words)

    def have_come(self, number, *names):
        """Whether replicas have told this number."""
        return until(lambda: {self.it.reported(self.target).get(name) for name in names} == {number})

    def keys(self, what):
        """The names of keys in etcd below the store's."""
        told = self.cluster.nodes[0].ask("/v3/kv/range", {"key": encode(f"{PREFIX}/{ID}/{what}"), "keys_only": True,
                                                          "range_end": encode(f"{PREFIX}/{ID}/{what}~")}, 10)
        return [base64.b64decode(kv["key"]).decode().split("/", 4)[4] for kv in told.get("kvs", [])]

    def head(self):
        """The first number and the last one."""
        words = next(line for line in self.it.status(self.target).splitlines() if line.startswith("changes ")).split()
        return int(words[1]) - 1, int(words[3])


def place(it):
    os.mkdir(it.at("backups"))
    return it.served("-s", it.at("1", "store"), hives=2, start=False, backups=it.at("backups"))


def publishers(bench):
    """Two publishers of one store: each change once. Of two stores with one id the second one is refused at the first change that differs."""
    with fleet(bench) as it, place(it) as store:
        here = Place(it, store, 20_271)
        yield expect("etcd", here.is_ready, True)
        both = [here.publisher(name=name) for name in ("first", "second")]
        here.replica("replica")
        yield expect("changes", here.writer.write(100), ("flushed 100", 0))
        yield expect("all came", here.have_come(100, "replica"), True)
        both[0].kill()
        here.writer.write(50)
        yield expect("by the other one", here.have_come(150, "replica"), True) and both[1].text()
        numbers = [int(key.rpartition("/")[2]) for key in here.keys("changes/")]
        yield expect("each once", numbers, list(range(1, 151)))
        yield expect("the end", both[1].end(), 0)
        with it.served("-s", it.at("2", "store"), hives=2, start=False) as other:
            yield from divergent(here, other)


def divergent(here, other):
    """A copy of the store goes on with writes of its own."""
    here.store.end()
    shutil.rmtree(other.store)
    copied(here.store.store, other.store)
    for store, words in [(here.store, "set 0:Count w 4 00000000"), (other, "set 0:Count w 4 01000000")]:
        store.start()
        publisher = here.it.publisher(store, here.target, name=f"of-{words[-8:]}")
        yield expect("it goes on after 150", publisher.says("after 150"), True)
        if store is other:
            # it has followed before the other one writes
            with here.store.lines() as client:
                client.ask("set 0:Count w 4 00000000", "flush")
            yield expect("the first one's", until(lambda: here.head() == (0, 151)), True)
            with other.lines() as client:
                client.ask(words, "flush")
            yield expect("the second one's", publisher.wait(), 1)
            yield expect("why", "change 151 is published with other contents" in publisher.text(), True)


def stopped(bench):
    """Nodes that are stopped, and don't answer: one of three, the leader, hinders nobody; of two nothing is lost."""
    # so that it is soon over: what is forked from here has these
    before = etcd.STEP_SECONDS, pauses.LONGEST_PAUSE
    etcd.STEP_SECONDS, pauses.LONGEST_PAUSE = 1.5, 2.0
    try:
        yield from without_nodes(bench)
    finally:
        etcd.STEP_SECONDS, pauses.LONGEST_PAUSE = before


def without_nodes(bench):
    with fleet(bench) as it, place(it) as store:
        here = Place(it, store, 20_272)
        here.publisher()
        names = ["a", "b", "c"]
        replicas = [here.replica(name) for name in names]
        here.writer.write(10)
        yield expect("at first", here.have_come(10, *names), True)
        total = 10
        for turn in range(2):
            node = here.cluster.leader()
            node.signal(signal.SIGSTOP)
            here.target = here.cluster.target([each for each in here.cluster.nodes if each is not node])
            here.writer.write(20)
            total += 20
            yield expect(f"{turn}: without the leader", here.have_come(total, *names), True)
            node.signal(signal.SIGCONT)
            here.target = here.cluster.target()
            here.writer.write(5)
            total += 5
            yield expect(f"{turn}: with it again", here.have_come(total, *names), True)
        two = here.cluster.nodes[:2]
        for node in two:
            node.signal(signal.SIGSTOP)
        here.writer.write(20)
        yield expect("without two nobody ends", [worker.is_running() for worker in it.workers[:1] + replicas], [True] * 4)
        yield expect("it says so", it.workers[0].says("trying again"), True)
        for node in two:
            node.signal(signal.SIGCONT)
        yield expect("all came", here.have_come(total + 20, *names), True)
        yield expect("the ends", [worker.end() for worker in replicas], [0] * 3)
        for name in names:
            yield is_as_of(it, it.at(name), total + 20, here.writer)


def behind(bench):
    """A replica that comes back late: it catches up, or begins anew, if what it lacks isn't there any more."""
    with fleet(bench) as it, place(it) as store:
        here = Place(it, store, 20_273)
        publisher = here.publisher("--keep", 2000, "--look", 0.1)
        replicas = [here.replica(name) for name in ("late", "later")]
        here.writer.write(10)
        yield expect("at first", here.have_come(10, "late", "later"), True)
        yield expect("they go away", [each.end() for each in replicas], [0, 0])
        for _ in range(10):
            here.writer.write(150)
        yield expect("1,500 changes later", until(lambda: here.head() == (0, 1510)), True)
        replicas[0].start()
        yield expect("it catches up", here.have_come(1510, "late"), True)
        yield expect("its end", replicas[0].end(), 0)
        yield is_as_of(it, it.at("late"), 1510, here.writer)
        yield expect("the publisher", publisher.end(), 0)
        publisher = here.publisher("--keep", 100, "--look", 0.1, "--snapshots", it.at("backups"), "--snapshot-every", 1000, name="keeps-less")
        here.writer.write(50)
        yield expect("100 are kept", until(lambda: here.head()[1] == 1560 and here.head()[0] >= 1450), True)
        yield expect("those that are there", len(here.keys("changes/")) == 1560 - here.head()[0], True)
        replicas[1].start()
        yield expect("it is behind", (replicas[1].wait(), ANEW in replicas[1].text()), (1, True))
        yield expect("nothing is applied", it.check(it.at("later")), 10)
        anew = it.subscriber(it.at("later"), here.target, "--report", 0.1, "--idle", 1, "--snapshots", it.at("backups"), name="anew")
        yield expect("it begins anew", anew.says("replica anew at"), True)
        here.writer.write(10)
        yield expect("and goes on", here.have_come(1570, "anew"), True)
        yield expect("the ends", (anew.end(), publisher.end()), (0, 0))
        yield is_as_of(it, it.at("later"), 1570, here.writer)


def trimmed(bench):
    """Changes that a snapshot and each replica have are removed; those that the slowest one lacks stay, up to the limit."""
    with fleet(bench) as it, place(it) as store:
        here = Place(it, store, 20_274)
        publisher = here.publisher("--look", 0.05, "--compact-etcd", "--snapshots", it.at("backups"), "--snapshot-every", 20)
        replicas = [here.replica(name) for name in ("slow", "fast")]
        here.writer.write(10)
        yield expect("at first", here.have_come(10, "slow", "fast"), True)
        yield expect("the slow one stops", replicas[0].end(), 0)

        def written():
            # a look comes with changes alone
            here.writer.write(1)
            return here.writer.number
        here.writer.write(40)
        until(lambda: written() and "snapshot at" in publisher.text() and here.head()[0] > 0)
        for _ in range(5):
            written()
        yield expect("what the slow one lacks is there", here.head()[0] <= 10, True)
        replicas[0].start()
        yield expect("it has all", here.have_come(here.writer.number, "slow", "fast"), True)
        yield expect("more goes", until(lambda: written() and here.head()[0] >= 20), True)
        yield expect("and the revisions", until(lambda: here.have_come(written(), "slow", "fast")), True)
        answer = here.cluster.nodes[0].ask("/v3/kv/range", {"key": "YQ==", "revision": "2"})
        yield expect("an old revision", "compacted" in str(answer), True)
        yield expect("the ends", [each.end() for each in (publisher, *replicas)], [0, 0, 0])
        for name in ("slow", "fast"):
            yield is_as_of(it, it.at(name), here.writer.number, here.writer)


def large(bench):
    """Changes whose text is longer than a request of etcd may be."""
    with fleet(bench) as it, place(it) as store:
        here = Place(it, store, 20_275)
        publisher = here.publisher("--keep", 1, "--look", 0.05)
        replica = here.replica("replica")
        with store.lines() as client:
            for number, sizes in enumerate([LARGE, LITTLE], 1):
                writes = [f"set 0: v{at} 3 {bytes([at]).hex() * size}" for at, size in enumerate(sizes)]
                yield expect("commit", client.ask(*transaction(uuid.UUID(int=number), *writes))[-2], f"committed {number}")
                yield expect("it comes", here.have_come(number, "replica"), True)
                if number == 1:
                    yield expect("in parts", len(here.keys("parts/")), 8)
            client.ask("set 0: w 4 00000000", "flush")
        yield expect("a small one after it", here.have_come(3, "replica"), True)
        yield expect("parts go too", until(lambda: [int(key.split("/")[-2]) for key in here.keys("parts/")] in ([], [2])), True)
        yield expect("the ends", (publisher.end(), replica.end(), store.end()[0]), (0, 0, 0))
        yield expect("the store itself", it.exported(it.at("replica")) == it.exported(store.store), True)


def certificates(home):
    """An authority, a certificate of it for this machine, and two for clients, one of which has a CommonName."""
    def openssl(*words):
        subprocess.run(["openssl", *words], cwd=home, check=True, capture_output=True, timeout=SECONDS)
    key = ["-newkey", "ec", "-pkeyopt", "ec_paramgen_curve:P-256", "-nodes"]
    openssl("req", "-x509", *key, "-keyout", "ca.key", "-out", "ca.pem", "-days", "2", "-subj", "/CN=fleet")
    with open(os.path.join(home, "names"), "w", encoding="ascii") as file:
        file.write("subjectAltName=IP:127.0.0.1\n")
    for name, subject in [("node", "/CN=node"), ("client", "/O=fleet"), ("named", "/CN=machine")]:
        openssl("req", *key, "-keyout", f"{name}.key", "-out", f"{name}.csr", "-subj", subject)
        openssl("x509", "-req", "-in", f"{name}.csr", "-CA", "ca.pem", "-CAkey", "ca.key", "-CAcreateserial", "-out", f"{name}.pem",
                "-days", "2", "-extfile", "names")
    return os.path.join(home, "ca.pem")


def with_certificate(home, name):
    return ["--cacert", os.path.join(home, "ca.pem"), "--cert", os.path.join(home, f"{name}.pem"), "--key", os.path.join(home, f"{name}.key")]


def users(bench):
    """TLS, certificates of clients, and users with roles, as etcd has them."""
    if not are_there("users", "openssl", "etcdctl") == ["openssl", "etcdctl"]:
        return
    authority = certificates(bench.home)
    options = ["--cert-file", bench.at("node.pem"), "--key-file", bench.at("node.key"), "--client-cert-auth", "--trusted-ca-file", authority]
    tls = with_certificate(bench.home, "client")
    with fleet(bench) as it, place(it) as store:
        cluster = it.cluster(count=1, scheme="https", options=options)
        node = cluster.nodes[0]

        def etcdctl(*words, user=()):
            given = ["etcdctl", "--endpoints", f"https://127.0.0.1:{node.port}", *tls, *user, *words]
            return subprocess.run(given, capture_output=True, text=True, check=False, timeout=SECONDS, env={**os.environ, "ETCDCTL_API": "3"})
        yield expect("etcd", until(lambda: etcdctl("get", "a").returncode == 0), True)
        for name in ("root", "publisher", "reader", "machine"):
            etcdctl("user", "add", f"{name}:of-{name}")
            etcdctl("role", "add", name)
            etcdctl("user", "grant-role", name, name)
        grants = [("publisher", "readwrite", f"{PREFIX}/"), ("reader", "read", f"{PREFIX}/"), ("machine", "read", f"{PREFIX}/"),
                  ("machine", "readwrite", f"{PREFIX}/{ID}/replicas/")]
        for name, how, prefix in grants:
            etcdctl("role", "grant-permission", name, how, prefix, "--prefix=true")
        yield expect("users", etcdctl("auth", "enable").returncode, 0)
        yield from as_users(it, store, cluster, tls)


def as_users(it, store, cluster, tls):
    backup, target = copied(store.store, it.at("backup")), cluster.target()
    store.start()
    writer = Writer(store, random.Random(20_276))

    def user(name, password=None, by=None):
        path = it.at(f"password-{name}-{password}")
        with open(path, "w", encoding="ascii") as file:
            file.write(f"{password or f'of-{name}'}\n")
        return [*(by or tls), "--user", name, "--password-file", path]
    for title, words, why in [
            ("a wrong password", user("publisher", "guessed"), "authentication failed"), ("no user", tls, "etcd"),
            ("a certificate with a name", user("publisher", by=with_certificate(it.home, "named")), "CommonName of client"),
            ("a user that isn't there", user("nobody"), "authentication failed"), ("a user who may not write", user("reader"), "permission denied")]:
        it_ended = it.publisher(store, target, *words, name=title.replace(" ", "-"))
        yield expect(title, (it_ended.wait(60), why in it_ended.text()), (1, True)) and it_ended.text()
    plain = it.publisher(store, target, name="without-tls")
    yield expect("without TLS", plain.says("trying again"), True)
    plain.end()
    publisher = it.publisher(store, target, *user("publisher"))
    yield expect("the publisher", publisher.says("publishes store"), True)
    replicas = []
    for name in ("machine", "reader"):
        begun = it.worker(f"begin-{name}", "begin", it.at(name), "--of", backup, "--from", target, "--program", it.program.path, *user(name))
        yield expect(f"begin, {name}", begun.wait(), 0)
        replicas.append(it.subscriber(it.at(name), target, "--idle", 1, "--report", 0.1, *user(name)))
    yield expect("one who may not tell its number says so", replicas[1].says("its number isn't told: etcd refused: etcdserver: permission denied"), True)
    writer.write(20)
    # tokens are lost with the node
    cluster.restart(cluster.nodes[0])
    writer.write(20)
    status = it.worker("status-of-users", "status", "--from", target, "--id", ID, *user("reader"))
    status.wait()

    def told():
        status.start().wait()
        return status.text().splitlines()[-1:] == ["replica machine 40"]
    yield expect("over a restart of the node", until(told), True)
    yield expect("the reader goes on", replicas[1].is_running(), True)
    until(lambda: replicas[1].end() == 0 and (it.check(it.at("reader")) == 40 or not replicas[1].start()))
    yield is_as_of(it, it.at("reader"), 40, writer)
    yield expect("the ends", (replicas[0].end(), publisher.end()), (0, 0))
    yield is_as_of(it, it.at("machine"), 40, writer)


def between(bench):
    """By the calls alone: what is written between a reading and the watch after it comes by that watch, and a number is written once."""
    with fleet(bench) as it:
        cluster = it.cluster(count=1)
        yield expect("etcd", until(cluster.is_ready), True)
        store, history = uuid.UUID(ID), uuid.UUID(int=1)
        one, other = [EtcdLog(Etcd([("127.0.0.1", cluster.nodes[0].port)], Access()), PREFIX, store) for _ in range(2)]
        head, first, second = Head(store, history, 0, 0), *(Published(n, f"change {n} 0 1 -\ncreate 0:K{n}\n") for n in (1, 2))
        yield expect("begin", (one.begin(None, head), other.begin(None, head)), (True, False))
        yield expect("read", one.read(history, 0), (head, []))
        yield expect("append", (other.append(head, [first]), one.append(head, [first])), (True, False))
        one.report("replica", 0)
        yield expect("watch", next(one.watch(history, 0, 10), None), [first])
        yield expect("append", other.append(head.to(1), [second]), True)
        yield expect("read", one.read(history, 0), (head.to(2), [first, second]))
        yield expect("trim", (one.trim(head, 1), one.trim(head.to(2), 1)), (False, True))
        yield expect("what is left", other.read(history, 0), (head.to(2).since(1), [second]))
        yield expect("nothing comes", list(one.watch(history, 2, 0.2)), [])
        for log in (one, other):
            log.close()


PARTS = [between, publishers, stopped, behind, trimmed, large, users]
