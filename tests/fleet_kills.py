"""Publishers, replicas and nodes of etcd that are killed at random: a part of tests/replication.py."""
import random

from fleet_bench import Writer, copied, fleet, is_as_of, pause
from scratch import expect
from served_store import until

REPLICAS, KILLS, CHANGES = 4, 200, 5
# of 20 kills, these are of the publisher and of a node, and the others of a replica
OF_PUBLISHER, OF_NODE = range(0, 7), range(7, 9)
CATCH_UP_SECONDS = 120


class Replicas:
    """Replicas that are killed, and what each of them was at last."""

    def __init__(self, it, target, backup):
        self.it, self.folders = it, [it.at(f"replica{number}") for number in range(REPLICAS)]
        self.begun = [it.begun(folder, backup, target) for folder in self.folders]
        self.numbers = [0] * REPLICAS
        # the last one is served to others
        served = ["--serve", it.at("readers"), "--broker", it.broker]
        self.workers = [it.subscriber(folder, target, "--idle", 1, "--report", 0.2, *(served if number == REPLICAS - 1 else []))
                        for number, folder in enumerate(self.folders)]

    def kill(self, chance, writer):
        """Kills one, looks at what it is, and starts it again; what is wrong."""
        number = chance.randrange(REPLICAS)
        self.workers[number].kill(chance.random() < 0.5)
        # it has to be at rest, which takes a server some moments
        found = self.it.check(self.folders[number])
        if found is None:
            return f"replica {number} isn't whole"
        if found < self.numbers[number]:
            return f"replica {number} fell from {self.numbers[number]} to {found}"
        self.numbers[number] = found
        if found > writer.number:
            return f"replica {number} has {found} changes of {writer.number}"
        wrong = is_as_of(self.it, self.folders[number], found, writer)
        self.workers[number].start()
        return wrong and f"replica {number}: {wrong}"


def killed(bench):
    """Publisher, replicas and nodes are killed while changes come. Each replica is as of one number, which never falls."""
    chance = random.Random(20_261)
    with fleet(bench) as it, it.served("-s", it.at("1", "store"), hives=2, start=False) as store:
        cluster = it.cluster()
        yield expect("etcd", until(cluster.is_ready), True)
        # before any change
        backup = copied(store.store, it.at("backup"))
        yield expect("the start", store.start(), "ready\n")
        target, writer = cluster.target(), Writer(store, chance)
        publisher = it.publisher(store, target, "--keep", 1_000_000)
        yield expect("it begins", publisher.says("publishes store"), True)
        replicas = Replicas(it, target, backup)
        yield expect("replicas", [status for status, _ in replicas.begun], [0] * REPLICAS)
        for turn in range(KILLS):
            writer.send(CHANGES)
            pause(chance, 0.1)
            wrong = None
            if turn % 20 in OF_PUBLISHER:
                publisher.kill()
                publisher.start()
            elif turn % 20 in OF_NODE:
                cluster.restart(cluster.leader() or chance.choice(cluster.nodes))
            else:
                wrong = replicas.kill(chance, writer)
            yield wrong and f"kill {turn}: {wrong}"
        yield from caught_up(it, store, writer, publisher, replicas, target)


def caught_up(it, store, writer, publisher, replicas, target):
    """At the end all come to the last number, and are the store itself."""
    last = KILLS * CHANGES
    yield expect("the writer", writer.settle(), (f"flushed {last}", 0))
    wanted = {f"replica{number}": last for number in range(REPLICAS)}
    until(lambda: it.reported(target) == wanted, CATCH_UP_SECONDS)
    told = "".join(worker.text()[-300:] for worker in replicas.workers if worker)
    yield expect("all came", it.reported(target), wanted) and f"{it.reported(target)}: {told}"
    for number, worker in enumerate(replicas.workers):
        yield expect(f"the end of replica {number}", worker.end(), 0) and worker.text()[-400:]
    yield expect("the end of the publisher", publisher.end(), 0) and publisher.text()[-400:]
    writer.lines.close()
    yield expect("the stop", store.end(), (0, "", ""))
    text = it.exported(store.store)
    for number, folder in enumerate(replicas.folders):
        yield expect(f"replica {number} at the end", it.check(folder), last)
        yield is_as_of(it, folder, last, writer)
        yield expect(f"replica {number} is the store, moments too", it.exported(folder) == text, True)


PARTS = [killed]
