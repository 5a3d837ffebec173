"""Changes that are published in a folder, and what replicas refuse: parts of tests/replication.py that need no etcd."""
import os
import random
import shutil
import signal
import subprocess
import uuid

from fleet_bench import Writer, copied, fleet, is_as_of, kill
from regtx.fleet import replica
from scratch import expect
from served_store import ID, SECONDS, Lines, until

OTHER = "99112233-4455-6677-8899-aabbccddeeff"
ANEW = "Begin it anew by `regtx-replicate begin`, from a backup or a snapshot"
# lines that a reader may send with their replies, and those that are refused; `{}` is the number of the last change
READS = [("keys 1:", "keys 1 Count"), ("get 0:Count n", "value 4 05000000"), ("kept {unit}", "E2 NotFound"), ("flush", "flushed 5"),
         ("at 7", "ok"), ("get 0:No v", "E2 NotFound")]
WRITES = ["create 0:X", "set 0:Count n 4 00000000", "unset 0:Count n", "delete 0:Count", "begin t {unit}", "tx t create 0:X", "commit t", "backup b",
          "session 1", "end 0", "fold", "nonsense"]


class Place:
    """A served store, a folder for its changes, and a copy of it from before any change."""

    def __init__(self, it, store, seed):
        self.it, self.store = it, store
        self.target, self.backup = it.at("changes"), copied(store.store, it.at("backup"))
        os.mkdir(self.target)
        self.started = store.start()
        self.writer = Writer(store, random.Random(seed))

    def publisher(self, *words, **given):
        publisher = self.it.publisher(self.store, self.target, *words, **given)
        publisher.says("publishes store")
        return publisher

    def published(self, *words):
        """Publishes what there is, once: the status and what is told."""
        publisher = self.it.publisher(self.store, self.target, "--once", *words, name=f"once{len(self.it.workers)}")
        return publisher.wait(), publisher.text()

    def applied(self, folder, *words):
        """Applies what there is, once."""
        subscriber = self.it.subscriber(folder, self.target, "--once", *words, name=f"once{len(self.it.workers)}")
        return subscriber.wait(), subscriber.text()

    def begun(self, name):
        folder = self.it.at(name)
        return folder, self.it.begun(folder, self.backup, self.target)

    def history(self):
        """The folder of the present history."""
        with open(os.path.join(self.target, ID, "head"), encoding="ascii") as file:
            return os.path.join(self.target, ID, file.read().split()[3])

    def change(self, number):
        return os.path.join(self.history(), f"{number:020}.change")


def place(it):
    """A place whose store is served with a folder for backups."""
    os.mkdir(it.at("backups"))
    return it.served("-s", it.at("1", "store"), hives=2, start=False, backups=it.at("backups"))


def last(text):
    return text.splitlines()[-1] if text else ""


def folders(bench):
    """Each change is a file with the text of `follow`; replicas come by, wait at a gap, and go on."""
    with fleet(bench) as it, place(it) as store:
        here = Place(it, store, 20_262)
        yield expect("nothing is published", (here.begun("early")[1]), (1, f"regtx-replicate: nothing of store {ID} is published there: begin with "
                                                                           "`regtx-replicate publish`\n"))
        yield expect("once", here.published(), (0, f"regtx-replicate: publishes store {ID} after 0\npublished 0\n"))
        folder, told = here.begun("replica")
        yield expect("begin", told, (0, "begun 0\n"))
        yield expect("changes", here.writer.write(40), ("flushed 40", 0))
        yield expect("once more", here.published(), (0, f"regtx-replicate: publishes store {ID} after 0\npublished 40\n"))
        with store.lines() as client:
            client.send("follow 0")
            for number in (1, 2, 3, 40):
                with open(here.change(number), encoding="ascii") as file:
                    text = file.read()
                if number < 4:
                    yield expect(f"change {number}", [client.read() for _ in range(text.count("\n"))], text.splitlines())
                yield expect(f"its head {number}", text.split(" ")[:2], ["change", str(number)])
        # the history of a run is emptied several times
        before, replica.MOST_HISTORY = replica.MOST_HISTORY, 7
        yield expect("applied", here.applied(folder), (0, f"regtx-replicate: replica of store {ID} at 0\napplied 40\n"))
        replica.MOST_HISTORY = before
        yield is_as_of(it, folder, 40, here.writer)
        yield expect("the number", it.check(folder), 40)
        yield from at_gaps(here, folder)
        publisher = here.publisher()
        yield expect("the end", (publisher.end(), here.writer.lines.close(), store.end()), (0, None, (0, "", "")))
        yield expect("the store itself", it.exported(folder) == it.exported(store.store), True)


def at_gaps(here, folder):
    """A change that hasn't come, or came in part, is waited for."""
    here.writer.write(20)
    here.published()
    aside = here.it.at("aside")
    os.rename(here.change(50), aside)
    subscriber = here.it.subscriber(folder, here.target, "--idle", 1)
    yield expect("it waits", subscriber.says("change 50 of 60 isn't there yet"), True)
    yield expect("at the gap", subscriber.end(), 0)
    yield expect("up to it", here.it.check(folder), 49)
    yield is_as_of(here.it, folder, 49, here.writer)
    with open(aside, "rb") as file, open(here.change(50), "wb") as half:
        half.write(file.read()[:-3])
    subscriber.start()
    yield expect("a part", subscriber.says("isn't whole yet"), True)
    os.rename(aside, here.change(50))
    yield expect("the end", (subscriber.end(), here.applied(folder)[0]), (0, 0))
    yield expect("all", here.it.check(folder), 60)
    yield is_as_of(here.it, folder, 60, here.writer)


def refused(bench):
    """What isn't the change of its number, its store or its form is refused, and nothing of it is applied."""
    with fleet(bench) as it, place(it) as store:
        here = Place(it, store, 20_263)
        here.published()
        folder, _ = here.begun("replica")
        here.writer.write(10)
        here.published()
        here.applied(folder)
        here.writer.write(3)
        here.published()
        path = here.change(11)
        with open(path, encoding="ascii") as file:
            text = file.read()
        head, rest = text.split("\n", 1)
        words = head.split(" ")
        for title, spoiled, why in [
                ("another number", text.replace("change 11 ", "change 12 ", 1), "isn't that"),
                ("no change at all", "hello 1\n1\n", "isn't whole yet"),
                ("a line that is no write", f"{' '.join(words[:3])} 1 -\nbegin t {ID}\n", "has a line that is no write"),
                ("two blanks", f"{' '.join(words[:3])} 1 -\ncreate  0:A\n", "has a line that is no write"),
                ("a moment past 64 bits", f"change 11 99999999999999999999 1 -\ncreate 0:A\n", "isn't that"),
                ("more lines than it says", f"{head}\n{rest}create 0:More\n", "isn't that"),
                ("a key that isn't there", f"{' '.join(words[:3])} 1 -\ndelete 0:Nowhere\n", "can't be made"),
        ]:
            with open(path, "w", encoding="ascii") as file:
                file.write(spoiled)
            subscriber = it.subscriber(folder, here.target, "--idle", 1, name=f"spoiled{len(it.workers)}")
            yield expect(title, subscriber.says(why), True) and f"{title}: {subscriber.text()}"
            subscriber.end()
            yield expect(f"{title}: nothing is applied", it.check(folder), 10)
        with open(path, "w", encoding="ascii") as file:
            file.write(text)
        yield from other_heads(here, folder)
        yield expect("mended", here.applied(folder)[0], 0)
        yield is_as_of(it, folder, 13, here.writer)


def other_heads(here, folder):
    """A head of another store, another form, another history; and one that isn't whole."""
    path = os.path.join(here.target, ID, "head")
    with open(path, encoding="ascii") as file:
        text = file.read()
    for title, spoiled, why in [
            ("another store", text.replace(ID, OTHER, 1), f"is of store {OTHER}"), ("another form", text.replace("fleet 1 ", "fleet 2 ", 1), "has form 2"),
            ("another history", text.replace(text.split()[3], str(uuid.UUID(int=7))), ANEW), ("half a head", text[:-2], "isn't whole yet"),
            ("no head", "hello\n", "isn't the head of a history"), ("changes that are gone", text.replace(" 0 13\n", " 11 13\n"), ANEW)]:
        with open(path, "w", encoding="ascii") as file:
            file.write(spoiled)
        subscriber = here.it.subscriber(folder, here.target, "--idle", 1, name=f"head{len(here.it.workers)}")
        yield expect(title, subscriber.says(why), True) and f"{title}: {subscriber.text()}"
        subscriber.end()
        yield expect(f"{title}: nothing is applied", here.it.check(folder), 10)
    with open(path, "w", encoding="ascii") as file:
        file.write(text)


def at_rest(bench):
    """A server that is killed: what it hadn't told is published from the journal. After an orderly end nothing is kept there."""
    with fleet(bench) as it, place(it) as store:
        here = Place(it, store, 20_264)
        here.published()
        folder, _ = here.begun("replica")
        here.writer.write(30)
        store.kill_program()
        yield expect("at rest", here.published(), (0, f"regtx-replicate: publishes store {ID} after 0\npublished 30\n"))
        yield expect("applied", here.applied(folder)[0], 0)
        yield is_as_of(it, folder, 30, here.writer)
        yield expect("the start", store.start(), "ready\n")
        here.writer.lines = store.lines()
        here.writer.write(5)
        here.writer.lines.close()
        yield expect("the stop", store.end(), (0, "", ""))
        status, told = here.published()
        yield expect("after an orderly end", (status, "changes 31 to 35 aren't kept by the store any more" in told), (1, True))
        yield expect("the start", store.start(), "ready\n")
        status, told = here.published()
        yield expect("served", (status, "changes 31 to 35 aren't kept by the store any more" in told), (1, True))
        yield from leapt(here, folder)


def leapt(here, folder):
    """A snapshot in the place of changes that aren't kept: who is behind it begins anew."""
    it = here.it
    here.writer.lines = here.store.lines()
    publisher = here.publisher("--snapshots", it.at("backups"))
    yield expect("a snapshot", publisher.says("snapshot at 35"), True)
    here.writer.write(5)
    yield expect("it goes on", until(lambda: "changes 36 to 40" in it.status(here.target)), True)
    status, told = here.applied(folder)
    yield expect("behind", (status, last(told)), (1, f"regtx-replicate: this replica is at 30, and changes after 35 alone are published. {ANEW}"))
    yield expect("nothing is applied", it.check(folder), 30)
    status, told = it.begun(it.at("late"), here.backup, here.target)
    yield expect("a backup that is behind", (status, "the copy is at 0, and changes after 35 alone are published" in told), (1, True))
    yield expect("no replica is made of it", os.path.exists(it.at("late")), False)
    status, told = here.applied(folder, "--snapshots", it.at("backups"))
    yield expect("anew", (status, last(told)), (0, "applied 40"))
    yield is_as_of(it, folder, 40, here.writer)
    yield expect("what was before", it.check(f"{folder}.before"), 30)
    new = it.at("new")
    status, told = here.applied(new, "--snapshots", it.at("backups"), "--id", ID)
    yield expect("a machine that is new", (status, last(told)), (0, "applied 40"))
    yield expect("is the same", it.exported(new) == it.exported(folder), True)
    yield expect("the end", publisher.end(), 0)


def restored(bench):
    """A store that was put back to a backup: nothing of it is published until a new history is begun, and its replicas begin anew."""
    with fleet(bench) as it, place(it) as store:
        here = Place(it, store, 20_265)
        here.published()
        folder, _ = here.begun("replica")
        here.writer.write(12)
        here.published()
        here.applied(folder)
        here.writer.lines.close()
        store.end()
        shutil.rmtree(store.store)
        copied(here.backup, store.store)
        store.start()
        status, told = here.published()
        yield expect("fewer changes", (status, "the store has 0 changes, and 12 are published: it was restored" in told), (1, True))
        writer = Writer(store, random.Random(7))
        # other units of work than those that are published
        writer.unit = lambda number: str(uuid.UUID(int=number))
        writer.write(20)
        status, told = here.published()
        yield expect("other changes", (status, "the store hasn't got change" in told), (1, True))
        status, told = here.published("--anew", "--snapshots", it.at("backups"))
        yield expect("a new history", (status, last(told)), (0, "published 20"))
        histories = [name for name in os.listdir(os.path.join(here.target, ID)) if os.path.isdir(os.path.join(here.target, ID, name))]
        yield expect("the old one goes", histories, [os.path.basename(here.history())])
        status, told = here.applied(folder)
        yield expect("a replica of the old one", (status, last(told)), (1, f"regtx-replicate: the store was restored, and its numbers began anew. {ANEW}"))
        yield expect("nothing is applied", it.check(folder), 12)
        status, told = here.applied(folder, "--snapshots", it.at("backups"))
        yield expect("anew", (status, last(told)), (0, "applied 20"))
        yield is_as_of(it, folder, 20, writer)
        # a copy of the old store, which is beyond where the new history began, has the same numbers and other changes
        status, told = it.begun(it.at("wrong"), f"{folder}.before", here.target)
        yield expect("a copy from before", status, 1) and told


def exports(bench):
    """A replica of an export has numbers of its own, and the changes after the export's number."""
    with fleet(bench) as it, place(it) as store:
        here = Place(it, store, 20_269)
        here.published()
        here.writer.write(15)
        here.published()
        folder, _ = here.begun("copy")
        here.applied(folder)
        path = it.at("as-of-15.reg")
        with open(path, "w", encoding="utf-8") as file:
            file.write(it.ran("export-utf8", folder))
        here.writer.write(10)
        here.published()

        def begun(name, *words):
            worker = it.worker(f"begin-{name}", "begin", it.at(name), "--from", here.target, "--program", it.program.path, *words)
            return worker.wait(), last(worker.text())
        made = ["--export", path, "--id", ID, "--hives", 2]
        yield expect("begin", begun("of-export", *made, "--number", 15), (0, "begun 15"))
        yield expect("applied", (here.applied(it.at("of-export"))[0], it.check(it.at("of-export"))), (0, 11))
        yield is_as_of(it, it.at("of-export"), 25, here.writer)
        yield expect("again", (here.applied(it.at("of-export"))), (0, f"regtx-replicate: replica of store {ID} at 25\napplied 25\n"))
        subprocess.run([it.program.path, "set", it.at("of-export"), "0:", "v", "dword", "1"], stdout=subprocess.DEVNULL, check=True, timeout=SECONDS)
        status, told = here.applied(it.at("of-export"))
        yield expect("another's write", (status, "was made by another program" in told), (1, True))
        status, told = begun("beyond", *made, "--number", 26)
        yield expect("a number that isn't published", (status, "an export as of 26 doesn't fit" in told), (1, True))
        status, told = begun("few", "--export", path, "--id", ID, "--hives", 1, "--number", 15)
        yield expect("too few hives", (status, "can't be applied" in told, os.path.exists(it.at("few"))), (1, True, False))
        yield expect("no words", begun("none", "--export", path), (1, "regtx-replicate: of an export, tell --id, --number and --hives too"))


def foreign(bench):
    """Another program writes to a replica at rest: the next start says so, and applies nothing."""
    with fleet(bench) as it, place(it) as store:
        here = Place(it, store, 20_266)
        here.published()
        copies = [here.begun(name)[0] for name in ("fresh", "used", "aside", "unmarked")]
        here.writer.write(6)
        here.published()
        for folder in copies[1:]:
            here.applied(folder)
        for folder in copies[:2]:
            subprocess.run([it.program.path, "set", folder, "0:", "v", "dword", "1"], stdout=subprocess.DEVNULL, check=True, timeout=SECONDS)
        here.writer.write(2)
        here.published()
        for folder, number in [(copies[0], 1), (copies[1], 7)]:
            status, told = here.applied(folder)
            text = f"regtx-replicate: change {number} of {folder} was made by another program, and nothing is applied after it. {ANEW}"
            yield expect("another's write", (status, last(told), it.check(folder)), (1, text, number))
        os.remove(os.path.join(copies[3], "replica"))
        status, told = here.applied(copies[3], "--id", ID)
        yield expect("without its role", (status, last(told)), (1, f"regtx-replicate: {copies[3]} is no replica: {ANEW}"))
        status, told = here.applied(copies[2])
        yield expect("one that nobody wrote to", (status, last(told)), (0, "applied 8"))
        yield expect("begin anew", it.begun(copies[1], here.backup, here.target)[0], 0)
        yield expect("and catch up", here.applied(copies[1])[0], 0)
        yield is_as_of(it, copies[1], 8, here.writer)
        # while its subscriber is there, nobody else opens it
        subscriber = it.subscriber(copies[2], here.target)
        subscriber.says("at 8")
        ran = subprocess.run([it.program.path, "set", copies[2], "0:", "v", "dword", "1"], capture_output=True, text=True, check=False, timeout=SECONDS)
        yield expect("in use", (ran.stdout, ran.returncode), ("cannot open store\n", 1))
        yield expect("the end", subscriber.end(), 0)


def readers(bench):
    """A replica that is served: who reads it sees changes as they come, and every line that may write is refused, in order."""
    with fleet(bench) as it, place(it) as store:
        here = Place(it, store, 20_267)
        here.published()
        folder, _ = here.begun("replica")
        publisher = here.publisher()
        os.mkdir(it.at("run"), 0o700)
        path = it.at("run", "readers")
        subscriber = it.subscriber(folder, here.target, "--serve", path, "--broker", it.broker, "--idle", 1)
        yield expect("it serves", until(lambda: os.path.exists(path)), True)
        yield expect("its mode", os.stat(path).st_mode & 0o777, 0o600)
        with Lines(path) as reader:
            yield expect("opened", reader.first, "opened 0")
            reader.send("follow 0")
            here.writer.write(5)
            for number in range(1, 6):
                head = reader.read().split(" ")
                yield expect(f"follow {number}", (head[:2], head[4] != "-"), (["change", str(number)], True))
                for _ in range(int(head[3])):
                    reader.read()
            unit = here.writer.unit(5)
            yield expect("the end of that", reader.ask("keys 1:"), "followed 5")
            yield expect("its reply", reader.read(), "keys 1 Count")
            lines = [each.format(unit=unit) for pair in zip([line for line, _ in READS], WRITES) for each in pair]
            replies = [each for pair in zip([reply for _, reply in READS], len(READS) * ["E17 Unsupported"]) for each in pair]
            yield expect("lines that are sent together", reader.ask(*lines), replies)
            for line in WRITES:
                yield expect(line, reader.ask(line.format(unit=unit)), "E17 Unsupported")
            reader.push(b"get 0:Count")
            reader.push(b" n\ncreate 0:X\nge")
            yield expect("parts of lines", (reader.read(), reader.read()), ("value 4 05000000", "E17 Unsupported"))
            reader.push(b"t 0:Count n\ncreate 0:Half")
            reader.half_close()
            yield expect("the last ones", reader.rest(), ["value 4 05000000"])
        with Lines(path) as reader:
            reader.push(b"x" * 4_194_305)
            yield expect("a line without an end", reader.rest()[:1], ["E6 TooLarge"])
        yield from many_readers(here, path)
        kill(subscriber.process)
        subscriber.wait()
        yield expect("the server stops with it", it.check(folder), 5)
        subscriber.start()
        yield expect("it serves again", until(lambda: is_open(path)), True)
        yield expect("the ends", (subscriber.end(), publisher.end(), os.path.exists(path)), (0, 0, False))
        yield is_as_of(it, folder, 5, here.writer)


def many_readers(here, path):
    """As many readers as there are places, one of whom reads nothing; the replica goes on."""
    clients = [Lines(path) for _ in range(20)]
    clients[0].send(*["keys 0:"] * 20_000)
    yield expect("each is answered", [client.ask("get 0:Count n") for client in clients[1:]], ["value 4 05000000"] * 19)
    for client in clients:
        client.close()
    yield expect("places are free again", until(lambda: sum(is_open(path) for _ in range(30)) == 30), True)


def is_open(path):
    try:
        with Lines(path) as reader:
            return (reader.first or "").startswith("opened")
    except OSError:
        return False


def signals(bench):
    """SIGTERM and SIGINT end each within moments, whatever it waits for."""
    with fleet(bench) as it, place(it) as store:
        here = Place(it, store, 20_268)
        here.published()
        folder, _ = here.begun("replica")
        workers = {
            "a publisher that follows": here.publisher(), "a publisher whose etcd isn't there": it.publisher(store, "etcd://127.0.0.1:1", name="no-etcd"),
            "a publisher whose server isn't there": it.worker("no-server", "publish", it.at("nowhere"), "--to", here.target, "--id", ID),
            "a replica that waits": it.subscriber(folder, here.target),
            "a replica whose etcd isn't there": it.subscriber(here.begun("second")[0], "etcd://127.0.0.1:1")}
        yield expect("it waits", workers["a replica that waits"].says("at 0"), True)
        for title in ("a publisher whose etcd isn't there", "a replica whose etcd isn't there"):
            yield expect(title, workers[title].says("Connection refused"), True)
        yield expect("no server", workers["a publisher whose server isn't there"].says("trying again"), True)
        for number, (title, worker) in enumerate(workers.items()):
            kill(worker.process, signal.SIGINT if number % 2 else signal.SIGTERM)
            yield expect(title, worker.wait(30), 0)


PARTS = [folders, refused, at_rest, restored, exports, foreign, readers, signals]
