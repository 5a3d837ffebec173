"""What a broker tells its program, and what it takes of that: parts of tests/broker.py. Expected frames come from the protocol of
server/README.md."""
import hashlib
import itertools
import os
import random
import resource
import select
import signal
import socket
import subprocess
import threading

from broker_bench import SECONDS, Client, as_other, child, until
from framed_programs import MOST
from scratch import expect

PLACES = 31
TURNS, NOISES = 200, 20
SEED = 4_242
# what no program may write while place P has a client and Q none, and nothing was sent
WRONG = ["", "hello", "open P", "gone P", "ready", "ready P", "data", "data P", "data P 0", "data P 65537", "data P -5", "data P +5",
         "data P 5 5", "data  P 5", "data P 5 ", "data P  5", " data P 5", "data 0P 5", "data P 05", "data 31 5", "data Q 5",
         "data -1 5", "data P 99999999999999999999", "data P 4294967297", "data\tP\t5", "data P 5\r", "data P,5", "datamore P", "Data P 5",
         "more", "more P", "more Q", "more 31", "more P P", "end", "end Q", "end 31", "end P P", "END P", "ended P", "E", "Ex", "E0 x"]


def frames(bench):
    """One client's frames, in both directions."""
    with bench.ready() as broker:
        puppet = broker.puppet
        client, place = broker.met()
        client.send(b"a" * 10)
        yield expect("what a client sends", puppet.next(), ("data", place, b"a" * 10))
        client.send(b"b" * 10)
        client.send(b"c" * 10)
        yield expect("without `more`", puppet.quiet(), None)
        puppet.write(b"more %d\n" % place)
        yield expect("lines together", puppet.next(), ("data", place, b"b" * 10 + b"c" * 10))
        puppet.write(b"data %d 7\nreply 1" % place)
        yield expect("a reply", client.read(7), b"reply 1")
        yield expect("`more` of a reply", puppet.next(), ("more", place))
        puppet.write(b"data %d 3\na" % place)
        yield expect("`more` amid a frame", puppet.quiet(), None)
        puppet.write(b"bcmore %d\ndat" % place)
        yield expect("a reply in two pieces", (client.read(3), puppet.next()), (b"abc", ("more", place)))
        puppet.write(b"a %d 1\nd" % place)
        yield expect("a head in two pieces", (client.read(1), puppet.next()), (b"d", ("more", place)))
        client.send(b"half a line")
        yield expect("half a line", puppet.next(), ("data", place, b"half a line"))
        client.half_close()
        puppet.write(b"more %d\n" % place)
        yield expect("a side that is closed", puppet.next(), ("end", place))
        puppet.write(b"data %d 5\nafter" % place)
        yield expect("a reply after it", (client.read(5), puppet.next()), (b"after", ("more", place)))
        puppet.write(b"end %d\n" % place)
        yield expect("the end of a session", client.read_all(), b"")
        yield expect("and no word of it", puppet.quiet(), None)
        yield expect("a stop", broker.stop(), (0, None))


def sizes(bench):
    """What a client sends comes in pieces of 65,536 bytes at most, of which one is on its way."""
    content = random.Random(SEED).randbytes(300_000)
    with bench.ready() as broker:
        client, place = broker.met()
        sender = threading.Thread(target=client.send, args=(content,))
        sender.start()
        found, largest = b"", 0
        while len(found) < len(content):
            word, of, piece = broker.puppet.next()
            found, largest = found + piece, max(largest, len(piece) if (word, of) == ("data", place) else MOST + 1)
            broker.puppet.write(b"more %d\n" % place)
        sender.join()
        yield expect("what came", found == content, True)
        yield expect("its pieces", largest <= MOST, True)


def unread(bench):
    """Replies that a client doesn't read."""
    with bench.ready() as broker:
        client, place = broker.met()
        count = fill(broker, place)
        yield expect("what waits for a client", count * MOST < room(client), True)
        broker.puppet.write(b"end %d\n" % place)
        other, second = broker.met()
        yield expect("another's place, while replies wait", second != place, True)
        yield expect("all replies come, and then the end", client.read_all(), b"r" * MOST * count)
        # the place is free for the program since its `end`: a `more` would be of no client
        yield expect("`more` after `end`", broker.puppet.quiet(), None)
        other.close()
        yield expect("who goes", broker.puppet.next(), ("gone", second))


def out_of_turn(bench):
    with bench.ready() as broker:
        client, place = broker.met()
        fill(broker, place)
        broker.puppet.write(b"data %d 1\nx" % place)
        yield from broken(broker, client, f"data {place} 1", "data before `more`")
    for title, before in [("`more` twice", b"more %d\nmore %d\n"), ("`end` twice", b"end %d\nend %d\n")]:
        with bench.ready() as broker:
            client, place = broker.met()
            client.send(b"x")
            broker.puppet.next()
            broker.puppet.write(before % (place, place))
            yield from broken(broker, client, before.split()[0].decode() + f" {place}", title)
    with bench.ready() as broker:
        client, place = broker.met()
        broker.puppet.write(b"end %d\ndata %d 1\nx" % (place, place))
        yield from broken(broker, client, f"data {place} 1", "data after `end`")
    with bench.ready() as broker:
        client, place = broker.met()
        broker.puppet.write(b"data %d 3\nabcdef\n" % place)
        yield expect("as much as was announced", client.read(3), b"abc")
        yield from broken(broker, client, "def", "more than was announced")
    with bench.ready() as broker:
        client, place = broker.met()
        other, _ = broker.met()
        client.close()
        broker.puppet.next()
        broker.puppet.write(b"data %d 1\nxdata %d 1\nx" % (place, place))
        yield from broken(broker, other, f"data {place} 1", "more than one reply to who has gone")


def broken(broker, client, line, title):
    """What is wrong with the end of a broker whose program wrote a wrong line."""
    client.read_all()
    before = list(iter(broker.puppet.next, None))
    broker.puppet.leave()
    status, printed, told = broker.end()
    yield expect(f"{title}: words before the input's end", [word for word, *_ in before if word != "more"], [])
    yield expect(f"{title}: status and output", (status, printed), (1, b""))
    yield None if f"wrong line of the program: '{line}': " in told else f"{title}: it is told {told!r}"
    yield expect(f"{title}: the socket's file", os.path.exists(broker.path), False)


def wrong_heads(bench):
    """Each line that is no frame ends the service, and is told."""
    for number, pattern in enumerate(WRONG):
        with bench.ready() as broker:
            client, place = broker.met()
            line = pattern.replace("P", str(place)).replace("Q", str(place + 1))
            broker.puppet.write(line.encode() + b"\n")
            shown = "".join(letter if letter.isprintable() else "?" for letter in line)
            yield from broken(broker, client, shown, f"line {number}, {pattern!r}")
    with bench.ready() as broker:
        client, _ = broker.met()
        broker.puppet.write(b"d" * 600)
        yield from broken(broker, client, "d" * 512, "a line without end")


def noise(bench):
    """A program that writes frames, right and wrong ones, at random: whatever it is, the broker ends as at a wrong line."""
    for seed in range(NOISES):
        chance = random.Random(seed)
        with bench.ready() as broker:
            seats = [broker.met() for _ in range(3)]
            for client, _ in seats:
                client.send(chance.randbytes(100))
            try:
                for _ in range(300):
                    broker.puppet.write(noisy(chance, [place for _, place in seats]))
            except BrokenPipeError:
                pass
            for client, _ in seats:
                client.close()
            broker.puppet.leave()
            yield expect(f"seed {seed}", broker.end()[:2], (1, b""))


def noisy(chance, taken):
    """A frame that may be a wrong one."""
    place, size = chance.choice(taken * 4 + [31, 99]), chance.choice([1, 2, 500, MOST] * 8 + [0, MOST + 1])
    data = b"data %d %d\n" % (place, size) + chance.randbytes(size)
    words = [b"more %d\n" % place, b"end %d\n" % place, b"data %d 1\n" % place, chance.randbytes(20).replace(b"\n", b"") + b"\n"]
    return data if chance.random() < 0.8 else chance.choice(words)


def gone(bench):
    """Clients that go: nothing follows of them, and their places stay taken until the program ends them."""
    with bench.ready() as broker:
        client, place = broker.met()
        client.send(b"first")
        yield expect("what it sent", broker.puppet.next(), ("data", place, b"first"))
        client.send(b"unread")
        client.close()
        yield expect("it has gone", broker.puppet.next(), ("gone", place))
        broker.puppet.write(b"more %d\ndata %d 4\nlost" % (place, place))
        yield expect("nothing follows", broker.puppet.quiet(), None)
        other, second = broker.met()
        yield expect("its place is taken yet", second != place, True)
        broker.puppet.write(b"end %d\n" % place)
        yield expect("the next one's place", until(lambda: opened(broker, place)), True)
        other.half_close()
        yield expect("one that sends no more", broker.puppet.next(), ("end", second))
        other.close()
        yield expect("and goes then", broker.puppet.next(), ("gone", second))
        broker.puppet.write(b"end %d\n" % second)
        yield expect("a stop", broker.stop(), (0, None))
    yield from killed(bench)


def killed(bench):
    """A client's process is killed amid a line."""
    with bench.ready() as broker, child([bench.client, broker.path], stdin=subprocess.PIPE) as client:
        _, place = broker.puppet.next()
        client.stdin.write(b"create 0:A\ncreate 0:Ha")
        client.stdin.flush()
        yield expect("what it sent", broker.puppet.next(), ("data", place, b"create 0:A\ncreate 0:Ha"))
        client.kill()
        yield expect("it is killed", broker.puppet.next(), ("gone", place))


def opened(broker, wanted):
    """Whether a client gets this place; it goes again."""
    client, place = broker.met()
    client.close()
    told = broker.puppet.next()
    broker.puppet.write(b"end %d\n" % place)
    if told != ("gone", place):
        raise ValueError(f"{told} in the place of gone {place}")
    return place == wanted


def closed(bench):
    """A session that ends before its client does: the client reads all that was sent, and then the end, not a failure."""
    with bench.ready() as broker:
        client, place = broker.met()
        client.send(b"l" * 1_000)
        broker.puppet.next()
        client.push()
        broker.puppet.write(b"data %d 12\nE6 TooLarge\nend %d\n" % (place, place))
        yield expect("its last replies", client.read_all(), b"E6 TooLarge\n")


def places(bench):
    """31 clients, and one more."""
    with bench.ready() as broker:
        all_of = dict((place, client) for client, place in (broker.met() for _ in range(PLACES)))
        yield expect("31 places", sorted(all_of), list(range(PLACES)))
        yield expect("one more", (broker.client().read_all(), broker.puppet.quiet()), (b"E10 NoSeat\n", None))
        late = broker.client()
        try:
            late.send(b"keys 0:\n" * 100)
        except BrokenPipeError:
            pass
        yield expect("one more that sends", late.read_all(), b"E10 NoSeat\n")
        all_of[7].close()
        yield expect("one goes", broker.puppet.next(), ("gone", 7))
        yield expect("before its session has ended", broker.client().read_all(), b"E10 NoSeat\n")
        broker.puppet.write(b"end 7\n")
        yield expect("its place is free again", seated(broker), ("open", 7))
    with bench.ready("-n", "3") as broker:
        clients = [broker.met() for _ in range(3)]
        yield expect("-n 3", sorted(place for _, place in clients), [0, 1, 2])
        yield expect("-n 3, and one more", broker.client().read_all(), b"E10 NoSeat\n")


def seated(broker):
    """What the program is told of the next client that gets a place."""
    while True:
        client = broker.client()
        if broker.puppet.input in select.select([client.socket, broker.puppet.input], [], [], SECONDS)[0]:
            return broker.puppet.next()
        client.close()


def descriptors(bench):
    """Without a descriptor for one more client the broker waits, without haste, until another client has gone."""
    with bench.begun(preexec_fn=lambda: resource.setrlimit(resource.RLIMIT_NOFILE, (47, 47)), is_met=False) as broker:
        yield expect("47 descriptors", broker.end()[:2], (1, b""))
    with bench.ready() as broker:
        resource.prlimit(broker.process.pid, resource.RLIMIT_NOFILE, (36, 36))
        seats, waiting = [], []
        while len(seats) < PLACES:
            waiting.append(broker.client())
            # it says nothing but that it can't accept
            if broker.puppet.input not in select.select([broker.process.stderr, broker.puppet.input], [], [], SECONDS)[0]:
                break
            seats.append((waiting.pop(), broker.puppet.next()[1]))
        yield expect("clients", (1 < len(seats) < PLACES, len(waiting)), (True, 1))
        yield expect("ticks of 100", broker.ticks(1) <= 5, True)
        client, place = seats[0]
        client.close()
        yield expect("one goes", broker.puppet.next(), ("gone", place))
        broker.puppet.write(b"end %d\n" % place)
        yield expect("the next one", broker.puppet.next()[0], "open")
        broker.process.send_signal(signal.SIGTERM)
        yield expect("the input's end", broker.puppet.next(), None)
        broker.puppet.leave()
        status, _, told = broker.end()
        yield expect("its end", (status, "accept: " in told), (0, True))


def operators(bench):
    """Place 0 is for the broker's own user, who gets it last."""
    if os.geteuid() != 0:
        return
    with bench.ready("-m", "0666") as broker:
        with as_other():
            found = [broker.met() for _ in range(PLACES - 1)]
            yield expect("places of another user", sorted(place for _, place in found), list(range(1, PLACES)))
            yield expect("and one more of that user", broker.client().read_all(), b"E10 NoSeat\n")
        yield expect("the operator's place", broker.met()[1], 0)
    with bench.ready("-m", "0666", "-n", "1") as broker:
        with as_other():
            yield expect("-n 1: another user", broker.client().read_all(), b"E10 NoSeat\n")
        yield expect("-n 1: the broker's own", broker.met()[1], 0)


def fill(broker, place):
    """Writes replies to a client that doesn't read, until nobody takes more; answers how many pieces of 65,536 bytes."""
    for count in itertools.count(1):
        broker.puppet.write(b"data %d %d\n" % (place, MOST) + b"r" * MOST)
        if not broker.next_or_rest():
            return count


def room(client):
    """More bytes than may wait for a client that doesn't read: those of the broker, of a program that echoes, and of the system's
    buffers, by default 212,992 bytes at each side."""
    return 8 * MOST + 4 * client.socket.getsockopt(socket.SOL_SOCKET, socket.SO_SNDBUF)


def rest(bench):
    """The broker takes no processor's time while nothing can be moved."""
    with bench.ready() as broker:
        closed_one, first = broker.met()
        closed_one.half_close()
        yield expect("one that sends no more", broker.puppet.next(), ("end", first))
        _, unread = broker.met()
        fill(broker, unread)
        untaken = [broker.met()[0] for _ in range(3)]
        for client in untaken:
            client.push()
        yield expect("ticks of 100 with a program that doesn't read", broker.ticks(1) <= 3, True)
        for _ in untaken:
            broker.puppet.next()
        yield expect("ticks of 100 with clients that wait", broker.ticks(1) <= 3, True)


def flood(bench):
    """A program that reads nothing, and has the broker tell it ever more, is ended before the broker runs out of room."""
    with bench.ready() as broker:
        filler, _ = broker.met()
        asker, place = broker.met()
        filler.push()
        rounds = 0
        try:
            while rounds < 200:
                broker.puppet.write(b"data %d 1\nx" % place * 100)
                if len(asker.read(100)) < 100:
                    break
                rounds += 1
        except BrokenPipeError:
            pass
        broker.puppet.leave()
        status, printed, told = broker.end()
        yield expect("rounds", 50 < rounds < 200, True)
        yield expect("its end", (status, printed, "takes no frame" in told), (1, b"", True))


class Player(threading.Thread):
    """Plays a program that answers what it is sent, but takes nothing more of who sends `hold`. It notes what it is told, but for `more`
    and what is asked without pause."""

    def __init__(self, puppet):
        super().__init__(daemon=True)
        self.puppet, self.noted, self.fault = puppet, [], None

    def run(self):
        try:
            while frame := self.puppet.next(600):
                word, place = frame[:2]
                if word != "more" and frame[2:] != (b"ask",):
                    self.noted.append(frame)
                if word in ("end", "gone"):
                    self.puppet.write(b"end %d\n" % place)
                elif word == "data" and not frame[2].startswith(b"hold"):
                    self.puppet.write(b"more %d\ndata %d %d\n" % (place, place, len(frame[2])) + frame[2])
        except (OSError, ValueError) as why:
            self.fault = why


def talk(path, ends):
    """A client that asks again and again."""
    client = Client(path)
    while not ends.wait(0.001):
        client.send(b"ask")
        client.read(3)
    client.close()


def order(bench):
    """Who has gone is told before who has come, also while others are served: 200 times, half of them with both at once."""
    with bench.ready() as broker:
        player, ends = Player(broker.puppet), threading.Event()
        player.start()
        talkers = [threading.Thread(target=talk, args=(broker.path, ends)) for _ in range(3)]
        for talker in talkers:
            talker.start()
        wrong = 0
        for turn in range(TURNS):
            old = broker.client()
            old.send(b"hold %d" % turn)
            wrong += not until(lambda: any(frame[2:] == (b"hold %d" % turn,) for frame in player.noted[-20:]))
            if turn % 2:
                broker.process.send_signal(signal.SIGSTOP)
            old.close()
            new = broker.client()
            asked = b"new %d" % turn
            new.send(asked)
            broker.process.send_signal(signal.SIGCONT)
            wrong += new.read(len(asked)) != asked
            new.close()
        ends.set()
        for talker in talkers:
            talker.join(SECONDS)
        yield expect("clients that weren't heard or answered", wrong, 0)
        broker.process.send_signal(signal.SIGTERM)
        player.join(SECONDS)
        broker.puppet.leave()
        yield expect("its end", (broker.end()[0], player.fault), (0, None))
        late = [turn for turn in range(TURNS) if not is_in_order(player.noted, turn)]
        yield expect("turns in which `open` came before `gone`", late, [])


def is_in_order(noted, turn):
    """Whether the old client's place was left before the new one's was opened."""
    old = next(at for at, frame in enumerate(noted) if frame[2:] == (b"hold %d" % turn,))
    new = next(at for at, frame in enumerate(noted) if frame[2:] == (b"new %d" % turn,))
    came = max(at for at in range(new) if noted[at] == ("open", noted[new][1]))
    left = next((at for at in range(old, len(noted)) if noted[at] == ("gone", noted[old][1])), len(noted))
    return left < came


def reused(bench):
    """A client that gets the place of one whose session ends as it goes, all at once: it isn't taken for that one."""
    with bench.ready() as broker:
        old, place = broker.met()
        broker.process.send_signal(signal.SIGSTOP)
        broker.puppet.write(b"end %d\n" % place)
        old.close()
        new = broker.client()
        new.send(b"new")
        broker.process.send_signal(signal.SIGCONT)
        told = [broker.puppet.next(), broker.puppet.next()]
        # a broker that finds the old one's end before it has read the program's may tell that, too
        if told[0] == ("gone", place):
            told = [told[1], broker.puppet.next()]
        yield expect("the new one", told, [("open", place), ("data", place, b"new")])
        yield expect("it stays", broker.puppet.quiet(), None)


def slow(bench):
    """31 clients that read nothing: what waits is bounded, and another is served."""
    with bench.program("echo") as broker:
        other = broker.client()
        yield expect("the first reply", other.read(9), b"opened 0\n")
        before = broker.memory()
        slow_ones = [broker.client() for _ in range(PLACES - 1)]
        sent = [0] * len(slow_ones)

        def push(number):
            sent[number] = slow_ones[number].push()
        fillers = [threading.Thread(target=push, args=(number,)) for number in range(len(slow_ones))]
        for filler in fillers:
            filler.start()
        for filler in fillers:
            filler.join(SECONDS)
        yield expect("what is taken of one that doesn't read", max(sent) < room(other), True)
        for number in range(300):
            other.send(b"%d\n" % number)
            if other.read(len(str(number)) + 1) != b"%d\n" % number:
                yield f"another got no answer to its line {number}"
        grown = broker.memory() - before
        if not bench.is_sanitized:
            yield expect("memory", grown <= (PLACES + 2) * MOST // 1_024 + 512, True)
        found = []
        for client, size in zip(slow_ones[:3], sent):
            client.half_close()
            found.append(client.read_all() == b"opened 0\n" + b"x" * size)
        yield expect("what they read at last", found, [True] * 3)
        yield expect("faults", broker.faults(), "")


def through(bench):
    """100 MB there and back."""
    piece = random.Random(SEED).randbytes(1_000_000)
    count = 20 if bench.is_sanitized else 100
    with bench.program("echo") as broker:
        client = broker.client()
        yield expect("the first reply", client.read(9), b"opened 0\n")

        def send():
            for _ in range(count):
                client.send(piece)
            client.half_close()
        sender = threading.Thread(target=send)
        sender.start()
        wanted, found, size = hashlib.sha256(), hashlib.sha256(), 0
        while got := client.socket.recv(1 << 18):
            found.update(got)
            size += len(got)
        sender.join(SECONDS)
        for _ in range(count):
            wanted.update(piece)
        yield expect("bytes", size, count * len(piece))
        yield expect("their sum", found.digest() == wanted.digest(), True)
        yield expect("faults", broker.faults(), "")


def visit(path, seed, faults):
    """A client that asks for bytes of a seed, and sends others meanwhile; some close at once, and some go in the midst."""
    chance = random.Random(seed)
    count, word = chance.randint(0, 200_000), chance.choice([b"close", b"read", b"read", b"leave"])
    sent = chance.randbytes(chance.randint(0, 200_000))
    client = Client(path)

    def send():
        try:
            for start in range(0, len(sent), 7_001):
                client.send(sent[start:start + 7_001])
            client.half_close()
        except OSError:
            if word == b"read":
                faults.append(f"{seed}: it could not send")
    client.send(b"%d %d %s\n" % (seed, count, word))
    if word == b"leave":
        client.send(sent[:30_000])
        client.read(count // 2)
        client.close()
        return
    sender = threading.Thread(target=send)
    sender.start()
    found = client.read_all()
    sender.join(SECONDS)
    wanted = random.Random(seed).randbytes(count)
    if word == b"read":
        wanted += hashlib.sha256(sent).hexdigest().encode() + b"\n"
    if found != wanted:
        faults.append(f"{seed}: {word} got {len(found)} bytes, or others")
    client.close()


def at_random(bench):
    """A program that answers at random, to clients that come, read and go."""
    for seed in (1, 2):
        faults, numbers = [], itertools.count(100 * seed)
        with bench.program("random", str(seed)) as broker:
            for _ in range(3):
                visitors = [threading.Thread(target=visit, args=(broker.path, next(numbers), faults)) for _ in range(10)]
                for visitor in visitors:
                    visitor.start()
                for visitor in visitors:
                    visitor.join(SECONDS)
            yield expect(f"seed {seed}", faults, [])
            yield expect(f"seed {seed}: the broker's faults", broker.faults(), "")
            broker.process.send_signal(signal.SIGTERM)
            yield expect(f"seed {seed}: its end", broker.end(), (0, b"", ""))


PARTS = [frames, sizes, unread, out_of_turn, wrong_heads, noise, gone, closed, rest, flood, places, descriptors, operators, order,
         reused, slow, through, at_random]
