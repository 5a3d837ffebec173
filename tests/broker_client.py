"""The client program `regtxc`, over a server that the test plays: a part of tests/broker.py."""
import os
import socket
import subprocess
import threading
import time

from broker_bench import SECONDS, as_other, child
from scratch import NOBODY, expect

MUCH = 5_000_000
# what the server says, what the client sends, its status, and what is told of it; statuses are those of docs/SCRIPTS.md
ENDS = [
    ("no refusal", b"opened 0\nok\nkeys 1 E1\n", b"a\nb\n", 0, ""),
    ("a refusal", b"opened 0\nE2 NotFound\nok\n", b"a\nb\n", 1, ""),
    ("a refusal at last", b"opened 0\nok\nE7 Conflict\n", b"a\nb\n", 1, ""),
    ("a line that is none", b"opened 0\nline 1: not understood\n", b"a\nb\n", 2, ""),
    ("a refusal, and a line that is none", b"opened 0\nE2 NotFound\nline 2: not understood\n", b"a\nb\nc\n", 2, ""),
    ("no place", b"E10 NoSeat\n", b"a\n", 1, ""),
    ("a store that failed", b"E14 Faulted\n", b"a\n", 1, ""),
    ("a reply that looks like one", b"opened 0\nline : not understood\nEnd\nE\nline 2: not understood, or so\n", b"a\nb\nc\nd\n", 0, ""),
    ("no lines", b"opened 0\n", b"", 0, ""),
    ("an end before the replies", b"opened 0\nok\n", b"a\nb\nc\n", 1, "1 of 3"),
    ("no word at all", b"", b"a\n", 1, "0 of 1"),
    ("a last line without its end", b"opened 0\nok\n", b"a\nb", 2, "no end (LF)"),
    ("a line without its end alone", b"opened 0\n", b"b", 2, "no end (LF)"),
]
WORDS = [[], ["-u", "no-such-user", "a"], ["-u", "", "a"], ["-u", "-1", "a"], ["-x", "a"], ["-u"], ["--"]]
# what the server says of one line by its words, what of that is printed, the status, and what is told of it
REPLIES = [
    ("a reply", b"opened 12\nvalue 1 3100\n", b"value 1 3100\n", 0, ""),
    ("a refusal", b"opened 0\nE2 NotFound\n", b"E2 NotFound\n", 1, ""),
    ("a line that is none", b"opened 0\nline 1: not understood\n", b"line 1: not understood\n", 2, ""),
    ("a reply as the first line", b"opened 0\nopened\n", b"opened\n", 0, ""),
    ("no place", b"E10 NoSeat\n", b"E10 NoSeat\n", 1, ""),
    ("a store that failed", b"E14 Faulted\n", b"E14 Faulted\n", 1, ""),
    ("a first line that is neither", b"openeds 0\nok\n", b"openeds 0\nok\n", 0, ""),
    ("a long first line", b"a" * 100_000 + b"\nok\n", b"a" * 100_000 + b"\nok\n", 0, ""),
    ("no reply", b"opened 0\n", b"", 1, "0 of 1"),
    ("no word at all", b"", b"", 1, "0 of 1"),
    ("a part of the first line", b"opened 0", b"opened 0", 1, "0 of 1"),
]
# words, and the line that is sent: docs/SCRIPTS.md says how names have a blank
SPELLED = [
    (["get", "0:A", "v"], b"get 0:A v\n"),
    (["flush"], b"flush\n"),
    (["get", "0:Some Vendor", " v "], b"get 0:Some%0020Vendor %0020v%0020\n"),
    (["get", "0:Some%0020Vendor", "@"], b"get 0:Some%0020Vendor @\n"),
    (["keys 0:"], b"keys%00200:\n"),
    (["get", "0:A", "-v"], b"get 0:A -v\n"),
    (["-u", "root", "--", "-x"], b"-u root -- -x\n"),
    (["get", "0:A", ""], b"get 0:A \n"),
    ([""], b"\n"),
    (["a\tb\r", b"\xff\x01\\"], b"a\tb\r \xff\x01\\\n"),
]
# the longest line, by docs/SERVING.md; how many bytes a program's word has at most; and how many words of blanks such a line has room for
MOST_LINE, MOST_WORD, BLANKS = 4_194_304, 131_071, 6


class Server(threading.Thread):
    """Serves one connection by a function, at a path."""

    def __init__(self, path, serve):
        super().__init__(daemon=True)
        self.listener, self.serve, self.path, self.found = socket.socket(socket.AF_UNIX), serve, path, None
        if os.path.exists(path):
            os.remove(path)
        self.listener.bind(path)
        self.listener.listen()
        self.listener.settimeout(SECONDS)
        self.start()

    def run(self):
        try:
            with self.listener, self.listener.accept()[0] as client:
                client.settimeout(SECONDS)
                self.found = self.serve(client)
        except OSError as why:
            self.found = f"failed: {why}"

    def end(self):
        self.join(SECONDS)
        return self.found


def read_all(client):
    return b"".join(iter(lambda: client.recv(1 << 18), b""))


def saying(reply):
    """Reads all lines, and then replies."""
    def serve(client):
        found = read_all(client)
        try:
            client.sendall(reply)
        except BrokenPipeError:
            pass
        return found
    return serve


def statuses(bench):
    for title, said, sent, status, told in ENDS:
        server = Server(f"{bench.home}/fake", saying(said))
        found = bench.run(server.path, input=sent)
        yield expect(title, (found[:2], told in found[2], bool(found[2]) == bool(told)), ((status, said), True, True))
        yield expect(f"{title}: what was sent", server.end(), sent)
    for given in WORDS:
        found = bench.run(*given, input=b"")
        yield expect(f"{given}", (found[:2], "usage: regtxc" in found[2]), ((2, b""), True))
    for path in ("/no/such/socket", "s" * 108):
        found = bench.run(path, input=b"")
        yield expect("no service", (found[:2], path in found[2]), ((1, b""), True))


def by_words(bench):
    """One line by its words: what is sent and printed of it, and its status."""
    with open(f"{bench.home}/unread", "w+b") as unread:
        unread.write(b"b\n")
        for title, said, printed, status, told in REPLIES:
            unread.seek(0)
            server = Server(f"{bench.home}/fake", saying(said))
            found = bench.run(server.path, "a", "b", stdin=unread)
            yield expect(title, (found[:2], told in found[2], bool(found[2]) == bool(told)), ((status, printed), True, True))
            yield expect(f"{title}: what was sent", (server.end(), unread.tell()), (b"a b\n", 0))
    for words, line in SPELLED:
        for before in ([], ["--"], ["-u", str(os.geteuid())]):
            server = Server(f"{bench.home}/fake", saying(b"opened 0\nok\n"))
            found = bench.run(*before, server.path, *words, stdin=subprocess.DEVNULL)
            yield expect(f"{before} {words}", (found, server.end()), ((0, b"ok\n", ""), line))
    server = Server(f"{bench.home}/fake", in_pieces)
    found = bench.run(server.path, "a", stdin=subprocess.DEVNULL)
    yield expect("bytes one by one", (found, server.end()), ((0, b"ok\n", ""), b"a\n"))


def longest_words():
    """The words of a line of MOST_LINE bytes. A program gets fewer bytes of words, so most of these are blanks, which take five."""
    words = BLANKS * [" " * MOST_WORD]
    left = MOST_LINE - (BLANKS * MOST_WORD * len("%0020") + BLANKS - 1)
    while left > 0:
        words.append("a" * min(MOST_WORD, left - 1))
        left -= len(words[-1]) + 1
    return words


def in_pieces(client):
    """Says each byte by itself, the first ones before it reads."""
    for byte in b"opened 0\nok":
        client.sendall(bytes([byte]))
        # so that most are read by themselves, on which nothing rests
        time.sleep(0.01)
    found = read_all(client)
    client.sendall(b"\n")
    return found


def wrong_words(bench):
    """What makes no line, or one that is too long, is refused before the service is looked for."""
    for words in (["get", "0:A", "a\nb"], ["\n"], ["keys", "0:\n"]):
        found = bench.run("/no/such/socket", *words, stdin=subprocess.DEVNULL)
        yield expect(f"{words}", found, (2, b"", "regtxc: a word has a line feed\n"))
    words = longest_words()
    server = Server(f"{bench.home}/fake", saying(b"opened 0\nok\n"))
    found = bench.run(server.path, *words, stdin=subprocess.DEVNULL)
    line = server.end()
    yield expect("the longest line", (found, len(line), line.count(b"%0020")), ((0, b"ok\n", ""), MOST_LINE + 1, BLANKS * MOST_WORD))
    found = bench.run("/no/such/socket", *words[:-1], words[-1] + "a", stdin=subprocess.DEVNULL)
    yield expect("a line that is too long", found, (2, b"", "regtxc: the line has more than 4,194,304 bytes\n"))
    server = Server(f"{bench.home}/fake", cut_off)
    found = bench.run(server.path, *words, stdin=subprocess.DEVNULL)
    yield expect("a server that reads no more", found, (1, b"E6 TooLarge\n", ""))


def first(client):
    client.sendall(b"opened 0\n" + b"ok\n" * (MUCH // 3))
    return len(read_all(client))


def some_first(client):
    client.sendall(b"opened 0\n")
    # a part of the pipe is full by then, and has no room for as much as the client may have read
    time.sleep(0.2)
    client.sendall(b"ok\n" * 66_663)
    size = len(read_all(client))
    client.sendall(b"ok\n" * (MUCH - 66_663))
    return size


def cut_off(client):
    client.recv(10)
    client.sendall(b"opened 0\nE6 TooLarge\n")


def duplex(bench):
    """Much is sent and much comes, whoever begins."""
    server = Server(f"{bench.home}/fake", first)
    found = bench.run(server.path, input=b"a\n" * (MUCH // 3))
    yield expect("replies first", (found[0], len(found[1]), server.end()), (0, 9 + MUCH // 3 * 3, MUCH // 3 * 2))
    server = Server(f"{bench.home}/fake", some_first)
    with child([bench.client, server.path], stdin=subprocess.PIPE, stdout=subprocess.PIPE) as client:
        # nobody reads its output until all lines are sent
        client.stdin.write(b"a\n" * MUCH)
        client.stdin.close()
        size = len(client.stdout.read())
        yield expect("nobody reads replies yet", (client.wait(SECONDS), size, server.end()), (0, 9 + 3 * MUCH, 2 * MUCH))
    server = Server(f"{bench.home}/fake", cut_off)
    found = bench.run(server.path, input=b"a\n" * MUCH)
    yield expect("a server that reads no more", (found[:2], "of" in found[2]), ((1, b"opened 0\nE6 TooLarge\n"), True))
    server = Server(f"{bench.home}/fake", saying(b"opened 0\n" + b"ok\n" * MUCH))
    with open("/dev/full", "wb") as full:
        ran = subprocess.run([bench.client, server.path], input=b"a\n" * MUCH, stdout=full, stderr=subprocess.PIPE, timeout=SECONDS)
    yield expect("replies that can't be written", (ran.returncode, b"standard output" in ran.stderr), (1, True))
    server.end()


def asks(bench):
    """Lines one by one, each after the last reply, as from a terminal."""
    with bench.program("echo") as broker:
        with child([bench.client, broker.path], stdin=subprocess.PIPE, stdout=subprocess.PIPE, bufsize=0) as client:
            found, lines = [client.stdout.readline()], [b"line-%d\n" % number for number in range(20)]
            for line in lines:
                client.stdin.write(line)
                found.append(client.stdout.readline())
            client.stdin.close()
            yield expect("line by line", (found, client.wait(SECONDS)), ([b"opened 0\n", *lines], 0))


def peers(bench):
    """It sends nothing to a service of another user, unless it is told which."""
    if os.geteuid() != 0:
        return
    os.makedirs(f"{bench.home}/theirs", exist_ok=True)
    os.chown(f"{bench.home}/theirs", NOBODY, NOBODY)
    said, refusal = b"opened 0\nok\n", f"regtxc: the service belongs to user {NOBODY}: -u {NOBODY} trusts it\n"
    for given, is_trusted in [([], False), (["-u", str(NOBODY)], True), (["-u", "nobody"], True), (["-u", "0"], False),
                              (["-u", "12345"], False)]:
        for words, replies in (([], said), (["secret"], b"ok\n")):
            with as_other():
                server = Server(f"{bench.home}/theirs/socket", saying(said))
            status, printed, told = bench.run(*given, server.path, *words, input=b"" if words else b"secret\n")
            wanted = (0, replies, "", b"secret\n") if is_trusted else (1, b"", refusal, b"")
            yield expect(f"a service of another user, {given} {words}", (status, printed, told, server.end()), wanted)
    for given, is_trusted in [([], True), (["-u", "0"], True), (["-u", "root"], True), (["-u", str(NOBODY)], False)]:
        server = Server(f"{bench.home}/fake", saying(said))
        found = bench.run(*given, server.path, input=b"a\n")[0]
        yield expect(f"a service of root, {given}", (found, server.end()), (0, b"a\n") if is_trusted else (1, b""))


# what the server tells one who follows, how the status of that is, and what is told of it
FOLLOWED = [
    ("all was told", [b"change 3 0 1 -\n", b"create 0:A\n", b"followed 3\n"], 0, ""),
    ("nothing came", [b"followed 2\n"], 0, ""),
    ("changes that aren't kept", [b"E2 NotFound after 9\n"], 1, ""),
    ("changes that aren't kept any more", [b"change 3 0 0 -\n", b"E2 NotFound after 9\n"], 1, ""),
    ("a service that is killed", [b"change 3 0 0 -\n", b"change 4 0 0 -\n"], 1, "told all"),
]


def following(pieces, seen):
    """Tells one piece after another, each once the last was seen to be printed; what was sent before the last one, and after it."""
    def serve(client):
        client.sendall(b"opened 2\n")
        sent = client.recv(1 << 16)
        for number, piece in enumerate(pieces):
            client.sendall(piece)
            if not seen(number):
                return "it wasn't printed at once"
        if not pieces[-1].startswith((b"followed", b"E2")):
            client.shutdown(socket.SHUT_RDWR)
        return sent, read_all(client)
    return serve


def follows(bench):
    """A line by its words whose replies come for as long as its sender stays: each is printed at once, and the last one is the end."""
    for verb in ("follow", "watch"):
        for title, pieces, status, told in FOLLOWED:
            printed = [threading.Event() for _ in pieces]
            server = Server(f"{bench.home}/fake", following(pieces, lambda number, printed=printed: printed[number].wait(SECONDS)))
            with child([bench.client, server.path, verb, "2"], stdin=subprocess.DEVNULL, stdout=subprocess.PIPE,
                       stderr=subprocess.PIPE) as client:
                for event, piece in zip(printed, pieces):
                    yield expect(f"{verb}: {title}", client.stdout.readline(), piece)
                    event.set()
                ended = client.wait(SECONDS), client.stdout.read()
                why = client.stderr.read().decode()
            yield expect(f"{verb}: {title}, its end", (ended, told in why, bool(why) == bool(told)), ((status, b""), True, True))
            yield expect(f"{verb}: {title}, what was sent", server.end(), (f"{verb} 2\n".encode(), b""))
    # lines of standard input end as ever, at the end of that
    server = Server(f"{bench.home}/fake", saying(b"opened 2\nfollowed 2\n"))
    yield expect("standard input", (bench.run(server.path, input=b"follow 2\n"), server.end()), ((0, b"opened 2\nfollowed 2\n", ""), b"follow 2\n"))


PARTS = [statuses, by_words, wrong_words, duplex, asks, peers, follows]
