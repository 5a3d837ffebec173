"""The served program without its broker: frames by hand on its standard input and output, for tests/served.py. The rules are those of
server/README.md, "Frames"."""
import subprocess

from scratch import expect
from served_store import ID, SECONDS

# a client's lines, and the replies that come to them after `opened 0`
LINES = ["create 0:A", "begin t 6ba7b810-9dad-11d1-80b4-00c04fd430c8", "tx t set 0:A v 4 01000000", "commit t", "get 0:A v", "fold", "get 0:B v"]
REPLIES = ["opened 0", "created 1 accepted 1", "ok", "ok", "committed 2", "value 4 01000000", "E17 Unsupported", "E2 NotFound"]
# heads that are none, and frames of places that aren't taken
WRONG = [b"nonsense\n", b"open\n", b"open 31\n", b"open 01\n", b"open 1 2\n", b"open  1\n", b"open -1\n", b"OPEN 1\n", b"ready\n", b"data 1\n",
         b"open 1\ndata 1 0\n", b"open 1\ndata 1 65537\n", b"data 1 3\nabc", b"more 1\n", b"end 1\n", b"gone 1\n", b"open 1\nopen 1\n", b"x" * 600,
         b"open 1\ndata 1 5\nabc"]


class Frames:
    """The program that serves a store, and what it writes."""

    def __init__(self, program, store):
        self.process = subprocess.Popen([program.path, "serve", store], stdin=subprocess.PIPE, stdout=subprocess.PIPE, stderr=subprocess.PIPE)

    def write(self, content):
        self.process.stdin.write(content)
        self.process.stdin.flush()

    def read(self):
        """The next head, and the bytes that it carries; none at the end."""
        head = self.process.stdout.readline().decode()
        words = head.split()
        carried = self.process.stdout.read(int(words[2])) if words[:1] == ["data"] else b""
        return head.rstrip("\n"), carried

    def end(self):
        """Ends the input: the status, and what else comes."""
        printed, told = self.process.communicate(timeout=SECONDS)
        return self.process.returncode, printed, told


def talk(frames, place, pieces):
    """Sends these pieces of a client, each once the last one was taken, and its end; what it is answered, and how often more was asked."""
    answers, more, left = b"", 0, list(pieces)
    frames.write(f"open {place}\n".encode())
    if left:
        piece = left.pop(0)
        frames.write(f"data {place} {len(piece)}\n".encode() + piece)
    while True:
        head, carried = frames.read()
        if head == f"end {place}" or not head:
            return answers.decode(), more, head
        if carried:
            answers += carried
            frames.write(f"more {place}\n".encode())
            continue
        more += head == f"more {place}"
        piece = left.pop(0) if left else None
        frames.write(f"data {place} {len(piece)}\n".encode() + piece if piece else f"end {place}\n".encode())


def frames_by_hand(bench):
    """One client's stored input: its replies come in frames, whatever pieces its lines are cut into; a wrong head ends the program."""
    store = f"{bench.home}/store"
    for size in (1, 7, 65_536):
        subprocess.run(["rm", "-rf", store], check=True)
        subprocess.run([bench.program.path, "new", store, ID, "1"], check=True, stdout=subprocess.DEVNULL, timeout=SECONDS)
        content = "".join(f"{line}\n" for line in LINES).encode()
        pieces = [content[at:at + size] for at in range(0, len(content), size)]
        frames = Frames(bench.program, store)
        yield expect("the first frame", frames.read(), ("ready", b""))
        answers, more, last = talk(frames, 30, pieces)
        yield expect(f"pieces of {size}: the replies", answers.splitlines(), REPLIES)
        yield expect(f"pieces of {size}: each was taken", (more, last), (len(pieces), "end 30"))
        yield expect(f"pieces of {size}: the end", frames.end(), (0, b"", b""))
    for wrong in WRONG:
        frames = Frames(bench.program, store)
        frames.read()
        frames.write(wrong)
        status, _, told = frames.end()
        yield expect(f"{wrong[:30]!r}", (status, told), (2, b""))


PARTS = [frames_by_hand]
