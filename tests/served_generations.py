"""A served store whose history becomes full, again and again: a part of tests/served.py."""
import time

from scratch import expect
from served_store import dword, number_of, transaction, unit

# how many changes a history takes; sessions rest at three quarters, and those with transactions at seven eighths
HISTORY = 1_048_576
SOON, NOW = HISTORY * 3 // 4, HISTORY * 7 // 8
LINES, MOMENT = 1_000, 133_536_834_155_000_000
# a pause of one opening takes less
MOST_SECONDS = 30


class Writer:
    """A client that writes alone, many lines at a time."""

    def __init__(self, it):
        self.client, self.number, self.wrong, self.longest = it.lines(), 0, [], 0.0
        self.note(self.client.ask("create 0:W"))
        self.lines = "".join(f"set 0:W v 4 {dword(number)}\n" for number in range(LINES)).encode()

    def note(self, reply):
        words = (reply or "").split(" ")
        if words[-2:-1] != ["accepted"] or int(words[-1]) <= self.number:
            self.wrong.append(reply)
        else:
            self.number = int(words[-1])

    def write_to(self, number):
        """Writes until changes have this number."""
        while self.number < number and not self.wrong:
            began = time.monotonic()
            self.client.push(self.lines)
            for _ in range(LINES):
                self.note(self.client.read())
            self.longest = max(self.longest, time.monotonic() - began)


def generations(bench):
    """Connections stay, with their moment, whenever the history is emptied; a transaction is ended at seven eighths of it alone."""
    turns = bench.times(1, 3)
    with bench.served(hives=2) as it:
        writer, idle, held = Writer(it), it.lines(), it.lines()
        yield expect("the moment", idle.ask(f"at {MOMENT}"), "ok")
        for turn in range(turns):
            begun, number = writer.number, unit("held", turn)
            yield expect("begun", held.ask(f"begin t {number}", f"tx t create 1:T{turn}"), ["ok", "created 1"])
            # a session that has a transaction goes on behind three quarters
            yield expect("the writer's", writer.client.ask(f"begin w {unit('writer', turn)}"), "ok")
            writer.write_to(begun + SOON + 2 * LINES)
            yield expect("behind three quarters", held.ask(f"tx t set 1:T{turn} v 4 00000000", "outcome t"), ["ok", "active"])
            writer.write_to(begun + NOW + 2 * LINES)
            yield expect("behind seven eighths", held.ask(f"tx t set 1:T{turn} v 4 01000000", "commit t", "outcome t"), 3 * ["E9 NoSuchHandle"])
            yield expect("the writer's, too", writer.client.ask("commit w"), "E9 NoSuchHandle")
            yield expect("nothing of it", held.ask(f"info 1:T{turn}", f"kept {number}"), 2 * ["E2 NotFound"])
            yield expect("it is done again", held.ask(*transaction(number, f"create 1:T{turn}"))[2].partition(" ")[0], "committed")
            replies = idle.ask(f"create 1:I{turn}", f"info 1:I{turn}", "session 1")
            yield expect("an idle connection", replies[0].rpartition(" ")[0], "created 1 accepted")
            yield expect("its moment", replies[1:], [f"info 0 0 {MOMENT}", "E17 Unsupported"])
            writer.number = int(held.ask("flush").split(" ")[1])
            writer.write_to(writer.number + LINES)
        yield expect("each write's reply", writer.wrong, [])
        yield expect("the longest pause", writer.longest < MOST_SECONDS, True)
        last = int(idle.ask("flush").split(" ")[1])
        yield expect("the number", last, writer.number)
        yield expect("the stop", it.end(), (0, "", ""))
    opened, value, keys, *kept = it.replies("get 0:W v", "keys 1:", *(f"kept {unit('held', turn)}" for turn in range(turns)))
    yield expect("what is there", (opened, number_of(value), len(keys.split(" ")) - 2), (f"opened {last}", LINES - 1, 2 * turns))
    yield expect("what is kept", [reply.partition(" ")[0] for reply in kept], turns * ["committed"])


def held_open(bench):
    """A client that holds a transaction and does nothing keeps nobody waiting, also while the history is emptied."""
    with bench.served() as it:
        writer, held = Writer(it), it.lines()
        yield expect("begun", held.ask(f"begin t {unit('held')}", "tx t create 0:T"), ["ok", "created 1"])
        writer.client.socket.settimeout(MOST_SECONDS)
        try:
            writer.write_to(HISTORY + LINES)
        except TimeoutError:
            yield f"a writer waits since its change {writer.number:,} of {HISTORY:,}, since another client holds a transaction"
        yield expect("each write's reply", writer.wrong, [])


PARTS = [generations, held_open]
