"""A machine whose hive has one value that changes, with its logs, for tests of the library for C and of its bindings."""
from log_machines import HEAD, block
from maker import Key, Value, hive
from marvin import PAGE, SECTOR, entry


class ValueMachine:
    """States of the hive, and the entry of each step: that from state i has the number 100 + i. Twenty digits are the value's data."""

    def __init__(self, steps=4):
        file, _ = hive(Key("r", 1, [Key("k", 2, values=[Value("v", 3, b"0" * 20)])]))
        self.root = int.from_bytes(file[36:40], "little")
        self.states = [file[HEAD:].replace(b"0" * 20, self.data(at)) for at in range(steps + 1)]
        self.entries = [entry(100 + at, len(new), [(page, new[page:page + PAGE]) for page in range(0, len(new), PAGE)])
                        for at, new in enumerate(self.states[1:])]

    @staticmethod
    def data(at):
        """The value's data in a state."""
        return b"%d" % at * 20

    def primary(self, at, clean=False):
        """The file in a state, from which a step was begun."""
        return block(100 + at + (not clean), 100 + at, len(self.states[at]), root=self.root) + bytes(HEAD - SECTOR) + self.states[at]

    def log(self, entries):
        """A log of Windows 8.1 and later."""
        return block(100, 100, len(self.states[0]), kind=6, root=self.root) + b"".join(entries)

    def pages(self, at):
        """The log of all pages of a state, as Windows 8 and before write it."""
        front = block(100, 100, len(self.states[at]), kind=1, root=self.root) + b"DIRT" + b"\xff" * (len(self.states[at]) // PAGE)
        return front + bytes(-len(front) % SECTOR) + self.states[at]

    def text(self, at):
        """What `regtx dump` prints of a state."""
        return b"hive 0\nkey 0: 1\nkey 0:k 2\nval v 3 %s\n" % self.data(at).hex().encode()
