"""A hive's tree as random scripts change it, and the lines of these scripts: what tests/edits.py compares hives with."""
from functools import cache

import reader

LENGTHS = [0, 1, 3, 4, 5, 8, 40, 300, 3_000, 16_344, 16_345, 40_000]
WEIGHTS = [4, 4, 4, 8, 8, 8, 12, 6, 2, 1, 1, 1]


@cache
def folded(name):
    return tuple(ord(unit) - 32 if "a" <= unit <= "z" else ord(unit) for unit in name)


def units(name):
    return name.encode("utf-16-le")


def spelled(name):
    """A name as a script has it."""
    plain = "".join(unit if "!" <= unit <= "~" and unit != "%" else f"%{ord(unit):04x}" for unit in name)
    return {"": "@", "@": "%0040"}.get(plain, plain)


@cache
def is_callable(name):
    """Whether a call may name it."""
    return all(" " <= unit <= "~" for unit in name)


class Node:
    """A key of the model."""

    def __init__(self, name, time=0, descriptor=b"", flags=0, class_bytes=b""):
        self.name, self.time, self.descriptor, self.flags, self.class_bytes = name, time, descriptor, flags, class_bytes
        self.values, self.keys = {}, {}

    @staticmethod
    def of(key):
        """The model of a key of runs/hives/maker.py."""
        node = Node(key.name, key.time, key.descriptor, key.flags, key.class_bytes)
        node.values = {folded(value.name): (value.name, value.kind, value.data) for value in key.values}
        node.keys = {folded(subkey.name): Node.of(subkey) for subkey in key.keys}
        return node

    @staticmethod
    def of_row(row):
        """The model of a key that runs/hives/reader.py has read."""
        node = Node(row.name.decode("utf-16-le"), row.time, row.descriptor, row.flags, row.class_bytes)
        node.values = {name: (text.decode("utf-16-le"), kind, data) for name, (text, kind, data) in row.values.items()}
        node.keys = {name: Node.of_row(key) for name, key in row.keys.items()}
        return node

    def row(self):
        """The same as runs/hives/reader.py has it."""
        row = reader.Row(units(self.name), self.time, self.flags, self.descriptor, self.class_bytes)
        row.values = {name: (units(text), kind, data) for name, (text, kind, data) in self.values.items()}
        row.keys = {name: key.row() for name, key in self.keys.items()}
        return row

    def paths(self, path=()):
        """Each key with its path."""
        yield path, self
        for key in self.keys.values():
            yield from key.paths(path + (key.name,))

    def places(self):
        """Each key that a call may name with its path, those above first."""
        found = [((), self)]
        for path, node in found:
            found += [(path + (key.name,), key) for key in node.keys.values() if is_callable(key.name)]
        return found

    def key(self, path):
        node = self
        for name in path:
            node = node.keys[folded(name)]
        return node

    def set(self, moment, name, kind, data):
        self.values[folded(name)] = (self.values.get(folded(name), (name,))[0], kind, data)
        self.time = moment

    def unset(self, moment, name):
        del self.values[folded(name)]
        self.time = moment

    def create(self, moment, names):
        """The keys of these names, each below the one before, that aren't there."""
        node, names = self, list(names)
        while names and folded(names[0]) in node.keys:
            node = node.keys[folded(names.pop(0))]
        if names:
            node.time = moment
        for name in names:
            node.keys[folded(name)] = Node(name, moment, node.descriptor)
            node = node.keys[folded(name)]

    def delete(self, moment, name):
        del self.keys[folded(name)]
        self.time = moment


class Script:
    """Random operations on a model, and the lines that do them."""

    def __init__(self, root, chances, moment):
        self.root, self.chances, self.moment, self.lines = root, chances, moment, []

    def name(self, many):
        return "".join(self.chances.choice("abAB019_") for _ in range(self.chances.randint(1, many)))

    def tick(self):
        self.moment += 1
        self.lines.append(f"at {self.moment}")

    def operation(self):
        self.tick()
        path, node = self.chances.choice(self.root.places())
        what = self.chances.choices(["create", "delete", "set", "reset", "unset"], [6, 3, 6, 6, 3])[0]
        names = [text for text, _, _ in node.values.values() if is_callable(text)]
        if what == "create":
            self.create(path, [self.name(3) for _ in range(self.chances.choice([1, 1, 1, 2, 4]))])
        elif what == "delete" and path and not node.keys:
            self.delete(path)
        elif what == "unset" and names:
            self.unset(path, self.chances.choice(names))
        else:
            self.set(path, self.chances.choice(names) if what == "reset" and names else self.name(4))

    @staticmethod
    def place(path):
        return "0:" + "\\".join(map(spelled, path))

    def create(self, path, names):
        self.lines.append(f"create {self.place((*path, *names))}")
        self.root.key(path).create(self.moment, names)

    def delete(self, path):
        self.lines.append(f"delete {self.place(path)}")
        self.root.key(path[:-1]).delete(self.moment, path[-1])

    def unset(self, path, name):
        self.lines.append(f"unset {self.place(path)} {spelled(name)}")
        self.root.key(path).unset(self.moment, name)

    def set(self, path, name):
        kind = self.chances.randint(0, 11)
        data = self.chances.randbytes(self.chances.choices(LENGTHS, WEIGHTS)[0])
        self.lines.append(f"set {self.place(path)} {spelled(name)} {kind} {data.hex() or '-'}")
        self.root.key(path).set(self.moment, name, kind, data)
