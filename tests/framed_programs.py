"""Programs that speak the frames of server/README.md, as `regtx serve` does: what tests/broker.py has the broker start.

    framed_programs.py echo FAULTS        answers what it is sent
    framed_programs.py random FAULTS N    answers as clients ask it, in pieces, an order and at moments of the seed N

Both judge each frame of the broker by the rules of the protocol, and write what breaks one into the file FAULTS.
"""
import hashlib
import os
import random
import re
import select
import sys

MOST = 65_536
HEAD = re.compile(rb"(?:(open|more|end|gone) ([0-9]|[12][0-9]|30)|data ([0-9]|[12][0-9]|30) ([1-9][0-9]{0,4}))")


class Frames:
    """What was read of a broker, taken apart."""

    def __init__(self):
        self.bytes = bytearray()

    def feed(self, got):
        self.bytes += got

    def next(self):
        """The next frame as (word, place) or ('data', place, bytes), or None. A head that is none is a failure."""
        end = self.bytes.find(b"\n")
        if end < 0:
            return None
        told = HEAD.fullmatch(self.bytes[:end])
        if not told or (told[4] and int(told[4]) > MOST):
            raise ValueError(f"no head: {bytes(self.bytes[:end])[:80]!r}")
        if told[1]:
            del self.bytes[:end + 1]
            return told[1].decode(), int(told[2])
        size = int(told[4])
        if len(self.bytes) < end + 1 + size:
            return None
        content = bytes(self.bytes[end + 1:end + 1 + size])
        del self.bytes[:end + 1 + size]
        return "data", int(told[3]), content


class Place:
    """One client's place, as the program sees it."""

    def __init__(self):
        self.is_owed = self.is_untaken = self.has_ended = self.is_gone = False
        self.replies, self.is_finished, self.hash, self.header, self.closes = bytearray(), False, hashlib.sha256(), b"", False


class Judge:
    """The places that are taken, and what the broker did that it may not."""

    def __init__(self, faults):
        self.faults, self.places, self.left = faults, {}, set()

    def fault(self, why):
        with open(self.faults, "a", encoding="ascii") as file:
            file.write(f"{why}\n")

    def take(self, frame):
        """Notes a frame; its place if that has a client. What comes of a place that was left and isn't opened again may be under way."""
        word, number = frame[:2]
        if word == "open":
            if number in self.places:
                self.fault(f"{number} is opened twice")
            self.places[number] = Place()
            self.left.discard(number)
            return self.places[number]
        place = self.places.get(number)
        if place is None:
            if number not in self.left:
                self.fault(f"{word} {number} of a place that nobody took")
            return None
        if word == "data":
            if place.is_untaken or place.has_ended or place.is_gone:
                self.fault(f"data {number} out of turn")
            place.is_untaken = True
        elif word == "more":
            if not place.is_owed:
                self.fault(f"more {number} without data")
            place.is_owed = False
        else:
            if place.is_gone or (word == "end" and place.has_ended):
                self.fault(f"{word} {number} twice")
            place.has_ended, place.is_gone = True, word == "gone"
        return place

    def end(self, number):
        del self.places[number]
        self.left.add(number)
        write_all(b"end %d\n" % number)


def write_all(content):
    while content:
        content = content[os.write(1, content):]


def echo(faults):
    """Answers `opened 0`, and then what it is sent. What the client doesn't read isn't taken."""
    judge, frames = Judge(faults), Frames()
    write_all(b"ready\n")
    while got := os.read(0, 1 << 18):
        frames.feed(got)
        while frame := frames.next():
            place, number = judge.take(frame), frame[1]
            if not place:
                continue
            if frame[0] == "open":
                place.replies += b"opened 0\n"
            if frame[0] == "data":
                place.replies += frame[2]
            if place.is_gone:
                judge.end(number)
            elif place.replies and not place.is_owed:
                taken = b"more %d\n" % number if place.is_untaken else b""
                content = bytes(place.replies[:MOST])
                del place.replies[:MOST]
                place.is_owed, place.is_untaken = True, bool(place.replies) and place.is_untaken
                write_all((taken if not place.is_untaken else b"") + b"data %d %d\n" % (number, len(content)) + content)
            elif place.has_ended and not place.replies and not place.is_owed:
                judge.end(number)


def ask(place, content):
    """The first line of a client, `SEED COUNT WORD`, asks for so many bytes of that seed. After the word `close` they are the last."""
    line, _, behind = (place.header + content).partition(b"\n")
    if not _:
        place.header = line
        return
    seed, count, word = line.split(b" ")
    place.header, place.closes = None, word == b"close"
    place.replies += random.Random(int(seed)).randbytes(int(count))
    place.hash.update(behind)


def note(judge, frame):
    place = judge.take(frame)
    if place and frame[0] == "data":
        if place.header is None:
            place.hash.update(frame[2])
        else:
            ask(place, frame[2])
    if place and place.is_gone:
        judge.end(frame[1])


def act(judge, number, chance):
    """Does one thing of a place, if there is one to do: takes what was sent, or writes a piece, or ends."""
    place = judge.places[number]
    if place.is_untaken and (place.header is not None or chance.random() < 0.5):
        place.is_untaken = False
        write_all(b"more %d\n" % number)
    elif place.is_owed:
        return
    elif place.replies:
        size = min(len(place.replies), chance.choice([1, 100, 4_096, MOST, chance.randint(1, MOST)]))
        content = bytes(place.replies[:size])
        del place.replies[:size]
        place.is_owed = True
        write_all(b"data %d %d\n" % (number, size) + content)
    elif place.header is None and (place.is_finished or place.closes):
        judge.end(number)
    elif place.has_ended and not place.is_untaken:
        place.replies += place.hash.hexdigest().encode() + b"\n"
        place.is_finished, place.header = True, None


def at_random(faults, seed):
    judge, frames, chance = Judge(faults), Frames(), random.Random(seed)
    write_all(b"ready\n")
    while True:
        if select.select([0], [], [], 0.001 if judge.places else None)[0]:
            got = os.read(0, chance.choice([1, 16, 1 << 16]))
            if not got:
                return
            frames.feed(got)
            while frame := frames.next():
                note(judge, frame)
        for number in chance.sample(sorted(judge.places), min(len(judge.places), 3)):
            act(judge, number, chance)


def main():
    word, *given = sys.argv[1:]
    if word == "echo":
        echo(given[0])
    else:
        at_random(given[0], int(given[1]))


if __name__ == "__main__":
    main()
