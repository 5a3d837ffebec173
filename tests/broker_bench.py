"""A broker under test, the program that a test plays for it, and clients: what the parts of tests/broker.py share."""
import array
import fcntl
import os
import select
import signal
import socket
import struct
import subprocess
import sys
import tempfile
import termios
import time
from contextlib import contextmanager

from framed_programs import Frames
from scratch import NOBODY

# no wait takes longer, also on a machine that does much else; and after how long nothing is taken to come. What a part rests on never
# follows of QUIET alone
SECONDS, QUIET = 100, 0.15
PROGRAMS = os.path.join(os.path.dirname(os.path.abspath(__file__)), "framed_programs.py")
PYTHON = [sys.executable, "-I", "-S"]
SANITIZER_STATUS = 99


class Late(Exception):
    """Something didn't come in time."""


def wait_for(what, seconds=SECONDS):
    if not select.select([what], [], [], seconds)[0]:
        raise Late("nothing came")


def until(condition, seconds=SECONDS):
    """Whether this comes to be."""
    end = time.monotonic() + seconds
    while not condition():
        if time.monotonic() > end:
            return False
        time.sleep(0.005)
    return True


@contextmanager
def child(words, **given):
    """A program that runs; it is killed at the end, if it hasn't ended by then."""
    with subprocess.Popen(words, **given) as process:
        try:
            yield process
        finally:
            process.kill()


class Client:
    """A connection."""

    def __init__(self, path):
        self.socket = socket.socket(socket.AF_UNIX)
        self.socket.settimeout(SECONDS)
        self.socket.connect(path)

    def send(self, content):
        self.socket.sendall(content)

    def read(self, size):
        """So many bytes, or those until the end."""
        found = bytearray()
        while len(found) < size and (got := self.socket.recv(min(size - len(found), 1 << 18))):
            found += got
        return bytes(found)

    def read_all(self):
        """What comes until the end; a failure in its place is told."""
        try:
            return self.read(1 << 62)
        except OSError as why:
            return f"no end: {why}"

    def push(self):
        """Sends until nobody takes more; answers how many bytes were sent."""
        sent = 0
        self.socket.settimeout(QUIET)
        try:
            while sent < 1 << 26:
                sent += self.socket.send(b"x" * 65_536)
        except TimeoutError:
            pass
        self.socket.settimeout(SECONDS)
        return sent

    def half_close(self):
        self.socket.shutdown(socket.SHUT_WR)

    def close(self):
        self.socket.close()


@contextmanager
def as_other():
    """A part of a test as a user who isn't root, which this is."""
    groups, group = os.getgroups(), os.getegid()
    os.setgroups([])
    os.setegid(NOBODY)
    os.seteuid(NOBODY)
    try:
        yield
    finally:
        os.seteuid(0)
        os.setegid(group)
        os.setgroups(groups)


class Puppet:
    """A program whose part the test plays."""

    def __init__(self, listener):
        wait_for(listener)
        self.master = listener.accept()[0]
        self.pid = struct.unpack("3i", self.master.getsockopt(socket.SOL_SOCKET, socket.SO_PEERCRED, struct.calcsize("3i")))[0]
        told, files, _, _ = socket.recv_fds(self.master, 1 << 16, 2)
        self.environment, self.opened = map(str.split, told.decode().split("\n"))
        self.input, self.output = files
        self.frames, self.is_there = Frames(), True

    def next(self, seconds=SECONDS):
        """The next frame; None at the end of the input."""
        while not (frame := self.frames.next()):
            wait_for(self.input, seconds)
            got = os.read(self.input, 1 << 18)
            if not got:
                if self.frames.bytes:
                    raise ValueError("the input ends in the midst of a frame")
                return None
            self.frames.feed(got)
        return frame

    def quiet(self):
        """None if nothing comes; else the frame that came."""
        try:
            return self.next(QUIET) or "the end"
        except Late:
            return None

    def soon(self):
        """The next frame that is here already, or None."""
        try:
            return self.next(0)
        except Late:
            return None

    def write(self, content):
        while content:
            content = content[os.write(self.output, content):]

    def is_read(self):
        """Whether the broker has read all that was written."""
        unread = array.array("i", [0])
        fcntl.ioctl(self.output, termios.FIONREAD, unread)
        return unread[0] == 0

    def close_files(self):
        if self.is_there:
            os.close(self.input)
            os.close(self.output)
        self.is_there = False

    def leave(self, status=0):
        self.close_files()
        try:
            self.master.send(bytes([status]))
        except BrokenPipeError:
            pass
        self.master.close()


class Broker:
    """A broker that runs; its socket is in a folder of its own."""

    def __init__(self, bench, options, command, given):
        self.home = tempfile.mkdtemp(dir=bench.home)
        os.chmod(self.home, 0o755)
        self.path, self.puppets = f"{self.home}/socket", None
        prepare = given.pop("prepare", None)
        if prepare:
            prepare(self.home)
        if command is None:
            self.puppets = socket.socket(socket.AF_UNIX)
            self.puppets.bind(f"{bench.home}/{os.path.basename(self.home)}.puppets")
            self.puppets.listen()
            command = [bench.puppet, self.puppets.getsockname()]
        before, is_met = given.pop("before", []), given.pop("is_met", True)
        environment = dict(os.environ, ASAN_OPTIONS=f"exitcode={SANITIZER_STATUS}", **given.pop("environment", {}))
        self.process = subprocess.Popen([*before, bench.broker, *options, self.path, *command], stdin=subprocess.DEVNULL,
                                        stdout=subprocess.PIPE, stderr=subprocess.PIPE, env=environment, **given)
        self.puppet = None
        try:
            self.puppet = Puppet(self.puppets) if self.puppets and is_met else None
        except BaseException:
            self.close()
            raise

    def line(self):
        """The next line of its output."""
        found = b""
        while not found.endswith(b"\n"):
            wait_for(self.process.stdout)
            got = os.read(self.process.stdout.fileno(), 1)
            if not got:
                return found
            found += got
        return found

    def client(self):
        return Client(self.path)

    def met(self):
        """A client, and its place by what the program is told."""
        client = self.client()
        word, place = self.puppet.next()
        if word != "open":
            raise ValueError(f"{word} in the place of open")
        return client, place

    def end(self):
        """The status, what was printed and not read yet, and what standard error was told."""
        printed, told = self.process.communicate(timeout=SECONDS)
        if self.process.returncode == SANITIZER_STATUS or b"Sanitizer" in told or b"runtime error" in told:
            raise ValueError(told.decode(errors="replace")[-1_500:])
        return self.process.returncode, printed, told.decode()

    def stop(self, status=0, number=signal.SIGTERM):
        """Ends it as an operator does: the status, and whether the program's input ended."""
        self.process.send_signal(number)
        last = self.puppet.next()
        self.puppet.leave(status)
        return self.end()[0], last

    def memory(self):
        """Its resident memory, in kB."""
        with open(f"/proc/{self.process.pid}/status", encoding="ascii") as file:
            return next(int(line.split()[1]) for line in file if line.startswith("VmRSS"))

    def stat(self):
        """What the system tells of its process: the state first."""
        with open(f"/proc/{self.process.pid}/stat", encoding="ascii") as file:
            return file.read().rsplit(")", 1)[1].split()

    def is_at_rest(self):
        """Whether it has read all that its program wrote, and waits for more."""
        return self.puppet.is_read() and self.stat()[0] == "S"

    def next_or_rest(self):
        """The next frame, or None if the broker waits and none has come."""
        found = []

        def has_answer():
            is_at_rest = self.is_at_rest()
            found.append(self.puppet.soon())
            return found[-1] or is_at_rest
        if not until(has_answer):
            raise Late("the broker neither told anything nor rested")
        return found[-1]

    def ticks(self, seconds):
        """What it takes of a processor's time in so many seconds after it has come to rest, in hundredths."""
        def taken():
            return sum(map(int, self.stat()[11:13]))
        until(self.is_at_rest)
        before = taken()
        time.sleep(seconds)
        return taken() - before

    def close(self):
        if self.process.poll() is None:
            self.process.kill()
            self.process.wait()
        self.process.stdout.close()
        self.process.stderr.close()
        if self.puppet and self.puppet.is_there:
            self.puppet.leave()
        if self.puppets:
            self.puppets.close()


class Bench:
    """One build of the two programs, and a folder for what they leave."""

    def __init__(self, folder, name, home):
        self.name, self.home = name, home
        self.broker, self.client = f"{folder}/regtxd.{name}", f"{folder}/regtxc.{name}"
        self.puppet = f"{folder}/puppet"

    @property
    def is_sanitized(self):
        return self.name == "sanitized"

    @contextmanager
    def begun(self, *options, command=None, **given):
        """A broker that is started."""
        broker = Broker(self, options, command, given)
        try:
            yield broker
        finally:
            broker.close()

    @contextmanager
    def ready(self, *options, **given):
        """A broker whose program is ready."""
        with self.begun(*options, **given) as broker:
            if broker.puppet:
                broker.puppet.write(b"ready\n")
            said = broker.line()
            if said != b"ready\n":
                raise ValueError(f"{said!r} in the place of ready: {broker.end()}")
            yield broker

    @contextmanager
    def program(self, *words, options=()):
        """A broker over a program of framed_programs.py; its faults are told at the end."""
        faults = f"{tempfile.mkdtemp(dir=self.home)}/faults"
        with self.ready(*options, command=[*PYTHON, PROGRAMS, words[0], faults, *words[1:]]) as broker:
            broker.faults = lambda: open(faults, encoding="ascii").read() if os.path.exists(faults) else ""
            yield broker

    def words(self, *words):
        """Carries out the broker with these words alone."""
        return subprocess.run([self.broker, *words], cwd=self.home, capture_output=True, stdin=subprocess.DEVNULL, timeout=SECONDS)

    def run(self, *words, **given):
        """Carries out the client program: its status, what it printed, and what standard error was told."""
        ran = subprocess.run([self.client, *words], capture_output=True, timeout=SECONDS, **given)
        if b"Sanitizer" in ran.stderr or b"runtime error" in ran.stderr:
            raise ValueError(ran.stderr.decode(errors="replace")[-1_500:])
        return ran.returncode, ran.stdout, ran.stderr.decode()
