"""Stores that a broker and the program serve, and connections of lines to them: what the scripts that try them share."""
import os
import select
import signal
import socket
import subprocess
import tempfile
import time
import uuid
from contextlib import contextmanager

from broker_build import built
from scratch import Program

# no wait takes longer, also on a machine that does much else
SECONDS = 100
ID = "00112233-4455-6677-8899-aabbccddeeff"
# the path of a socket has 107 bytes at most
LONGEST_FOLDER = 60


def until(condition, seconds=SECONDS):
    """Whether this comes to be."""
    end = time.monotonic() + seconds
    while not condition():
        if time.monotonic() > end:
            return False
        time.sleep(0.002)
    return True


class Lines:
    """A connection of plain lines; no client of ours is between."""

    def __init__(self, path, opened=True):
        self.socket = socket.socket(socket.AF_UNIX)
        self.socket.settimeout(SECONDS)
        self.socket.connect(path)
        self.come = b""
        self.first = self.read() if opened else None

    def send(self, *lines):
        self.push("".join(f"{line}\n" for line in lines).encode())

    def push(self, content):
        self.socket.sendall(content)

    def read(self):
        """The next reply, or what came before the connection's end: no LF is behind that."""
        while b"\n" not in self.come:
            try:
                got = self.socket.recv(1 << 18)
            except ConnectionResetError:
                got = b""
            if not got:
                rest, self.come = self.come, b""
                return rest.decode() or None
            self.come += got
        line, _, self.come = self.come.partition(b"\n")
        return line.decode()

    def ask(self, *lines):
        """The replies to lines that are sent together; of one line it alone."""
        self.send(*lines)
        replies = [self.read() for _ in lines]
        return replies if len(lines) > 1 else replies[0]

    def rest(self):
        """What comes until the end."""
        return list(iter(self.read, None))

    def is_silent(self, seconds=0.1):
        """Whether nothing comes for so long, which shows little of a busy machine."""
        return not self.come and not select.select([self.socket], [], [], seconds)[0]

    def half_close(self):
        self.socket.shutdown(socket.SHUT_WR)

    def close(self):
        self.socket.close()

    def __enter__(self):
        return self

    def __exit__(self, *_):
        self.close()


def replies_of(program, store, *lines):
    """What a run of the program on a store answers to lines."""
    ran = subprocess.run([program.path, "wait", "60", "run", store, "/dev/stdin"], capture_output=True, timeout=SECONDS,
                         input="".join(f"{line}\n" for line in lines).encode())
    return ran.stdout.decode().splitlines()


class Served:
    """A store that is served, in a folder of its own."""

    def __init__(self, program: Program, broker, folder, hives=1, options=(), before=(), store=None, make=True, wait=60, backups=None,
                 **given):
        self.program, self.broker, self.options, self.before, self.seconds = program, broker, options, before, wait
        self.home = program.at(folder)
        self.store, self.path = store or f"{self.home}/store", f"{self.home}/socket"
        # the folder of backups, if there is to be one
        self.backups = backups
        self.given, self.process, self.server = given, None, None
        os.mkdir(self.home, 0o755)
        if make:
            subprocess.run([program.path, "new", self.store, ID, str(hives)], check=True, stdout=subprocess.DEVNULL, timeout=SECONDS)

    def start(self, **given):
        """Starts the broker, and waits until it is ready; answers what it said."""
        words = [self.broker, *self.options, self.path, *self.before, self.program.path, "wait", str(self.seconds), "serve", self.store]
        words += [self.backups] if self.backups else []
        self.process = subprocess.Popen(words, stdin=subprocess.DEVNULL, stdout=subprocess.PIPE, stderr=subprocess.PIPE, **self.given,
                                        **given)
        said = self.process.stdout.readline().decode()
        if said == "ready\n":
            self.server = self.child_of(self.process.pid)
        return said

    @staticmethod
    def child_of(process):
        with open(f"/proc/{process}/task/{process}/children", encoding="ascii") as file:
            return int(file.read().split()[0])

    def lines(self, **given):
        return Lines(self.path, **given)

    def end(self, number=signal.SIGTERM):
        """Stops it: its status, what else it printed, and what standard error was told."""
        if self.process.poll() is None:
            self.process.send_signal(number)
        return self.wait()

    def wait(self):
        printed, told = self.process.communicate(timeout=SECONDS)
        return self.process.returncode, printed.decode(), told.decode(errors="replace")

    def kill_program(self):
        """Kills the program, and waits for the broker's end."""
        os.kill(self.server, signal.SIGKILL)
        return self.wait()

    def replies(self, *lines):
        """What a run by the program itself answers, once the store isn't served any more."""
        return replies_of(self.program, self.store, *lines)

    def memory(self, process, what="VmRSS"):
        """The memory of a process, in kB."""
        with open(f"/proc/{process}/status", encoding="ascii") as file:
            return next(int(line.split()[1]) for line in file if line.startswith(what))

    def close(self):
        """Whatever happened, no process stays."""
        if self.process and self.process.poll() is None:
            self.process.kill()
        if self.process:
            self.process.wait()
            self.process.stdout.close()
            self.process.stderr.close()


@contextmanager
def served(program, broker, folder, *options, hives=1, start=True, **given):
    """A store that is served while this lasts."""
    it = Served(program, broker, folder, hives, options, **given)
    try:
        if start and (said := it.start()) != "ready\n":
            raise OSError(f"{said!r} in the place of ready: {it.wait()}")
        yield it
    finally:
        it.close()


class Bench:
    """Where a part of a test serves stores, and how often it tries something."""

    def __init__(self, program, broker, library, home, is_full=False):
        self.program, self.broker, self.library, self.home, self.is_full = program, broker, library, home, is_full
        self._count = 0

    def at(self, *names):
        return os.path.join(self.home, *names)

    def served(self, *options, **given):
        self._count += 1
        return served(self.program, self.broker, f"{self.home}/{self._count}", *options, **given)

    def times(self, few, many):
        return many if self.is_full else few


def transaction(number, *requests):
    """The lines of a transaction of a unit."""
    return [f"begin t {number}", *(f"tx t {request}" for request in requests), "commit t", "close t"]


def dword(number):
    """A number of 32 bits as lines have it."""
    return number.to_bytes(4, "little").hex()


def number_of(reply):
    """The number that a reply to a read tells; -1 if it tells none."""
    return int.from_bytes(bytes.fromhex(reply.split(" ")[2]), "little") if reply and reply.startswith("value 4 ") else -1


def broker_in(program):
    """The broker, built into a program's folder."""
    path = program.at("regtxd")
    return path if os.path.exists(path) else built("regtxd", program.home)


def unit(*words):
    """A unit of work by its name."""
    return str(uuid.uuid5(uuid.UUID(ID), " ".join(map(str, words))))


def short_folder(folder):
    """A folder in which sockets have paths that are short enough: this one, or None for that of the system."""
    where = folder or tempfile.gettempdir()
    return folder if len(where) <= LONGEST_FOLDER else "/tmp"
