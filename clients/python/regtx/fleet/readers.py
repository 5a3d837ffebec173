"""A socket for those who read a replica: their lines go to its server, and lines that write are refused.

In the place of a line that may write the server gets `fold`, which it answers by `E17 Unsupported`. So each line has its reply in order,
and nothing has to be known of replies.
"""
from __future__ import annotations

import os
import selectors
import socket
import stat
import threading
import time
from typing import Dict, Optional, Tuple

from .errors import FleetError

# the first words of lines that write nothing, and are no other's hindrance. A transaction is one: its unit may be that of a change to come
READING = {b"get", b"keys", b"values", b"info", b"kept", b"flush", b"follow", b"watch", b"at"}
REFUSED = b"fold\n"
# how many bytes wait for who doesn't read, and of a line that has no end: the server refuses one of more than 4 MiB
MOST_WAITING, MOST_LINE, PIECE = 262_144, 4_194_304, 65_536
PAUSE = 0.05
READ, WRITE = selectors.EVENT_READ, selectors.EVENT_WRITE


def filtered(line: bytes) -> bytes:
    """A line with its LF, or a refusal in its place if it may write."""
    return line + b"\n" if line.split(b" ", 1)[0] in READING else REFUSED


class _Way:
    """One direction of a connection: what came from a side, and is to go to the other one."""

    def __init__(self, source: socket.socket, target: socket.socket, is_filtered: bool):
        self.source, self.target, self._is_filtered = source, target, is_filtered
        self.waiting, self._part = bytearray(), bytearray()
        self.has_ended = self.is_shut = False

    def take(self) -> None:
        """Takes what has come. An end, or a failure, is passed on once all before it is."""
        try:
            came = self.source.recv(PIECE)
        except BlockingIOError:
            return
        except OSError:
            came = b""
        if not came:
            self.has_ended = True
        elif not self._is_filtered:
            self.waiting += came
        else:
            self._part += came
            self._pass_lines()

    def _pass_lines(self) -> None:
        end = self._part.rfind(b"\n") + 1
        for line in bytes(self._part[:end]).split(b"\n")[:-1]:
            self.waiting += filtered(line)
        del self._part[:end]
        if len(self._part) > MOST_LINE:
            # the server refuses it before it has an end
            self.waiting += self._part
            self._part.clear()

    def give(self) -> bool:
        """Passes on what it can; whether the other side is still there."""
        try:
            if self.waiting:
                del self.waiting[:self.target.send(self.waiting)]
            if self.has_ended and not self.waiting and not self.is_shut:
                self.is_shut = True
                self.target.shutdown(socket.SHUT_WR)
        except BlockingIOError:
            pass
        except OSError:
            return False
        return True

    @property
    def takes(self) -> bool:
        return not self.has_ended and len(self.waiting) < MOST_WAITING

    @property
    def gives(self) -> bool:
        return bool(self.waiting)


class _Pair:
    """A reader, and the connection to the server that is its own."""

    def __init__(self, reader: socket.socket, server: socket.socket):
        self.reader, self.server = reader, server
        self.to_server, self.to_reader = _Way(reader, server, True), _Way(server, reader, False)

    def go(self) -> bool:
        """Moves what there is; whether it goes on."""
        for way in (self.to_server, self.to_reader):
            if way.takes:
                way.take()
        alive = self.to_server.give() or self.to_reader.gives or not self.to_reader.has_ended
        return self.to_reader.give() and alive and not self.to_reader.is_shut

    def interests(self) -> Tuple[int, int]:
        """What is waited for at the reader, and at the server."""
        return ((READ if self.to_server.takes else 0) | (WRITE if self.to_reader.gives else 0),
                (READ if self.to_reader.takes else 0) | (WRITE if self.to_server.gives else 0))

    def close(self) -> None:
        self.reader.close()
        self.server.close()


def _listener(path: str, mode: int) -> socket.socket:
    """Listens at a path, where nobody listens yet."""
    try:
        if stat.S_ISSOCK(os.stat(path).st_mode):
            with socket.socket(socket.AF_UNIX) as asked:
                try:
                    asked.connect(path)
                except ConnectionRefusedError:
                    os.unlink(path)
    except FileNotFoundError:
        pass
    made = socket.socket(socket.AF_UNIX)
    # until its mode is set it is its owner's alone
    before = os.umask(0o177)
    try:
        made.bind(path)
        os.chmod(path, mode)
    except OSError as why:
        made.close()
        raise FleetError(f"{path}: {why.strerror}") from why
    finally:
        os.umask(before)
    made.listen(64)
    made.setblocking(False)
    return made


class Readers:
    """Serves readers by a thread of its own. `own` is the socket of the replica's server."""

    def __init__(self, path: str, own: str, mode: int):
        self._path, self._own = os.path.abspath(path), own
        self._listener = _listener(self._path, mode)
        self._selector = selectors.DefaultSelector()
        self._selector.register(self._listener, READ)
        self._pairs: Dict[socket.socket, _Pair] = {}
        self._thread = threading.Thread(target=self._work, daemon=True)
        self._thread.start()

    def _work(self) -> None:
        while True:
            for key, _ in self._selector.select():
                if key.fileobj is self._listener:
                    self._accept()
                elif (pair := self._pairs.get(key.fileobj)) is not None:  # type: ignore[call-overload]
                    self._move(pair)

    def _accept(self) -> None:
        try:
            reader, _ = self._listener.accept()
        except OSError:
            # no descriptor is free: it isn't asked without a pause
            time.sleep(PAUSE)
            return
        server = self._connected()
        if server is None:
            # the replica begins anew, or is being opened
            reader.close()
            return
        reader.setblocking(False)
        pair = _Pair(reader, server)
        self._pairs[reader] = self._pairs[server] = pair
        self._watch(pair)

    def _connected(self) -> Optional[socket.socket]:
        made = socket.socket(socket.AF_UNIX)
        try:
            made.connect(self._own)
        except OSError:
            made.close()
            return None
        made.setblocking(False)
        return made

    def _move(self, pair: _Pair) -> None:
        if pair.go():
            self._watch(pair)
            return
        for side in (pair.reader, pair.server):
            self._pairs.pop(side, None)
            if side in self._selector.get_map():
                self._selector.unregister(side)
        pair.close()

    def _watch(self, pair: _Pair) -> None:
        for side, events in zip((pair.reader, pair.server), pair.interests()):
            is_known = side in self._selector.get_map()
            if events and is_known:
                self._selector.modify(side, events)
            elif events:
                self._selector.register(side, events)
            elif is_known:
                self._selector.unregister(side)

    def close(self) -> None:
        """Nobody comes in any more."""
        try:
            os.unlink(self._path)
        except FileNotFoundError:
            pass
