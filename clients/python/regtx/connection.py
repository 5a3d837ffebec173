"""A connection to the server of a store, by a Unix socket."""
from __future__ import annotations

import os
import select
import socket
import struct
import weakref
from typing import List, Optional, Sequence, Tuple, Union

from .errors import NotTrusted, RunEnded, TooLarge, Unsupported, last, refusal
from .run import Common, Run

Path = Union[str, bytes, "os.PathLike[str]"]
# how many bytes a line has at most, without its LF: at a longer one the server would end the connection
MOST_LINE = 4_194_304
# the process, the user and the group of the other side
PEER = struct.Struct("iII")


class Connection(Run):
    """A connection, which is one session of the store. Further sessions are further connections."""

    TITLE = "connection"

    def __init__(self, path: Path, server_uid: Optional[int], timeout: Optional[float], common: Optional[Common] = None):
        super().__init__(common)
        self._path, self._server_uid, self._timeout = os.fspath(path), server_uid, timeout
        self._others: "weakref.WeakSet[Connection]" = weakref.WeakSet()
        # what came and is no whole reply yet; and why no more comes
        self._come = bytearray()
        self._why: Optional[str] = None
        self._is_lost = False
        self._socket = socket.socket(socket.AF_UNIX)
        weakref.finalize(self, self._socket.close)
        try:
            self._open()
        except BaseException:
            self._socket.close()
            raise

    def _open(self) -> None:
        self._socket.settimeout(self._timeout)
        self._socket.connect(self._path)
        # before anything is sent, and before anything that comes is believed
        _, user, _ = PEER.unpack(self._socket.getsockopt(socket.SOL_SOCKET, socket.SO_PEERCRED, PEER.size))
        if user not in (0, os.geteuid(), self._server_uid):
            raise NotTrusted(os.fsdecode(self._path), user)
        said = self._read_opened()
        if said is not None:
            over, _ = self._ended(said)
            raise refusal(said.rstrip("\n")) or RunEnded(f"{over}, before it said that the store is open")

    def leave(self) -> None:
        self._socket.close()

    def _put(self, lines: bytes) -> None:
        try:
            self._socket.sendall(lines)
        except socket.timeout:
            self._give_up()
        except (BrokenPipeError, ConnectionResetError):
            pass

    def _get(self) -> str:
        looked = 0
        while (end := self._come.find(b"\n", looked)) < 0:
            looked = len(self._come)
            try:
                # nothing is waited for once a line may have been sent in part
                more = b"" if self._why else self._socket.recv(1 << 16)
            except socket.timeout:
                self._give_up()
                more = b""
            except ConnectionResetError:
                more = b""
            if not more:
                end = len(self._come) - 1
                break
            self._come += more
        reply = self._come[:end + 1].decode(errors="replace")
        del self._come[:end + 1]
        return reply

    def _give_up(self) -> None:
        self._why = f"the server took longer than {self._timeout} seconds"

    def _ended(self, reply: str) -> Tuple[str, Optional[int]]:
        self._is_lost = True
        self._socket.close()
        return f"{self._why or 'the server ended the connection'}{last(reply)}", None

    def _exchange(self, lines: Sequence[str], main: int) -> List[str]:
        for line in lines:
            if len(line) > MOST_LINE:
                raise TooLarge("E6 TooLarge", line)
        return super()._exchange(lines, main)

    def fold(self) -> int:
        self.check_process()
        # the server folds by itself
        raise Unsupported("E17 Unsupported", "fold")

    def session(self) -> Tuple[Run, int]:
        self.check_process()
        with self.lock:
            if self._over is not None:
                raise RunEnded(self._over)
            other = Connection(self._path, self._server_uid, self._timeout, self.common)
            self._others.add(other)
            return other, 0

    def end_session(self, number: int) -> None:
        self.check_process()
        self.close()

    def beside(self) -> Connection:
        """A connection of its own, to the same server. It takes as long as it takes to reply."""
        other, _ = self.session()
        assert isinstance(other, Connection)
        other._socket.settimeout(None)
        return other

    def is_as_new(self) -> bool:
        if not super().is_as_new() or self._come:
            return False
        # an end would have come, or what nobody asked for
        looked = select.poll()
        looked.register(self._socket, select.POLLIN)
        return not looked.poll(0)

    @property
    def is_closed(self) -> bool:
        """Whether this side has closed it."""
        return self._is_closed

    def send_line(self, line: str) -> None:
        """Sends a line, whose replies are read by `read_reply`."""
        self._put(f"{line}\n".encode("ascii"))

    def read_reply(self) -> Optional[str]:
        """The next line that comes; None if there is none."""
        try:
            reply = self._get()
        except OSError:
            # it was cut while this waited
            return None
        return reply[:-1] if reply.endswith("\n") else None

    def cut(self) -> None:
        """Ends the connection at once, also under a thread that waits for a reply."""
        if self._over is None:
            self._over, self._is_closed = "the connection was closed", True
        try:
            self._socket.shutdown(socket.SHUT_RDWR)
        except OSError:
            # it has ended already
            pass
        self._socket.close()

    def ask_server(self, line: str) -> str:
        return self.ask(line)

    def close(self) -> None:
        """Ends the session and its others, and waits until their transactions are rolled back. Raises if it was lost before."""
        if os.getpid() != self._process:
            return
        with self.lock:
            if self._is_closed:
                return
            over, self._over, self._is_closed = self._over, "the store is closed", True
            for other in list(self._others):
                try:
                    other.close()
                except RunEnded:
                    # whoever used that session was told
                    pass
            if self._is_lost:
                raise RunEnded(over or "the server ended the connection")
            self._hang_up()

    def _hang_up(self) -> None:
        """The server answers what it was sent, ends the session, and then ends the connection."""
        try:
            self._socket.shutdown(socket.SHUT_WR)
            while self._socket.recv(1 << 16):
                pass
        except OSError:
            # it is gone, or takes too long: the session ends all the same
            pass
        self._socket.close()
