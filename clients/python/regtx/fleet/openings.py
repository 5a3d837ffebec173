"""How a subscriber opens its replica: alone, or by a server of its own, so that others can read."""
from __future__ import annotations

import ctypes
import os
import signal
import subprocess
from typing import Optional

from ..errors import refusal
from ..program import Folder
from ..store import Store
from .errors import Unavailable
from .readers import Readers

# `prctl` of Linux: which signal is sent once the parent has died
PR_SET_PDEATHSIG = 1
# how long an earlier program of the replica may take to end, and a server to stop, in seconds
WAIT_SECONDS, STOP_SECONDS, REPLY_SECONDS = 60, 90.0, 120.0


class Opening:
    """Opens a replica's store for its subscriber, who has it alone."""

    # whether the histories of its runs are emptied by the subscriber
    folds = True

    def __init__(self, folder: str, program: Folder):
        self._folder, self._program = os.path.abspath(folder), program

    def open(self) -> Store:
        return Store(self._folder, self._program, WAIT_SECONDS)

    def close(self) -> None:
        """Nobody has it after this."""

    def end(self) -> None:
        """Nobody comes to read it after this."""


class ServedOpening(Opening):
    """Opens it by a server, at a socket for the subscriber's own user. Others read it at another socket, once it was opened."""

    folds = False

    def __init__(self, folder: str, program: Folder, broker: Folder, socket: str, mode: int):
        super().__init__(folder, program)
        self._broker, self._readers_socket, self._mode = broker, os.path.abspath(socket), mode
        self._socket = f"{self._readers_socket}.own"
        self._readers: Optional[Readers] = None
        self._server: Optional["subprocess.Popen[bytes]"] = None
        self._libc = ctypes.CDLL(None, use_errno=True)

    def open(self) -> Store:
        if self._server is None or self._server.poll() is not None:
            self._start()
        store = Store.connect(self._socket, timeout=REPLY_SECONDS)
        if self._readers is None:
            self._readers = Readers(self._readers_socket, self._socket, self._mode)
        return store

    def _start(self) -> None:
        words = [os.fspath(self._broker), self._socket, os.fspath(self._program), "wait", str(WAIT_SECONDS), "serve", self._folder]
        parent = os.getpid()
        self._server = subprocess.Popen(words, stdin=subprocess.DEVNULL, stdout=subprocess.PIPE, start_new_session=True,
                                        preexec_fn=lambda: self._end_with(parent))
        assert self._server.stdout is not None
        try:
            said = self._server.stdout.readline().decode(errors="replace").strip()
        except BaseException:
            self.close()
            raise
        if said != "ready":
            self.close()
            raise refusal(said) or Unavailable(f"{os.fspath(self._broker)}: {said or 'it ended before it was ready'}")

    def _end_with(self, parent: int) -> None:
        """A server whose subscriber has died stops in order; one whose subscriber died before this doesn't begin."""
        self._libc.prctl(PR_SET_PDEATHSIG, signal.SIGTERM)
        if os.getppid() != parent:
            os._exit(1)

    def close(self) -> None:
        server, self._server = self._server, None
        if server is None:
            return
        server.terminate()
        try:
            server.wait(STOP_SECONDS)
        except subprocess.TimeoutExpired:
            # which is safe: the next opening repairs the store
            server.kill()
            server.wait()
        if server.stdout is not None:
            server.stdout.close()

    def end(self) -> None:
        if self._readers is not None:
            self._readers.close()
