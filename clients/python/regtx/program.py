"""The program: a run of it on a store, and its commands."""
from __future__ import annotations

import os
import subprocess
import weakref
from io import BufferedReader, BufferedWriter, FileIO
from typing import Dict, List, Optional, Tuple, Union, cast

from .errors import RegtxError, RunEnded, Unsupported, ending, failure, hinted, last
from .run import Run

Folder = Union[str, "os.PathLike[str]"]
# the greatest number that the program's words can carry
MOST_WAIT = 86_400
# how many bytes of standard error an error has at most
MOST_HINTS = 4_096


class _Hints:
    """The standard error of a program, which tells there why something can't be done. It is a file in memory, if there are such."""

    def __init__(self) -> None:
        self._read = 0
        self.file: Optional[FileIO] = None
        try:
            self.file = os.fdopen(os.memfd_create("regtx"), "rb", buffering=0)
        except (AttributeError, OSError):
            pass

    def on(self, error: RegtxError) -> RegtxError:
        """The error with what was told since the last one."""
        if self.file is None or self.file.closed:
            return error
        told = os.pread(self.file.fileno(), MOST_HINTS, self._read)
        self._read += len(told)
        return hinted(error, told)


class Child(Run):
    """A run of the program, which is a process beside this one."""

    def __init__(self, program: Folder, folder: Folder, wait: int):
        super().__init__()
        self._hints = _Hints()
        # a process group of its own: Ctrl-C is for the caller, who can still roll back and close then
        self._child = subprocess.Popen([*_command(program, wait), "run", os.path.abspath(folder), "/dev/stdin"],
                                       stdin=subprocess.PIPE, stdout=subprocess.PIPE, stderr=self._hints.file, env=_environment(),
                                       start_new_session=True)
        weakref.finalize(self, _drop, self._child, self._process, self._hints)
        self._open()

    def _open(self) -> None:
        try:
            said = self._read_opened()
        except BaseException:
            # it may wait for the store, and wouldn't see the end of its lines
            self._child.kill()
            _finish(self._child)
            raise
        if said is not None:
            rest, status = _finish(self._child)
            raise self._hints.on(failure((said + rest).strip("\n"), status))

    def leave(self) -> None:
        # a run doesn't end while anyone may still write to it; what is in these buffers is the maker's, and isn't sent from here
        script, replies = _pipes(self._child)
        script.raw.close()
        replies.raw.close()

    def _put(self, lines: bytes) -> None:
        script, _ = _pipes(self._child)
        try:
            script.write(lines)
            script.flush()
        except BrokenPipeError:
            pass

    def _get(self) -> str:
        _, replies = _pipes(self._child)
        return replies.readline().decode(errors="replace")

    def _ended(self, reply: str) -> Tuple[str, int]:
        rest, status = _finish(self._child)
        return f"the run ended by {ending(status)}{last(reply + rest)}", status

    def _hinted(self, error: RegtxError) -> RegtxError:
        return self._hints.on(error)

    def fold(self) -> int:
        self.check_process()
        with self.lock:
            reply = self.ask("fold")
            self.folds += 1
            return int(reply.split(" ")[1])

    def session(self) -> Tuple[Run, int]:
        number = next(self.numbers)
        with self.lock:
            self.enter(number)
        return self, number

    def end_session(self, number: int) -> None:
        self.ask(f"end {number}")

    def ask_server(self, line: str) -> str:
        self.check_process()
        # a run has its store alone
        raise Unsupported("E17 Unsupported", line)

    def close(self) -> None:
        """Ends the run, once. Raises if it ended before, or if its last lines or its status say more than the replies did."""
        if os.getpid() != self._process:
            return
        with self.lock:
            if self._is_closed:
                return
            over, self._over, self._is_closed = self._over, "the store is closed", True
            if self._child.returncode is not None:
                raise RunEnded(over or "the run ended", None, self._child.returncode)
            rest, status = _finish(self._child)
            lines, wanted = rest.splitlines(), [int(self._was_refused)]
            if self._is_interrupted:
                # replies to the lines within which it was may come first; a failure at the end is one of these
                lines, wanted = [line for line in lines if line.startswith(("E1 ", "E13 ", "E14 "))], [0, 1]
            if lines or status not in wanted:
                raise self._hints.on(failure("\n".join(lines), status))


def _pipes(child: "subprocess.Popen[bytes]") -> Tuple[BufferedWriter, BufferedReader]:
    """What takes the program's lines, and what has its replies."""
    return cast(BufferedWriter, child.stdin), cast(BufferedReader, child.stdout)


def _finish(child: "subprocess.Popen[bytes]") -> Tuple[str, int]:
    """Ends the script; what is printed after that, and the status."""
    script, replies = _pipes(child)
    try:
        script.close()
    except BrokenPipeError:
        pass
    rest = replies.read().decode(errors="replace")
    replies.close()
    return rest, child.wait()


def _drop(child: "subprocess.Popen[bytes]", process: int, hints: _Hints) -> None:
    """Ends a run that nobody can close any more, and waits for that: its store is free then, and no zombie is left."""
    if hints.file is not None:
        hints.file.close()
    if child.returncode is None and os.getpid() == process:
        _finish(child)


def _command(program: Folder, wait: int) -> List[str]:
    if not isinstance(wait, int) or not 0 <= wait <= MOST_WAIT:
        raise ValueError(f"wait is a whole number of seconds, 0 to {MOST_WAIT:,}, and not {wait!r}")
    return [os.fspath(program), *(["wait", str(wait)] if wait else [])]


def _environment() -> Dict[str, str]:
    """The caller's, by which the program tells why something can't be done though standard error is no terminal."""
    return dict(os.environ, REGTX_HINTS="1")


def carry_out(program: Folder, *words: str) -> None:
    ended = subprocess.run([os.fspath(program), *words], stdin=subprocess.DEVNULL, capture_output=True, env=_environment())
    printed = ended.stdout.decode(errors="replace").rstrip("\n")
    if (printed, ended.returncode) != ("ok", 0):
        raise hinted(failure(printed, ended.returncode), ended.stderr[:MOST_HINTS])
