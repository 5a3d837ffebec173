#!/usr/bin/env python3
"""Uses stores that are served by regtx.aio, and by pools, of clients/python and a built program:

    tests/python_async.py PROGRAM

- tasks: each call beside what a client without asyncio sees; tasks that count together; those who follow, and are cancelled as they
  wait; connections that don't begin, are lost, or are interrupted.
- pools: how many connections a pool of threads or of tasks has, and what comes back to it.

The last line is 'N passed, N failed'; status 0 if none failed. What isn't over after 240 seconds ends with status 1.
"""
import faulthandler
import os
import sys

TOP = os.path.dirname(os.path.dirname(os.path.abspath(__file__)))
CLIENT = os.path.join(TOP, "clients", "python")
sys.dont_write_bytecode = True
sys.path[:0] = [os.path.join(TOP, "tests"), CLIENT, os.path.join(CLIENT, "tests")]
from pools import pools  # noqa: E402
from scratch import finish, memory, program_at, tell  # noqa: E402
from served_store import short_folder  # noqa: E402
from tasks import tasks  # noqa: E402

MOST_SECONDS = 240


def caught(results):
    """The results of a part; an error that is none of its own is one that failed."""
    try:
        yield from results
    except Exception as error:  # noqa: BLE001
        yield f"{type(error).__name__}: {error}"


def main():
    if len(sys.argv) != 2:
        sys.exit(__doc__)
    faulthandler.dump_traceback_later(MOST_SECONDS, exit=True)
    with program_at(sys.argv[1], "python-async-", short_folder(memory())) as program:
        finish([tell(part.__name__, list(caught(part(program)))) for part in (tasks, pools)])


main()
