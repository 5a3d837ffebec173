#!/usr/bin/env python3
"""Takes orders into a store, each exactly once, though this or the program is killed: begun again, it goes on.

    examples/exactly_once.py REGTX FOLDER [COUNT]

REGTX is the program. The store is in FOLDER, and is made if that isn't there. COUNT is how many orders there are, else 5.

An order is one transaction: a key of its own, and one less in stock. Its UUID is the transaction's, the same whenever this begins.
So after a kill `kept UUID` tells whether the order was taken, though no reply to its commit came. tests/examples.py runs this, and
tests/kills.py kills it.
"""
import os
import subprocess
import sys
import uuid

STORE, SHOP = "00112233-4455-6677-8899-aabbccddeeff", uuid.UUID("6ba7b810-9dad-11d1-80b4-00c04fd430c8")
STOCK = 10_000
# how many runs are begun before it is given up
RUNS = 100


class Ended(Exception):
    """The run has ended before its time."""


class Run:
    """A run on the store, to which one line is sent at a time."""

    def __init__(self, regtx, folder):
        # the run of a client that was killed may not have ended yet
        self.child = subprocess.Popen([regtx, "wait", "30", "run", folder, "/dev/stdin"], text=True,
                                      stdin=subprocess.PIPE, stdout=subprocess.PIPE)
        opened = self.reply()
        if not opened.startswith("opened "):
            sys.exit(opened)

    def reply(self):
        line = self.child.stdout.readline()
        if not line.endswith("\n"):
            self.child.wait()
            raise Ended
        return line.rstrip("\n")

    def ask(self, line):
        """The reply to a line."""
        try:
            self.child.stdin.write(f"{line}\n")
            self.child.stdin.flush()
        except BrokenPipeError:
            raise Ended from None
        return self.reply()

    def tell(self, line, wanted):
        """The reply to a line, which begins so."""
        reply = self.ask(line)
        if not reply.startswith(wanted):
            sys.exit(f"{line}: {reply}")
        return reply

    def end(self):
        """The run moves all changes into the hives, and ends."""
        self.child.stdin.close()
        refused = self.child.stdout.read()
        if self.child.wait() < 0:
            raise Ended
        if refused:
            sys.exit(f"at the end: {refused}")


def unit_of(order):
    """An order's UUID: the same in each life of this client."""
    return uuid.uuid5(SHOP, f"order {order}")


def left_in(run, prefix=""):
    """How many are in stock; before the first order no value says it."""
    reply = run.ask(f"{prefix}get 0:Orders left")
    if reply == "E2 NotFound":
        return STOCK
    if not reply.startswith("value 4 "):
        sys.exit(f"get: {reply}")
    return int.from_bytes(bytes.fromhex(reply.split(" ")[2]), "little")


def is_taken(run, order):
    """Whether an order's commit is kept."""
    reply = run.ask(f"kept {unit_of(order)}")
    if reply != "E2 NotFound" and not reply.startswith("committed "):
        sys.exit(f"kept: {reply}")
    return reply != "E2 NotFound"


def take(run, order):
    """Takes one order; answers what its commit was answered."""
    run.tell(f"begin t {unit_of(order)}", "ok")
    run.tell(f"tx t create 0:Orders\\{order}", "created")
    left = left_in(run, "tx t ") - 1
    run.tell(f"tx t set 0:Orders left 4 {left.to_bytes(4, 'little').hex()}", "ok")
    committed = run.tell("commit t", "committed")
    run.tell("close t", "ok")
    return committed


def take_all(regtx, folder, count):
    """Takes the orders of which no commit is kept."""
    run = Run(regtx, folder)
    orders = [order for order in range(1, count + 1) if not is_taken(run, order)]
    print(f"{count - len(orders)} of {count} orders were taken before", flush=True)
    for order in orders:
        print(f"order {order}: {take(run, order)}", flush=True)
    left = left_in(run)
    run.end()
    print(f"{count} orders are taken, {left} left", flush=True)


def main():
    if len(sys.argv) not in (3, 4):
        sys.exit(__doc__)
    regtx, folder, count = os.path.realpath(sys.argv[1]), sys.argv[2], int(sys.argv[3]) if len(sys.argv) == 4 else 5
    if not os.path.exists(folder):
        subprocess.run([regtx, "new", folder, STORE, "1"], stdout=subprocess.DEVNULL, check=True)
    for _ in range(RUNS):
        try:
            return take_all(regtx, folder, count)
        except Ended:
            print("the run ended: begin another one", flush=True)
    sys.exit(f"{RUNS} runs ended before their time")


main()
