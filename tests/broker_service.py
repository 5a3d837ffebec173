"""How a broker begins, who gets in, and how it ends: parts of tests/broker.py."""
import os
import signal
import socket
import stat
import subprocess
import time

from broker_bench import QUIET, SECONDS, Client, as_other, until
from broker_frames import fill
from scratch import NOBODY, expect

OPERATORS = 12_345
# a stop waits a second for clients that don't read; what hangs takes longer than this
STOP_SECONDS = 30
# what `-t` is given, and until when an idle connection has to be ended
IDLE_SECONDS, IDLE_LATEST = 5, 35
CHMOD = b"""
#define _GNU_SOURCE
#include <stdio.h>
#include <stdlib.h>
#include <sys/stat.h>
#include <sys/syscall.h>
#include <unistd.h>
int chmod(const char *path, mode_t mode)
{
    struct stat found;
    FILE *noted = fopen(getenv("NOTED"), "a");
    if (!noted || stat(path, &found) != 0)
        abort();
    fprintf(noted, "%o %u\\n", found.st_mode & 0777, found.st_gid);
    fclose(noted);
    return (int)syscall(SYS_fchmodat, -100, path, mode);
}
"""
# words that are none, and what is told of them beside the usage
WORDS = [[], ["s"], ["-n", "0", "s", "true"], ["-n", "32", "s", "true"], ["-n", "x", "s", "true"], ["-n", "", "s", "true"],
         ["-n", "3x", "s", "true"], ["-t", "0", "s", "true"], ["-t", "-1", "s", "true"], ["-m", "888", "s", "true"],
         ["-m", "1777", "s", "true"], ["-m", "", "s", "true"], ["-g", "no-such-group", "s", "true"], ["-x", "s", "true"],
         ["s" * 108, "true"], ["", "true"], ["-m"], ["-s", "", "s", "true"], ["-s"]]


def words(bench):
    for given in WORDS:
        ran = bench.words(*given)
        yield expect(f"{given}", (ran.returncode, ran.stdout, b"usage: regtxd" in ran.stderr), (2, b"", True))


def begins(bench):
    """Nothing is there before the program is ready; whatever else it says is why it isn't."""
    with bench.begun() as broker:
        # the program's own are the connection to the test, and the folder that it lists
        yield expect("the program's files", sorted(broker.puppet.opened), ["0", "1", "2", "3", "4"])
        yield expect("before it is ready", os.path.exists(broker.path), False)
        broker.puppet.write(b"rea")
        time.sleep(QUIET)
        yield expect("amid its line", os.path.exists(broker.path), False)
        broker.puppet.write(b"dy\n")
        yield expect("ready", broker.line(), b"ready\n")
        yield expect("it is there then", stat.S_IMODE(os.stat(broker.path).st_mode), 0o600)
        yield expect("the program's input", broker.puppet.quiet(), None)
        yield expect("a stop", broker.stop(), (0, None))
        yield expect("and no more after it", os.path.exists(broker.path), False)
    for said, status, wanted in [(b"cannot open store\n", 1, (1, b"cannot open store\n")), (b"E13 DiskFault\n", 3, (3, b"E13 DiskFault\n")),
                                 (b"why\nand more\n", 0, (1, b"why\n")), (b"readyy\n", 1, (1, b"readyy\n")), (b"", 0, (1, b"")),
                                 (b"", 4, (4, b"")), (b"ready", 0, (1, b"")), (b"data 1 5\n", 0, (1, b"data 1 5\n"))]:
        with bench.begun() as broker:
            broker.puppet.write(said)
            if b"\n" in said:
                broker.puppet.next()
            broker.puppet.leave(status)
            yield expect(f"{said} with status {status}", broker.end()[:2], wanted)
            yield expect(f"{said}: the socket", os.path.exists(broker.path), False)
    with bench.begun(command=["/no/such/program"]) as broker:
        status, printed, told = broker.end()
        yield expect("no program", (status, printed, "/no/such/program" in told), (1, b"", True))
    for hints, wanted in [({}, b"1\n"), ({"REGTX_HINTS": "0"}, b"0\n"), ({"REGTX_HINTS": ""}, b"\n")]:
        with bench.begun(command=["sh", "-c", "echo $REGTX_HINTS"], environment=hints) as broker:
            yield expect(f"what a program has with {hints}", broker.end()[:2], (1, wanted))


def stale(home):
    with socket.socket(socket.AF_UNIX) as old:
        old.bind(f"{home}/socket")


def plain_file(home):
    with open(f"{home}/socket", "w", encoding="ascii") as file:
        file.write("mine")


def anothers(home):
    stale(home)
    os.chown(f"{home}/socket", NOBODY, NOBODY)


def refused(broker, title, is_there=True):
    """What is wrong with a broker that can't open its socket once its program is ready."""
    broker.puppet.write(b"ready\n")
    last = broker.puppet.next()
    broker.puppet.leave()
    status, printed, told = broker.end()
    yield expect(title, (last, status, printed, broker.path in told), (None, 1, b"", True))
    yield expect(f"{title}: what is there", os.path.lexists(broker.path), is_there)


def doors(bench):
    """Modes, groups, folders, and what stands in the socket's place."""
    with bench.ready("-m", "0660", *(["-g", str(OPERATORS)] if os.geteuid() == 0 else [])) as broker:
        found = os.stat(broker.path)
        yield expect("-m 0660", stat.S_IMODE(found.st_mode), 0o660)
        if os.geteuid() == 0:
            yield expect("-g", found.st_gid, OPERATORS)
    for mode in (0o777, 0o1777, 0o775, 0o770, 0o757):
        with bench.begun(prepare=lambda home: os.chmod(home, mode), is_met=False, preexec_fn=lambda: os.umask(0)) as broker:
            # Broker makes its folder 0755, and `prepare` comes after that
            status, printed, told = broker.end()
            yield expect(f"a folder of mode {mode:o}", (status, printed, broker.home in told), (1, b"", True))
    with bench.begun(prepare=stale) as broker:
        before = os.stat(broker.path).st_ino
        time.sleep(QUIET)
        yield expect("an old socket, before it is ready", os.stat(broker.path).st_ino, before)
        broker.puppet.write(b"ready\n")
        yield expect("an old socket", broker.line(), b"ready\n")
        yield expect("a client in its place", broker.met()[1] in range(31), True)
    with bench.begun(prepare=plain_file) as broker:
        yield from refused(broker, "a file")
        with open(broker.path, encoding="ascii") as file:
            yield expect("a file's content", file.read(), "mine")
    with bench.begun(prepare=lambda home: os.symlink("elsewhere", f"{home}/socket")) as broker:
        yield from refused(broker, "a link")
    with bench.begun() as broker, socket.socket(socket.AF_UNIX) as other:
        other.bind(broker.path)
        other.listen()
        yield from refused(broker, "a socket of another service")
    yield from doors_of_root(bench)


def noting(bench):
    """What has a broker note how its socket's file is as its mode is set: the mode and the group. Nothing if it is sanitized, whose
    runtime has to come first."""
    if bench.is_sanitized:
        return None
    subprocess.run(["cc", "-shared", "-fPIC", "-x", "c", "-", "-o", f"{bench.home}/noting.so"], input=CHMOD, check=True,
                   timeout=SECONDS)
    return {"environment": {"LD_PRELOAD": f"{bench.home}/noting.so", "NOTED": f"{bench.home}/noted"}}


def opened_last(bench):
    """The socket's file is for its owner alone until it has its group."""
    given = noting(bench)
    if not given:
        return
    group = OPERATORS if os.geteuid() == 0 else os.getegid()
    with bench.ready("-m", "0666", "-g", str(group), preexec_fn=lambda: os.umask(0), **given) as broker:
        with open(f"{bench.home}/noted", encoding="ascii") as file:
            yield expect("before its mode is set", file.read(), f"600 {group}\n")
        yield expect("then", stat.S_IMODE(os.stat(broker.path).st_mode), 0o666)


def doors_of_root(bench):
    if os.geteuid() != 0:
        return
    with bench.begun(prepare=anothers) as broker:
        yield from refused(broker, "another user's socket")
    with bench.begun(prepare=lambda home: os.chown(home, NOBODY, 0), is_met=False) as broker:
        yield expect("another user's folder", broker.end()[:2], (1, b""))
    for mode, is_let in (("0600", False), ("0660", False), ("0666", True)):
        with bench.ready("-m", mode) as broker:
            with as_other():
                yield expect(f"another user at {mode}", may_connect(broker.path), is_let)


def may_connect(path):
    try:
        Client(path).close()
        return True
    except PermissionError:
        return False


def served(bench):
    """-s tells the socket's path in the file of a folder while the service lasts, and touches nothing else there."""
    folder, where = f"{bench.home}/store", f"{bench.home}/store/served"
    os.mkdir(folder, 0o755)
    for title, prepare in [("nothing is there", lambda: None), ("an old file", lambda: write(where, "old\n" * 100)),
                           ("a link", lambda: os.symlink(f"{folder}/journal", where))]:
        write(f"{folder}/journal", "mine")
        prepare()
        before = {"served"} & set(os.listdir(folder))
        with bench.begun("-s", folder) as broker:
            time.sleep(QUIET)
            yield expect(f"{title}: before it is ready", {"served"} & set(os.listdir(folder)), before)
            broker.puppet.write(b"ready\n")
            yield expect(f"{title}: ready", broker.line(), b"ready\n")
            yield expect(f"{title}: the path", read(where), f"{broker.path}\n")
            yield expect(f"{title}: its mode", stat.S_IMODE(os.lstat(where).st_mode), 0o644)
            yield expect(f"{title}: a stop", broker.stop(), (0, None))
        yield expect(f"{title}: what is left", (os.listdir(folder), read(f"{folder}/journal")), (["journal"], "mine"))
    yield from served_in_vain(bench, folder, where)


def served_in_vain(bench, folder, where):
    with bench.ready("-s", folder) as broker:
        # another broker has begun since then
        os.rename(where, f"{folder}/before")
        write(where, "another's\n")
        yield expect("another's file", (broker.stop(), read(where)), ((0, None), "another's\n"))
    os.remove(where)
    with bench.ready("-s", folder) as broker:
        broker.puppet.leave(0)
        yield expect("a program that ends unasked", (broker.end()[0], os.path.exists(where)), (1, False))
    with bench.ready("-s", f"{bench.home}/no-folder") as broker:
        _client, place = broker.met()
        yield expect("no folder: it serves", place in range(31), True)
        broker.process.send_signal(signal.SIGTERM)
        broker.puppet.next()
        broker.puppet.leave()
        status, printed, told = broker.end()
        yield expect("no folder: it is told", (status, printed, "no-folder/served: No such file" in told), (0, b"", True))
    with bench.begun("-s", folder) as broker:
        broker.puppet.write(b"cannot open store\n")
        broker.puppet.leave(1)
        yield expect("a store that another has", (broker.end()[0], os.path.exists(where)), (1, False))


def write(path, text):
    with open(path, "w", encoding="ascii") as file:
        file.write(text)


def read(path):
    with open(path, encoding="ascii") as file:
        return file.read()


def deaths(bench):
    """The program ends unasked, at each point: the clients get what was sent, and the status is 1."""
    for title, last in [("with a client", b""), ("amid a head", b"dat"), ("amid a frame", b"data %d 10\nhello"),
                        ("after a session", b"end %d\n"), ("after a frame", b"data %d 2\nok"), ("after its last line", b"E13 DiskFault\n")]:
        for is_killed in (False, True):
            with bench.ready() as broker:
                client, place = broker.met()
                broker.puppet.write(last % place if b"%d" in last else last)
                if is_killed:
                    # its files are open still, as those of a program that it started would be
                    os.kill(broker.puppet.pid, signal.SIGKILL)
                else:
                    broker.puppet.leave(0)
                title_of = f"{title}, {'killed' if is_killed else 'status 0'}"
                yield expect(title_of, client.read_all(), last.partition(b"\n")[2] if last.startswith(b"data") else b"")
                status, printed, told = broker.end()
                yield expect(f"{title_of}: status", (status, printed), (1, last if last.startswith(b"E13") else b""))
                yield expect(f"{title_of}: it is told", told != "" or last.startswith(b"E13"), True)
                yield expect(f"{title_of}: the socket's file", os.path.exists(broker.path), False)
    with bench.ready() as broker:
        client, _ = broker.met()
        os.close(broker.puppet.input)
        client.send(b"to nobody")
        yield expect("a program that reads no more", until(lambda: not os.path.exists(broker.path)), True)
        broker.puppet.input = os.open("/dev/null", os.O_RDONLY)
        broker.puppet.leave()
        yield expect("its end", (client.read_all(), broker.end()[0]), (b"", 1))


def stops(bench):
    """SIGTERM and SIGINT: the program's input ends after whole frames, its last replies are handed on, and its status counts."""
    for number, status, wanted in [(signal.SIGTERM, 0, 0), (signal.SIGINT, 0, 0), (signal.SIGTERM, 7, 7)]:
        with bench.ready() as broker:
            clients = [broker.met() for _ in range(5)]
            clients[1][0].half_close()
            broker.puppet.next()
            began = time.monotonic()
            broker.process.send_signal(number)
            yield expect("the input's end", broker.puppet.next(), None)
            yield expect("the socket goes before", os.path.exists(broker.path), False)
            for client, place in clients:
                broker.puppet.write(b"data %d 4\nlast" % place)
            broker.puppet.leave(status)
            yield expect("last replies", [client.read_all() for client, _ in clients], [b"last"] * 5)
            yield expect("status", broker.end(), (wanted, b"", ""))
            yield expect("its time", time.monotonic() - began < STOP_SECONDS, True)
    yield from stops_of_others(bench)


def stops_of_others(bench):
    with bench.begun() as broker:
        broker.process.send_signal(signal.SIGTERM)
        yield expect("before it is ready", broker.puppet.next(), None)
        broker.puppet.write(b"ready\n")
        broker.puppet.leave()
        yield expect("and ready then", (broker.end(), os.path.exists(broker.path)), ((0, b"", ""), False))
    with bench.ready() as broker:
        clients = [broker.met() for _ in range(4)]
        for client, _ in clients:
            client.push()
        broker.process.send_signal(signal.SIGTERM)
        until(lambda: not os.path.exists(broker.path))
        found = list(iter(broker.puppet.next, None))
        places = [place for word, place, *_ in found if word == "data"]
        yield expect("whole frames", (len(places), sorted(places), len(found)), (len(places), sorted(set(places)), len(places)))
        broker.puppet.leave()
        yield expect("their end", broker.end()[0], 0)
    with bench.ready() as broker:
        _client, place = broker.met()
        fill(broker, place)
        began = time.monotonic()
        yield expect("a client that doesn't read", broker.stop(), (0, None))
        yield expect("its time", time.monotonic() - began < STOP_SECONDS, True)
    with bench.ready() as broker:
        broker.process.send_signal(signal.SIGTERM)
        broker.puppet.next()
        broker.puppet.write(b"E13 DiskFault\n")
        broker.puppet.leave(1)
        yield expect("work of the end that was refused", broker.end()[:2], (1, b"E13 DiskFault\n"))
    with bench.ready() as broker:
        client, _ = broker.met()
        broker.process.kill()
        yield expect("a broker that is killed", (broker.puppet.next(), client.read_all()), (None, b""))


def idle(bench):
    """-t ends connections that move nothing, and neither those that send nor those that are sent something."""
    with bench.ready("-t", str(IDLE_SECONDS)) as broker:
        began, gone_at = time.monotonic(), {}
        (silent, first), (asker, second), (reader, third) = (broker.met() for _ in range(3))
        while time.monotonic() - began < (IDLE_SECONDS * 1.5 if gone_at else IDLE_LATEST):
            if second not in gone_at and third not in gone_at:
                asker.send(b"x")
                broker.puppet.write(b"data %d 1\nx" % third)
                reader.read(1)
            time.sleep(0.1)
            while frame := broker.puppet.soon():
                if frame[0] == "data":
                    broker.puppet.write(b"more %d\n" % second)
                elif frame[0] == "gone":
                    gone_at[frame[1]] = time.monotonic() - began
        yield expect("who is ended", list(gone_at), [first])
        yield expect("when", IDLE_SECONDS - 0.1 < gone_at.get(first, 0) < IDLE_LATEST, True)
        yield expect("its connection", silent.read_all(), b"")


def handed(listener, *more):
    """What starts a broker as systemd does, with a socket at descriptor 3."""
    script = f'exec 3<&{listener.fileno()}; export LISTEN_PID=$$ LISTEN_FDS=1 {" ".join(more)}; exec "$@"'
    return {"before": ["bash", "-c", script, "bash"], "pass_fds": [listener.fileno()]}


def systemd(bench):
    """A socket that is handed over, and what is told to systemd."""
    with socket.socket(socket.AF_UNIX) as listener, socket.socket(socket.AF_UNIX, socket.SOCK_DGRAM) as notified:
        path = f"{bench.home}/handed"
        listener.bind(path)
        listener.listen()
        notified.bind(f"{bench.home}/notified")
        notified.settimeout(SECONDS)
        waiting = Client(path)
        with bench.begun(environment={"NOTIFY_SOCKET": f"{bench.home}/notified"}, **handed(listener)) as broker:
            names = {"LISTEN_PID", "LISTEN_FDS", "LISTEN_FDNAMES", "NOTIFY_SOCKET"}
            yield expect("what the program sees of it", names & set(broker.puppet.environment), set())
            yield expect("before it is ready", broker.puppet.quiet(), None)
            broker.puppet.write(b"ready\n")
            yield expect("ready", (broker.line(), notified.recv(100)), (b"ready\n", b"READY=1"))
            word, place = broker.puppet.next()
            broker.puppet.write(b"data %d 5\nhello" % place)
            yield expect("who came before it was ready", (word, waiting.read(5), broker.puppet.next()), ("open", b"hello", ("more", place)))
            yield expect("its own path isn't used", os.path.exists(broker.path), False)
            yield expect("a stop", (broker.stop(), notified.recv(100)), ((0, None), b"STOPPING=1"))
            yield expect("the socket is systemd's", os.path.exists(path), True)
        for title, options, more in [("two sockets", [], ["LISTEN_FDS=2"]), ("a mode", ["-m", "0660"], []), ("a group", ["-g", "0"], [])]:
            with bench.begun(*options, is_met=False, **handed(listener, *more)) as broker:
                yield expect(title, broker.end()[:2], (2, b""))
        with bench.begun(is_met=False, **handed(notified)) as broker:
            yield expect("a socket of datagrams", broker.end()[:2], (2, b""))
        with bench.ready(**handed(listener, "LISTEN_PID=1")) as broker:
            yield expect("one for another process", stat.S_ISSOCK(os.stat(broker.path).st_mode), True)


def log(bench):
    """-v tells who comes and goes."""
    with bench.ready("-v") as broker:
        client, place = broker.met()
        client.close()
        broker.puppet.next()
        broker.puppet.write(b"end %d\n" % place)
        broker.process.send_signal(signal.SIGTERM)
        broker.puppet.next()
        broker.puppet.leave()
        told = [f"place {place}: taken by process {os.getpid()} of user {os.geteuid()}", f"place {place}: it has gone",
                f"place {place}: its session has ended"]
        yield expect("-v", broker.end(), (0, b"", "".join(f"regtxd: {line}\n" for line in told)))


PARTS = [words, begins, doors, opened_last, served, deaths, stops, idle, systemd, log]
