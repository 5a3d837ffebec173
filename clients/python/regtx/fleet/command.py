"""The command `regtx-replicate`."""
from __future__ import annotations

import argparse
import os
import re
import socket
import sys
import uuid
from typing import List, Optional

from ..errors import RegtxError
from .beginnings import begin, begin_from_export
from .errors import FleetError
from .etcd import Access, Etcd, endpoints_of
from .etcd_log import EtcdLog
from .folder_log import FolderLog
from .log import Log
from .openings import Opening, ServedOpening
from .pauses import Ended, Ending, say
from .publisher import Publisher, Rules
from .replica import ROLE, Replica
from .records import Role
from .sources import Source, store_id
from .subscriber import Subscriber

ETCD = re.compile(r"etcd://([^/]+)((?:/[A-Za-z0-9._-]+)*)/?")
NAME = re.compile(r"[A-Za-z0-9][A-Za-z0-9._-]*")
PREFIX, PASSWORD = "/regtx", "REGTX_ETCD_PASSWORD"
DESCRIPTION = """Carries each change of one store to many machines, by etcd or by a folder.

publish  follows a store, and writes each of its changes under its number
begin    makes a replica of a backup
subscribe  applies each published change to a replica, in order and once
status   prints what is published, and where replicas are

TARGET is etcd://HOST:PORT,HOST:PORT/PREFIX, or a folder. docs/FLEET.md says more."""


def _natural(text: str) -> int:
    if not re.fullmatch(r"[0-9]{1,19}", text):
        raise argparse.ArgumentTypeError(f"a whole number, and not {text}")
    return int(text)


def _seconds(text: str) -> float:
    if not re.fullmatch(r"[0-9]{1,6}(\.[0-9]{1,3})?", text) or not float(text):
        raise argparse.ArgumentTypeError(f"seconds, such as 30 or 0.5, and not {text}")
    return float(text)


def _mode(text: str) -> int:
    if not re.fullmatch(r"0?[0-7]{3}", text):
        raise argparse.ArgumentTypeError(f"a mode in octal digits, and not {text}")
    return int(text, 8)


def _name(text: str) -> str:
    if not NAME.fullmatch(text):
        raise argparse.ArgumentTypeError(f"letters, digits, full stops, `-` and `_`, and not {text}")
    return text


def _add_etcd(words: argparse.ArgumentParser) -> None:
    words.add_argument("--cacert", metavar="FILE", help="the authority of etcd's certificates: with it TLS is used")
    words.add_argument("--cert", metavar="FILE", help="a certificate for etcd that wants one")
    words.add_argument("--key", metavar="FILE", help="its key")
    words.add_argument("--user", help=f"a user of etcd; the password is {PASSWORD} of the environment, or the first line of --password-file")
    words.add_argument("--password-file", metavar="FILE")


def _add_program(words: argparse.ArgumentParser) -> None:
    words.add_argument("--program", default="regtx", help="the program, if it isn't on the PATH")


def _add_publish(words: argparse.ArgumentParser) -> None:
    words.add_argument("store", metavar="STORE", help="its folder, or the socket of its server")
    words.add_argument("--to", required=True, metavar="TARGET")
    words.add_argument("--id", type=uuid.UUID, help="the store's id, which a socket doesn't tell")
    words.add_argument("--server-uid", type=int, help="the user of the server, if it is neither root nor this one")
    words.add_argument("--once", action="store_true", help="end once all is published that can be told now")
    words.add_argument("--after", type=_natural, metavar="N", help="begin after this number, and not after the last one")
    words.add_argument("--anew", action="store_true", help="begin a new history, of a store that was restored")
    words.add_argument("--keep", type=_natural, default=Rules.keep, metavar="N", help=f"keep at most so many changes; {Rules.keep} without it")
    words.add_argument("--look", type=_seconds, default=Rules.look, metavar="SECONDS", help="how often changes that nobody needs are removed")
    words.add_argument("--snapshots", metavar="FOLDER", help="the server's folder of backups, for snapshots")
    words.add_argument("--snapshot-every", type=_natural, default=0, metavar="N", help="make a snapshot after so many changes")
    words.add_argument("--where", metavar="TEXT", help="what is told to replicas in the place of FOLDER")
    words.add_argument("--compact-etcd", action="store_true", help="compact etcd's revisions too, which no other program needs then")
    _add_program(words)
    _add_etcd(words)


def _add_begin(words: argparse.ArgumentParser) -> None:
    words.add_argument("store", metavar="STORE", help="the replica's folder. What is there is kept as STORE.before")
    made = words.add_mutually_exclusive_group(required=True)
    made.add_argument("--of", metavar="BACKUP", help="the folder of a backup or of a snapshot")
    made.add_argument("--export", metavar="FILE", help="a registration file that was exported; with --id, --number and --hives")
    words.add_argument("--id", type=uuid.UUID, help="the store's id, which an export doesn't tell")
    words.add_argument("--number", type=_natural, metavar="N", help="the number of which the export is")
    words.add_argument("--hives", type=_natural, metavar="N", help="how many hives the store has")
    words.add_argument("--from", required=True, dest="source", metavar="TARGET")
    _add_program(words)
    _add_etcd(words)


def _add_subscribe(words: argparse.ArgumentParser) -> None:
    words.add_argument("store", metavar="STORE", help="the replica's folder")
    words.add_argument("--from", required=True, dest="source", metavar="TARGET")
    words.add_argument("--id", type=uuid.UUID, help="the id of the store, if there is no replica yet")
    words.add_argument("--once", action="store_true", help="end once all is applied that is published now")
    words.add_argument("--verbose", action="store_true", help="print the number of each change once it is applied")
    words.add_argument("--serve", metavar="SOCKET", help="let others read the replica at this socket")
    words.add_argument("--mode", type=_mode, default=0o600, help="the socket's mode; 0600 without it")
    words.add_argument("--broker", default="regtxd", help="the broker, if it isn't on the PATH")
    words.add_argument("--snapshots", metavar="FOLDER", help="where snapshots come to on this machine: begin anew from them")
    words.add_argument("--name", type=_name, help="the name by which the replica tells its number; this machine's without it")
    words.add_argument("--idle", type=_seconds, default=60.0, metavar="SECONDS", help="ask anew if nothing came for so long")
    words.add_argument("--report", type=_seconds, default=60.0, metavar="SECONDS", help="how often the replica tells its number at most")
    _add_program(words)
    _add_etcd(words)


def _add_status(words: argparse.ArgumentParser) -> None:
    words.add_argument("--from", required=True, dest="source", metavar="TARGET")
    words.add_argument("--id", type=uuid.UUID, required=True, help="the store's id")
    _add_etcd(words)


def _parser() -> argparse.ArgumentParser:
    parser = argparse.ArgumentParser("regtx-replicate", description=DESCRIPTION, formatter_class=argparse.RawDescriptionHelpFormatter)
    commands = parser.add_subparsers(dest="command", required=True, metavar="COMMAND")
    _add_publish(commands.add_parser("publish", help="follow a store, and write its changes"))
    _add_begin(commands.add_parser("begin", help="make a replica of a backup"))
    _add_subscribe(commands.add_parser("subscribe", help="keep a replica up to date"))
    _add_status(commands.add_parser("status", help="print what is published, and where replicas are"))
    return parser


def _access(given: argparse.Namespace) -> Access:
    password = os.environ.get(PASSWORD, "")
    if given.password_file:
        with open(given.password_file, encoding="utf-8") as file:
            password = file.readline().rstrip("\n")
    return Access(given.cacert, given.cert, given.key, given.user, password)


def _log(target: str, store: uuid.UUID, given: argparse.Namespace) -> Log:
    told = ETCD.fullmatch(target)
    if told:
        etcd = Etcd(endpoints_of(told[1]), _access(given))
        return EtcdLog(etcd, told[2] or PREFIX, store, getattr(given, "compact_etcd", False))
    if "://" in target:
        raise FleetError(f"{target} is neither etcd://HOST:PORT nor a folder")
    if not os.path.isdir(target):
        raise FleetError(f"{target}: no such folder")
    return FolderLog(target, store)


def _publish(given: argparse.Namespace, ending: Ending) -> str:
    source = Source(given.store, given.id, given.program, given.server_uid)
    rules = Rules(given.keep, given.look, given.snapshots, given.where, given.snapshot_every)
    log = _log(given.to, source.id, given)
    return f"published {Publisher(source, log, rules, ending, given.after, given.anew).run(given.once)}"


def _begin(given: argparse.Namespace, _: Ending) -> str:
    if given.of:
        log = _log(given.source, store_id(given.of), given)
        return f"begun {begin(given.store, given.of, log, given.program)}"
    if given.id is None or given.number is None or given.hives is None:
        raise FleetError("of an export, tell --id, --number and --hives too")
    log = _log(given.source, given.id, given)
    return f"begun {begin_from_export(given.store, given.export, given.number, given.hives, log, given.program)}"


def _replica_id(given: argparse.Namespace) -> uuid.UUID:
    """The store whose changes are to be applied: as the replica's role says, or as it is told."""
    path = os.path.join(given.store, ROLE)
    if os.path.exists(path):
        with open(path, encoding="ascii", errors="replace") as file:
            found = Role.read(file.read()).store
        if given.id not in (None, found):
            raise FleetError(f"{given.store} is a replica of {found}, and not of {given.id}")
        return found
    if given.id is None:
        raise FleetError(f"{given.store} is no replica: begin it by `regtx-replicate begin`, or tell --id and --snapshots")
    told_id: uuid.UUID = given.id
    return told_id


def _subscribe(given: argparse.Namespace, ending: Ending) -> str:
    log = _log(given.source, _replica_id(given), given)
    opening = Opening(given.store, given.program)
    if given.serve:
        opening = ServedOpening(given.store, given.program, given.broker, given.serve, given.mode)
    name = given.name or re.sub(r"[^A-Za-z0-9._-]", "-", socket.gethostname()) or "replica"
    try:
        subscriber = Subscriber(Replica(given.store, opening), log, ending, name, given.idle, given.report, given.snapshots,
                                lambda path: begin(given.store, path, log, given.program), given.verbose)
        return f"applied {subscriber.run(given.once)}"
    finally:
        opening.end()


def _status(given: argparse.Namespace, _: Ending) -> str:
    log = _log(given.source, given.id, given)
    head, snapshot = log.head(), log.snapshot()
    if head is None:
        raise FleetError(f"nothing of store {given.id} is published there")
    lines = [f"store {head.store}", f"history {head.history}", f"changes {head.first + 1} to {head.last}"]
    if snapshot is not None and snapshot.history == head.history:
        lines.append(f"snapshot {snapshot.number} {snapshot.where}")
    lines += [f"replica {name} {number}" for name, number in sorted(log.reports().items(), key=lambda each: (each[1], each[0]))]
    return "\n".join(lines)


def main(words: Optional[List[str]] = None) -> int:
    given = _parser().parse_args(words)
    ending = Ending()
    ending.install()
    commands = {"publish": _publish, "begin": _begin, "subscribe": _subscribe, "status": _status}
    try:
        if given.command in ("begin", "status"):
            with ending.waiting():
                told = commands[given.command](given, ending)
        else:
            told = commands[given.command](given, ending)
    except Ended:
        return 0
    except (RegtxError, OSError) as why:
        say(str(why))
        return 1
    print(told, flush=True)
    return 0


if __name__ == "__main__":
    sys.exit(main())
