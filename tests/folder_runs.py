"""Runs on stores in folders of a scratch folder: what several tests of runs share."""
import subprocess

from scratch import SECONDS, expect, shown

ID = "00112233-4455-6677-8899-aabbccddeeff"
UNOPENED = (b"cannot open store\n", 1)
SCRIPT = "script"


def made(program, folder, hives=1):
    """The name of a new store."""
    printed = program.run("new", folder, ID, str(hives))
    if printed != (b"ok\n", 0):
        raise SystemExit(f"new {folder}: {shown(printed)}")
    return folder


def script_of(program, lines, name=SCRIPT):
    return program.put(name, "".join(f"{line}\n" for line in lines).encode())


def ran(program, folder, lines, **given):
    """What a run of these lines prints, and its status."""
    return program.run("run", folder, script_of(program, lines), **given)


def replies(wanted, status=0):
    return "".join(f"{line}\n" for line in wanted).encode(), status


def wrong_run(program, folder, lines, wanted, status=0, **given):
    """What is wrong with a run, or None."""
    return expect(f"{folder}: {shown(lines)}", ran(program, folder, lines, **given), replies(wanted, status))


class Talk:
    """A run whose lines come through a pipe, one after another."""

    def __init__(self, program, folder):
        self.child = subprocess.Popen([program.path, "run", folder, "/dev/stdin"], cwd=program.home,
                                      stdin=subprocess.PIPE, stdout=subprocess.PIPE)
        self.opened = self.reply()

    def reply(self):
        return self.child.stdout.readline().decode().rstrip("\n")

    def ask(self, line):
        self.child.stdin.write(f"{line}\n".encode())
        self.child.stdin.flush()
        return self.reply()

    def end(self):
        """What else is printed, and the status."""
        rest, _ = self.child.communicate(timeout=SECONDS)
        return rest, self.child.returncode


def bytes_of(program, *names):
    with open(program.at(*names), "rb") as file:
        return file.read()
