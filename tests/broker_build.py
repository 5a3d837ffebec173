"""Builds the broker and the client program of server/: what the scripts that try them share. REGTXD_SOURCES is another folder with the
sources, such as spoiled ones."""
import os
import subprocess

TOP = os.path.dirname(os.path.dirname(os.path.abspath(__file__)))
SERVER = os.environ.get("REGTXD_SOURCES") or os.path.join(TOP, "server")
FLAGS = ["-std=c11", "-Wall", "-Wextra", "-Wpedantic", "-Wshadow", "-Werror"]
SOURCES = {"regtxd": ["regtxd", "broker", "clients", "frames", "listener", "messages", "options", "program", "served_file", "systemd"],
           "regtxc": ["regtxc"]}
BUILD_SECONDS = 300


def build_result(sources, target, flags):
    """What is wrong with a build."""
    ran = subprocess.run(["cc", *FLAGS, *flags, "-o", target, *sources], capture_output=True, text=True, timeout=BUILD_SECONDS)
    return f"{target}: {ran.stderr}" if ran.returncode else None


def sources_of(program):
    return [f"{SERVER}/{source}.c" for source in SOURCES[program]]


def built(program, folder, flags=("-O2",)):
    """The path of one of the two programs, which is built in a folder."""
    path = os.path.join(folder, program)
    why = build_result(sources_of(program), path, flags)
    if why:
        raise OSError(why)
    return path
