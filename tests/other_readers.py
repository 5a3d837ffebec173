"""What other programs read in a hive's file: hivexml, of libhivex, and reglookup. Each gives the key paths and the values of all
keys whose names are printable ASCII: hives are compared by these. Of data in segments reglookup is only asked whether they are there:
it puts segments together by their offsets in the file, and not as their list has them. Of hives with plain names reged gives the same,
by the registration file that it exports.
"""
import base64
import re
import shutil
import subprocess
import xml.etree.ElementTree
from urllib.parse import unquote_to_bytes

from edit_model import is_callable
from maker import SEGMENT

BINARY = 3
# what a text of XML may not have; hivexml prints it as it stands in a value's text
NO_XML = re.compile("[^\t\n\r -\ud7ff\ue000-\ufffd\U00010000-\U0010ffff]")


def model(root):
    """The paths, and the values by path and name: their data if they are binary, else None."""
    found = [(path, node) for path, node in root.paths() if all(map(is_callable, path))]
    values = {(path, name): data if kind == BINARY else None
              for path, node in found for name, kind, data in node.values.values() if is_callable(name)}
    return {path for path, _ in found}, values


def hivexml(path):
    """The same, as hivexml prints them."""
    return of_hivexml(subprocess.run(["hivexml", path], stdout=subprocess.PIPE, check=True).stdout)


def of_hivexml(printed):
    """The same of what it printed."""
    keys, values = set(), {}

    def walk(node, names):
        if not all(map(is_callable, names)):
            return
        keys.add(names)
        for value in node.findall("value"):
            name = value.get("key", "")
            is_binary = value.get("type") == "binary"
            if is_callable(name):
                values[names, name] = base64.b64decode(value.get("value", "")) if is_binary else None
        for key in node.findall("node"):
            walk(key, (*names, key.get("name")))

    text = NO_XML.sub("?", printed.decode(errors="replace"))
    walk(xml.etree.ElementTree.fromstring(text).find("node"), ())
    return keys, values


def reglookup(path):
    """The same, as reglookup prints them."""
    return of_reglookup(subprocess.run(["reglookup", "-H", path], stdout=subprocess.PIPE, stderr=subprocess.DEVNULL, check=True).stdout)


def of_reglookup(printed):
    """The same of what it printed."""
    keys, values = set(), {}
    for line in printed.split(b"\n")[:-1]:
        where, kind, data = line.split(b",")[:3]
        names = tuple(unquote_to_bytes(name).decode("latin-1") for name in where.split(b"/")[1:])
        names = names[1:] if not names[0] else names  # the root's own name is empty in paths
        if not all(map(is_callable, names)):
            continue
        if kind == b"KEY":
            keys.add(names)
        else:
            # it prints no data so
            data = b"" if data == b"(null)" else unquote_to_bytes(data)
            values[names[:-1], names[-1]] = data if kind == b"BINARY" else None
    return keys, values


def reged(path):
    """The same, of a hive whose names have no quote and no backslash, as a registration file of reged has them."""
    subprocess.run(["reged", "-x", path, "HKEY_X", "\\", f"{path}.exported"], stdout=subprocess.DEVNULL, check=True)
    with open(f"{path}.exported", encoding="latin-1", newline="") as file:
        text = re.sub(r"\\\r\n *", "", file.read())
    keys, values, root, names = set(), {}, None, ()
    for line in text.split("\r\n"):
        if line.startswith("["):
            path = line[1:-1].rstrip("\\").split("\\")
            # the root comes first, with its own name or without
            root = root or len(path)
            names = tuple(path[root:])
            keys.add(names)
        elif "=" in line:
            name, _, data = line.partition("=")
            is_binary = data.startswith("hex:")
            values[names, name.strip('"')] = bytes.fromhex(data[4:].replace(",", "")) if is_binary else None
    return keys, values


def without_segments(values):
    return {at: data if data is None or len(data) <= SEGMENT else None for at, data in values.items()}


READERS = [reader for reader in (hivexml, reglookup) if shutil.which(reader.__name__)]
READERS_OF_PLAIN = READERS + ([reged] if shutil.which("reged") else [])


def wrong_reading(path, root):
    """Where a program reads something else in a hive's file than a model has."""
    for reader in READERS:
        try:
            keys, values = reader(path)
        except subprocess.CalledProcessError as failed:
            return f"{reader.__name__} fails: {failed}"
        wanted_keys, wanted_values = model(root)
        if reader is reglookup:
            values, wanted_values = without_segments(values), without_segments(wanted_values)
        if keys != wanted_keys:
            return f"{reader.__name__}: keys {sorted(keys ^ wanted_keys)[:3]}"
        apart = [at for at in wanted_values.keys() | values.keys() if wanted_values.get(at, 0) != values.get(at, 0)]
        if apart:
            first = min(apart)
            return f"{reader.__name__}: {first}: {wanted_values.get(first, 0)!r:.80}, found {values.get(first, 0)!r:.80}"
    return None
