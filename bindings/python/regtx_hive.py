r"""Windows registry hives in memory, by the library `libregtx`.

    import regtx_hive
    from regtx_hive import Value

    with regtx_hive.Hive.open("SYSTEM") as hive:
        print(hive["Select"].values["Current"].value)
        hive[r"ControlSet001\Services\Disk"].values["Start"] = Value.dword(0)
        hive.write("SYSTEM")

README.md beside this file is its page. The library is `libregtx.so.0`: `load` says where it is looked for.

A path is a str of key names with one backslash between each two; "" is the root. The name "" is that of the default value. In names
`a` to `z` count as `A` to `Z`. A lone surrogate of a name is one in the str too.
"""
from __future__ import annotations

import ctypes
import os
import stat
import struct
import sys
import threading
import time
from codecs import utf_16_be_decode, utf_16_le_decode
from contextlib import contextmanager, suppress
from datetime import datetime, timedelta, timezone
from enum import IntEnum
from typing import (
    Any, Callable, Dict, ItemsView, Iterator, List, Mapping, MutableMapping, NamedTuple, Optional, Sequence, Tuple, TypeVar, Union,
    ValuesView)

__version__ = "0.9.0"
__all__ = ["Cursor", "Entry", "Hive", "HiveError", "Key", "Kind", "NotFound", "Snapshot", "Subkeys", "Value", "Values",
           "datetime_of", "load", "moment_of", "version"]

_T = TypeVar("_T")
Content = Union[bytes, bytearray, memoryview]
FilePath = Union[str, "os.PathLike[str]"]

_NAME = "libregtx.so.0"
# numbers of regtx.h; and those that answer a path at which there is no key
_OK, _NOT_FOUND, _BAD_NAME, _TOO_DEEP, _NO_ROOM = 0, 2, 4, 5, 101
_NO_KEY = (_NOT_FOUND, _BAD_NAME, _TOO_DEEP)
_UTF_16, _decode = ("utf-16-le", utf_16_le_decode) if sys.byteorder == "little" else ("utf-16-be", utf_16_be_decode)
# the first rooms of a name, in units, and of data; and what a hive's file may grow until it is written, both in bytes
_NAME_ROOM, _DATA_ROOM, _GROWTH = 512, 4_096, 65_536
_MOMENT_1970 = 116_444_736_000_000_000    # 100 nanoseconds since the year 1601
_YEAR_1601 = datetime(1601, 1, 1, tzinfo=timezone.utc)


# ---- the library

class _Handle(ctypes.Structure):
    """`regtx_hive` and `regtx_cursor` of C."""
    _fields_ = [("full", ctypes.c_bool), ("held", ctypes.c_void_p)]


class _Info(ctypes.Structure):
    """`regtx_info` of C."""
    _fields_ = [("subkeys", ctypes.c_uint64), ("values", ctypes.c_uint64), ("time", ctypes.c_uint64)]


class _About(ctypes.Structure):
    """`regtx_value` of C."""
    _fields_ = [("kind", ctypes.c_uint32), ("name_len", ctypes.c_size_t), ("len", ctypes.c_size_t)]


class _Log(ctypes.Structure):
    """`regtx_log` of C."""
    _fields_ = [("bytes", ctypes.c_char_p), ("len", ctypes.c_size_t)]


_read_about = struct.Struct("@INN").unpack_from
# a handle or another place; bytes that are read with their length; a room with its size and the length of what there is
_AT, _READ, _ROOM = [ctypes.c_void_p], [ctypes.c_char_p, ctypes.c_size_t], [ctypes.c_void_p, ctypes.c_size_t, ctypes.c_void_p]
_U32, _U64, _CODE = [ctypes.c_uint32], [ctypes.c_uint64], ctypes.c_uint32
# calls that may take long, while other threads of Python run
_LONG: Dict[str, Tuple[Any, Any]] = {
    "hive_open": (_CODE, [*_READ, *_AT]),
    "hive_recover": (_CODE, [*_READ, ctypes.POINTER(_Log), ctypes.c_size_t, *_AT]),
    "hive_new": (_CODE, _AT),
    "hive_close": (None, _AT),
    "hive_create_key": (_CODE, [*_AT, *_READ, *_U64, *_AT]),
    "hive_delete_key": (_CODE, [*_AT, *_READ, *_U64]),
    "hive_delete_tree": (_CODE, [*_AT, *_READ, *_U64]),
    "hive_set_value": (_CODE, [*_AT, *_READ, *_READ, *_U32, *_READ, *_U64]),
    "hive_delete_value": (_CODE, [*_AT, *_READ, *_READ, *_U64]),
    "hive_write": (_CODE, [*_AT, *_ROOM]),
    "cursor_close": (None, _AT),
}
# short ones: to let other threads run would take longer. Those without types are given what ctypes passes as it is, which is faster
_SHORT: Dict[str, Tuple[Any, Any]] = {
    "version": (_CODE, _AT),
    "hive_info": (_CODE, [*_AT, *_READ, *_AT]),
    "hive_flags": (_CODE, [*_AT, *_READ, *_AT]),
    **dict.fromkeys(["hive_class", "hive_descriptor"], (_CODE, [*_AT, *_READ, *_ROOM])),
    "hive_value": (_CODE, [*_AT, *_READ, *_READ, *_AT, *_ROOM]),
    "text": (_CODE, [*_U32, *_ROOM]),
    "code_name": (_CODE, [*_U32, *_ROOM]),
    "is_damage": (ctypes.c_bool, _U32),
    "cursor_open": (_CODE, [*_AT, *_READ, *_AT]),
    **dict.fromkeys(["cursor_down", "cursor_next", "cursor_up", "cursor_key", "cursor_value"], (_CODE, None)),
}


class _Library:
    """The calls of a library that is loaded, each with the types of regtx.h: without these ctypes would cut lengths to an int."""

    def __init__(self, path: str) -> None:
        for loaded, calls in ((ctypes.CDLL(path), _LONG), (ctypes.PyDLL(path), _SHORT)):
            for name, (answer, types) in calls.items():
                try:
                    call = getattr(loaded, f"regtx_{name}")
                except AttributeError:
                    raise OSError(f"{path} has no call regtx_{name}: it is no {_NAME} that this module can use") from None
                call.restype, call.argtypes = answer, types
                setattr(self, name, call)

    def __getattr__(self, name: str) -> Callable[..., int]:
        raise AttributeError(name)

    def told(self, call: Callable[..., int], code: int) -> str:
        """What the library says of a number, by `text` or `code_name`."""
        text, length = ctypes.create_string_buffer(64), ctypes.c_size_t()
        return text.raw[:length.value].decode("ascii") if call(code, text, len(text), ctypes.byref(length)) == _OK else ""

    def check(self, code: int, *about: str) -> None:
        """Raises the error of a number, unless it is that of no refusal."""
        if code != _OK:
            raise (NotFound if code == _NOT_FOUND else HiveError)(
                code, self.told(self.code_name, code), self.told(self.text, code), bool(self.is_damage(code)), ", ".join(about))


_library: Optional[_Library] = None
_loading = threading.Lock()


def load(path: Optional[FilePath] = None) -> None:
    """Loads the library from a file, or from the file `libregtx.so.0` of a folder. Hives that are open keep the one that they have.

    Without a path it is the one that REGTX_LIBRARY names, the one beside this module, or the one of the system's loader. The first
    hive does so by itself. Raises OSError if there is none.
    """
    global _library
    with _loading:
        try:
            _library = _Library(_place(path))
        except OSError as error:
            raise OSError(f"{error}; REGTX_LIBRARY or load() names the folder of {_NAME}") from None


def version() -> Tuple[str, bool]:
    """The version of the library, such as "0.9.0", and whether it was proved."""
    is_proved = ctypes.c_bool()
    number = _loaded().version(ctypes.byref(is_proved))
    return f"{number // 10_000}.{number // 100 % 100}.{number % 100}", is_proved.value


def _place(path: Optional[FilePath]) -> str:
    named = os.environ.get("REGTX_LIBRARY", "") if path is None else os.fspath(path)
    if named:
        # of a name without a folder the system's loader would find another file
        named = os.path.abspath(named)
        return os.path.join(named, _NAME) if os.path.isdir(named) else named
    beside = os.path.join(os.path.dirname(os.path.abspath(__file__)), _NAME)
    return beside if os.path.exists(beside) else _NAME


def _loaded() -> _Library:
    if _library is None:
        load()
    assert _library is not None
    return _library


class HiveError(Exception):
    """A call that was refused. It changed nothing.

    `code` is the number of regtx.h, `name` its name there, such as REGTX_BAD_NAME, and `text` what it says, such as `E4 BadName`.
    `is_damage` tells whether the bytes are no whole hive; `about` what it is about, such as a path.
    """

    def __init__(self, code: int, name: str, text: str, is_damage: bool = False, about: str = "") -> None:
        super().__init__(code, name, text, is_damage, about)
        self.code, self.name, self.text, self.is_damage, self.about = code, name, text, is_damage, about

    def __str__(self) -> str:
        return f"{self.about}: {self.text}" if self.about else self.text


class NotFound(HiveError, KeyError):
    """There is no such key or value; a KeyError too."""


# ---- values

class Kind(IntEnum):
    """The types of values."""

    REG_NONE = 0
    REG_SZ = 1
    REG_EXPAND_SZ = 2
    REG_BINARY = 3
    REG_DWORD = 4
    REG_DWORD_BIG_ENDIAN = 5
    REG_LINK = 6
    REG_MULTI_SZ = 7
    REG_QWORD = 11


_KINDS: Dict[int, int] = {int(kind): kind for kind in Kind}
_TEXTS = (Kind.REG_SZ, Kind.REG_EXPAND_SZ, Kind.REG_MULTI_SZ)
_NUMBERS = {int(Kind.REG_DWORD): "<I", int(Kind.REG_DWORD_BIG_ENDIAN): ">I", int(Kind.REG_QWORD): "<Q"}


class Value(NamedTuple):
    """A type and the bytes of the data. Any number of 32 bits is a type; one that a hive has is a `Kind` if it is a known one."""

    kind: int
    data: bytes

    @classmethod
    def sz(cls, text: str) -> Value:
        """REG_SZ: a text, with a zero at its end."""
        return cls(Kind.REG_SZ, _encode(text) + b"\0\0")

    @classmethod
    def expand_sz(cls, text: str) -> Value:
        """REG_EXPAND_SZ: a text with names of variables, such as `%PATH%`."""
        return cls(Kind.REG_EXPAND_SZ, _encode(text) + b"\0\0")

    @classmethod
    def binary(cls, data: bytes) -> Value:
        """REG_BINARY: bytes."""
        return cls(Kind.REG_BINARY, data)

    @classmethod
    def dword(cls, number: int) -> Value:
        """REG_DWORD: a number of 32 bits."""
        return cls(Kind.REG_DWORD, _packed("<I", number))

    @classmethod
    def dword_big_endian(cls, number: int) -> Value:
        """REG_DWORD_BIG_ENDIAN: the same with its highest byte first."""
        return cls(Kind.REG_DWORD_BIG_ENDIAN, _packed(">I", number))

    @classmethod
    def multi_sz(cls, texts: Sequence[str]) -> Value:
        """REG_MULTI_SZ: texts, a zero at the end of each, and one more at the end of all."""
        if isinstance(texts, str):
            raise TypeError("a list of texts is wanted, and not one text")
        return cls(Kind.REG_MULTI_SZ, b"".join(_encode(text) + b"\0\0" for text in texts) + b"\0\0")

    @classmethod
    def qword(cls, number: int) -> Value:
        """REG_QWORD: a number of 64 bits."""
        return cls(Kind.REG_QWORD, _packed("<Q", number))

    @property
    def value(self) -> Union[str, int, bytes, List[str]]:
        """What the data stand for: a str of REG_SZ and REG_EXPAND_SZ, a list of str of REG_MULTI_SZ, an int of the numbers; else bytes.

        A text lacks one zero at its end, if there is one, and a list the zeros of its texts and its own. All else is kept: a zero
        within, and a lone surrogate. Data that can't be of their type, such as half a unit, are bytes.
        """
        if self.kind in _TEXTS and not len(self.data) % 2:
            text = _without_zero(self.data.decode("utf-16-le", "surrogatepass"))
            if self.kind != Kind.REG_MULTI_SZ:
                return text
            return _without_zero(text).split("\0") if text else []
        form = _NUMBERS.get(self.kind)
        if form and len(self.data) == struct.calcsize(form):
            return int(struct.unpack(form, self.data)[0])
        return self.data


def _encode(text: str) -> bytes:
    if "\0" in text:
        raise ValueError(f"a text has no zero within: {text[:120]!r}")
    return text.encode("utf-16-le", "surrogatepass")


def _without_zero(text: str) -> str:
    return text[:-1] if text.endswith("\0") else text


def _packed(form: str, number: int) -> bytes:
    try:
        return struct.pack(form, number)
    except struct.error:
        raise ValueError(f"{number!r} isn't a number of {8 * struct.calcsize(form)} bits") from None


def _checked(value: Value) -> Value:
    """The value, if a call can take it."""
    if not isinstance(value, Value):
        raise TypeError(f"a Value is wanted, such as Value.sz('1.0'), and not {type(value).__name__}")
    if not isinstance(value.kind, int) or not 0 <= value.kind < 1 << 32:
        raise ValueError(f"a type is a number of 32 bits, and not {value.kind!r}")
    return Value(value.kind, bytes(memoryview(value.data)))


def _folded(name: str) -> str:
    """The name with `a` to `z` as `A` to `Z`: equal for names that are one."""
    return name.upper() if name.isascii() else "".join(unit.upper() if "a" <= unit <= "z" else unit for unit in name)


class Snapshot(Mapping[str, Value]):
    """The values of a key as they were, by their names, in the order of names."""

    __slots__ = ("_items", "_found")

    def __init__(self, items: Dict[str, Value]) -> None:
        self._items, self._found = items, {}  # type: Dict[str, Value], Dict[str, Value]

    def __getitem__(self, name: str) -> Value:
        if name in self._items:
            return self._items[name]
        if not self._found:
            self._found = {_folded(each): value for each, value in self._items.items()}
        return self._found[_folded(name)]

    def __iter__(self) -> Iterator[str]:
        return iter(self._items)

    def __len__(self) -> int:
        return len(self._items)

    def items(self) -> ItemsView[str, Value]:
        return self._items.items()

    def values(self) -> ValuesView[Value]:
        return self._items.values()


class Entry(NamedTuple):
    """A key as a walk met it. `depth` is 0 for the key where the walk began, and `subkeys` is how many subkeys it has."""

    path: str
    name: str
    depth: int
    time: int
    subkeys: int
    values: Snapshot


def moment_of(when: datetime) -> int:
    """A time as the registry counts it: 100 nanoseconds since 1601. A time without a zone is one of this machine's."""
    return (when.astimezone(timezone.utc) - _YEAR_1601) // timedelta(microseconds=1) * 10


def datetime_of(moment: int) -> datetime:
    """The time of a key as a datetime of UTC; after the year 9999 it is an OverflowError."""
    return _YEAR_1601 + timedelta(microseconds=moment // 10)


# ---- hives

def _content_of(source: Union[Content, FilePath]) -> Tuple[bytes, str]:
    """The bytes that are given, or those of a file and its path."""
    if isinstance(source, (bytes, bytearray, memoryview)):
        return bytes(source), ""
    with open(source, "rb") as file:
        return file.read(), os.fspath(source)


class Hive:
    r"""A hive in memory: `Hive.open` reads one, `Hive.new` makes one. In a `with` it is closed at the end.

    `hive[r"Software\Vendor"]` is a key. Threads may share a hive: one call at a time is made. After its end each call of it and of its
    keys is refused with the code 100; cursors and walks go on.
    """

    def __init__(self, content: Optional[bytes] = None, about: str = "", logs: Optional[Sequence[bytes]] = None) -> None:
        """`Hive.open` of bytes, `Hive.recover` of bytes, or `Hive.new`. What it is about stands in an error."""
        self._library, self._lock, self._handle = _loaded(), threading.Lock(), _Handle()
        self._at, self._data = ctypes.byref(self._handle), ctypes.create_string_buffer(_DATA_ROOM)
        self._moment: Optional[int] = None
        self._size = 0 if content is None else len(content)
        self._library.check(self._opened(content, logs), *([about] if about else []))

    def _opened(self, content: Optional[bytes], logs: Optional[Sequence[bytes]]) -> int:
        """The number that an opening answers."""
        if content is None:
            return self._library.hive_new(self._at)
        if logs is None:
            return self._library.hive_open(content, len(content), self._at)
        given = (_Log * max(len(logs), 1))(*[_Log(log, len(log)) for log in logs])
        return self._library.hive_recover(content, len(content), given, len(logs), self._at)

    @classmethod
    def new(cls) -> Hive:
        """A new hive: a root with the name ROOT and nothing in it."""
        return cls()

    @classmethod
    def open(cls, source: Union[Content, FilePath]) -> Hive:
        """Opens the hive that the bytes of a file hold, or the one of a file: bytes are content, a str or a Path is a path.

        It is read as it is, without a log. Raises HiveError, whose `is_damage` is true if the bytes are no whole hive; and OSError if the
        file can't be read.
        """
        return cls(*_content_of(source))

    @classmethod
    def recover(cls, source: Union[Content, FilePath], *logs: Union[Content, FilePath]) -> Hive:
        """Opens the hive that a file and its logs make together: what Windows finds at its next start. The logs are in any order.

        A hive that was closed cleanly is opened as it is. Raises as `Hive.open` does, with the code 1510 if no log fits.
        """
        content, about = _content_of(source)
        return cls(content, about, [_content_of(log)[0] for log in logs])

    def __enter__(self) -> Hive:
        return self

    def __exit__(self, *_: object) -> None:
        self.close()

    def __del__(self) -> None:
        # a hive that wasn't made has no handle
        if hasattr(self, "_at"):
            self.close()

    def close(self) -> None:
        """Closes the hive, and frees its memory. A closed one may be closed again."""
        with self._lock:
            self._library.hive_close(self._at)

    @property
    def closed(self) -> bool:
        """Whether it is closed."""
        return not self._handle.full

    @property
    def root(self) -> Key:
        """The key of the path ""."""
        return self[""]

    def __getitem__(self, path: str) -> Key:
        """The key at a path. Raises NotFound, which is a KeyError, if there is none."""
        return _find(self, "", path)

    def __contains__(self, path: object) -> bool:
        return isinstance(path, str) and self.get(path) is not None

    def get(self, path: str) -> Optional[Key]:
        """The key at a path, or None if there is none."""
        try:
            return self[path]
        except HiveError as error:
            if error.code in _NO_KEY:
                return None
            raise

    def walk(self, path: str = "") -> Iterator[Entry]:
        """The key at a path and all keys below it, each before those below it, siblings in the hive's order.

        It tells the hive as it is now, whatever is edited later.
        """
        return _walk(Cursor(self, path), self[path].path)

    def at(self, moment: Optional[int]) -> None:
        """The time that later edits give to keys, such as `moment_of` answers; None, as at first, is that of now."""
        if moment is not None and not 0 <= moment < 1 << 64:
            raise ValueError(f"a moment is a number of 64 bits, and not {moment!r}")
        self._moment = moment

    def create_key(self, path: str) -> Key:
        """Creates the key at a path, and each key that is missing on the way to it. One that is there stays as it is."""
        self._edit(self._library.hive_create_key, [path], self._time(), ctypes.byref(ctypes.c_size_t()))
        return self[path]

    def to_bytes(self) -> bytes:
        """The bytes of a whole hive file."""
        room, length, code = self._size + _GROWTH, ctypes.c_size_t(), _NO_ROOM
        while code == _NO_ROOM:
            content = ctypes.create_string_buffer(room)
            with self._lock:
                code = self._library.hive_write(self._at, content, room, ctypes.byref(length))
            room = length.value
        self._library.check(code)
        self._size = room
        return ctypes.string_at(content, room)

    def write(self, path: FilePath) -> None:
        """Writes the hive as a new file, which takes the place of the one at the path, if there is one. It is on the disk then.

        It is written as PATH.new, which must not be there, with the permissions of the old file. Raises OSError, which names the file. The
        old file is as it was then, unless only the sync of its folder failed, after the new one was put in its place.
        """
        _replace(os.fspath(path), self.to_bytes())

    def _time(self) -> int:
        return time.time_ns() // 100 + _MOMENT_1970 if self._moment is None else self._moment

    def _info(self, path: str) -> _Info:
        """What the key at a path has."""
        info = _Info()
        with self._lock:
            code = self._library.hive_info(self._at, *_units(path), ctypes.byref(info))
        self._library.check(code, path)
        return info

    def _value(self, path: str, name: str) -> Value:
        """The value of a name, of the key at a path."""
        kind = ctypes.c_uint32()
        data = self._bytes(self._library.hive_value, [path, name], ctypes.byref(kind))
        return Value(_KINDS.get(kind.value, kind.value), data)

    def _flags(self, path: str) -> int:
        """The flags of the key at a path."""
        flags = ctypes.c_uint16()
        with self._lock:
            code = self._library.hive_flags(self._at, *_units(path), ctypes.byref(flags))
        self._library.check(code, path)
        return flags.value

    def _bytes(self, call: Callable[..., int], names: Sequence[str], *words: object) -> bytes:
        """The bytes that a call tells of a path, and perhaps a name."""
        read, length = [word for name in names for word in _units(name)], ctypes.c_size_t()
        with self._lock:
            code = _NO_ROOM
            while code == _NO_ROOM:
                room = len(self._data)
                code = call(self._at, *read, *words, self._data, room, ctypes.byref(length))
                self._data = ctypes.create_string_buffer(length.value) if code == _NO_ROOM else self._data
            data = ctypes.string_at(self._data, length.value)
        self._library.check(code, *names)
        return data

    def _edit(self, call: Callable[..., int], names: Sequence[str], *words: object) -> None:
        """Makes a call for a path, and perhaps a name."""
        read = [word for name in names for word in _units(name)]
        with self._lock:
            code = call(self._at, *read, *words)
        self._library.check(code, *names)


def _units(text: str) -> Tuple[bytes, int]:
    """A text as calls take it: its units, and how many they are. A lone surrogate is a unit like others."""
    if not isinstance(text, str):
        raise TypeError(f"a path or a name is a str, and not {type(text).__name__}")
    units = text.encode(_UTF_16, "surrogatepass")
    return units, len(units) // 2


def _joined(path: str, name: str) -> str:
    return f"{path}\\{name}" if path and name else path or name


@contextmanager
def _naming(path: str) -> Iterator[None]:
    """Adds a path to an error of the system that names no file."""
    try:
        yield
    except OSError as error:
        error.filename = path if error.filename is None else error.filename
        raise


def _replace(path: str, content: bytes) -> None:
    """Writes a file beside another one, puts it in its place once it is on the disk, and syncs the folder."""
    path = os.path.realpath(path) if os.path.islink(path) else path    # the link stays
    beside, folder = f"{path}.new", os.path.dirname(path) or "."
    file = open(beside, "xb")
    try:
        with _naming(beside), file:
            _copy_permissions(path, file.fileno())
            file.write(content)
            file.flush()
            os.fsync(file.fileno())
        os.replace(beside, path)
    except BaseException:
        with suppress(OSError):
            os.remove(beside)
        raise
    opened = os.open(folder, os.O_RDONLY | os.O_DIRECTORY)
    try:
        with _naming(folder):
            os.fsync(opened)
    finally:
        os.close(opened)


def _copy_permissions(path: str, file: int) -> None:
    """Gives an open file the owner and the mode of the one at a path, if there is one; the owner only if that is allowed."""
    with suppress(FileNotFoundError):
        old = os.stat(path)
        with suppress(PermissionError):
            os.fchown(file, old.st_uid, old.st_gid)
        os.fchmod(file, stat.S_IMODE(old.st_mode))


# ---- cursors

class Cursor:
    """Stands at a key of a hive, and is stepped from key to key. It stays at the key where it was opened, and below it.

    `name`, `time` and `subkeys` are those of its key: the name as spelled, when it was last written, and how many subkeys it has. It keeps the hive as it was then, also if that is edited or closed. One thread at a time uses a cursor; several threads read one
    hive at once, each by its own. In a `with` it is closed at the end; each call after that is refused with the code 100.
    """

    def __init__(self, hive: Hive, path: str = "") -> None:
        self._library, self._handle, self._info, self._about = hive._library, _Handle(), _Info(), _About()
        self._length, self._index = ctypes.c_size_t(), ctypes.c_size_t()
        self._at, self._about_at = ctypes.byref(self._handle), ctypes.byref(self._about)
        self._key_at = (ctypes.byref(self._info), ctypes.byref(self._length))
        self._make_room(_NAME_ROOM, _DATA_ROOM)
        self._open(hive, path)

    def _open(self, hive: Hive, path: str) -> None:
        with hive._lock:
            code = self._library.cursor_open(hive._at, *_units(path), self._at)
        self._library.check(code, path)
        self._read()

    def _make_room(self, units: int, size: int) -> None:
        """Makes the buffers of a name and of data, in units and in bytes."""
        make, as_word = ctypes.create_string_buffer, ctypes.c_size_t.from_param  # type: Any, Any
        self._names, self._data = make(2 * units), make(size)
        self._rooms, self._room = (ctypes.byref(self._names), as_word(units), ctypes.byref(self._data), as_word(size)), (units, size)

    def __enter__(self) -> Cursor:
        return self

    def __exit__(self, *_: object) -> None:
        self.close()

    def __del__(self) -> None:
        if hasattr(self, "_at"):
            self.close()

    def close(self) -> None:
        """Closes the cursor, and frees its memory. A closed one may be closed again."""
        self._library.cursor_close(self._at)

    def down(self) -> bool:
        """Steps to the first subkey; False if there is none, and then it stays."""
        return self._step(self._library.cursor_down)

    def next(self) -> bool:
        """Steps to the next subkey of the key above; False if this is the last one, or the key where the cursor was opened."""
        return self._step(self._library.cursor_next)

    def up(self) -> bool:
        """Steps to the key above; False at the key where the cursor was opened."""
        return self._step(self._library.cursor_up)

    def _step(self, step: Callable[..., int]) -> bool:
        code = step(self._at)
        if code == _NOT_FOUND:
            return False
        if code:
            self._library.check(code)
        self._read()
        return True

    def _read(self) -> None:
        """Reads what the key has, and its name."""
        code = self._library.cursor_key(self._at, self._key_at[0], *self._rooms[:2], self._key_at[1])
        if code == _NO_ROOM:
            self._make_room(self._length.value, self._room[1])
            code = self._library.cursor_key(self._at, self._key_at[0], *self._rooms[:2], self._key_at[1])
        if code:
            self._library.check(code)
        self.name = _decode(self._names[:2 * self._length.value], "surrogatepass", True)[0]
        self.time, self.subkeys, self._count = self._info.time, self._info.subkeys, self._info.values

    def values(self) -> Snapshot:
        """The values of the key."""
        return Snapshot(self._values())

    def _values(self) -> Dict[str, Value]:
        found: Dict[str, Value] = {}
        call, at, about, index, make = self._library.cursor_value, self._at, self._about, self._index, tuple.__new__
        for number in range(self._count):
            index.value = number
            code = call(at, index, self._about_at, *self._rooms)
            if code == _NO_ROOM:
                self._make_room(max(self._room[0], about.name_len), max(self._room[1], about.len))
                code = call(at, index, self._about_at, *self._rooms)
            if code:
                self._library.check(code)
            kind, units, size = _read_about(about)
            name = _decode(self._names[:units + units], "surrogatepass", True)[0]
            found[name] = make(Value, (_KINDS.get(kind, kind), self._data[:size]))
        return found


def _walk(cursor: Cursor, path: str) -> Iterator[Entry]:
    """The keys of a cursor, from the one of a path on."""
    paths = [path]
    with cursor:
        while True:
            told = (paths[-1], cursor.name, len(paths) - 1, cursor.time, cursor.subkeys, cursor.values())
            yield tuple.__new__(Entry, told)
            if cursor.subkeys and cursor.down():
                paths.append("")
            else:
                while not cursor.next():
                    if not cursor.up():
                        return
                    paths.pop()
            paths[-1] = _joined(paths[-2], cursor.name)


def _find(hive: Hive, above: str, path: str) -> Key:
    """The key at a path below another one, whose path is spelled already."""
    with Cursor(hive, _joined(above, path)) as cursor:
        name = cursor.name
        if not path:
            return Key(hive, above, name)
        for each in path.split("\\")[:-1]:
            cursor._open(hive, _joined(above, each))
            above = _joined(above, cursor.name)
    return Key(hive, _joined(above, name), name)


# ---- keys

class Key:
    """A key of a hive, by its path, spelled as the hive has it. It holds no memory of the library.

    After its deletion each question is refused as NotFound, until a key is created at the path again.
    """

    __slots__ = ("hive", "path", "name")

    def __init__(self, hive: Hive, path: str, name: str) -> None:
        self.hive, self.path, self.name = hive, path, name

    @property
    def time(self) -> int:
        """When it was last written: 100 nanoseconds since 1601."""
        return int(self.hive._info(self.path).time)

    @property
    def flags(self) -> int:
        """Its flags as the hive's file has them, such as 8 of a key that is not to be deleted; but for 0x20, of how its name is stored."""
        return self.hive._flags(self.path)

    @property
    def class_data(self) -> bytes:
        """The bytes of its class, none if it has no class."""
        return self.hive._bytes(self.hive._library.hive_class, [self.path])

    @property
    def class_name(self) -> str:
        """Its class as a text, "" if it has none. One that ends in half a unit is a UnicodeDecodeError: `class_data` has its bytes."""
        return self.class_data.decode("utf-16-le", "surrogatepass")

    @property
    def descriptor(self) -> bytes:
        """The bytes of its security descriptor, which is self-relative; none if it has no descriptor."""
        return self.hive._bytes(self.hive._library.hive_descriptor, [self.path])

    @property
    def subkeys(self) -> Subkeys:
        """Its subkeys, by their names."""
        return Subkeys(self)

    @property
    def values(self) -> Values:
        """Its values, by their names."""
        return Values(self)

    def __getitem__(self, path: str) -> Key:
        """The key at a path below this one."""
        return _find(self.hive, self.path, path)

    def walk(self) -> Iterator[Entry]:
        """The same as `Hive.walk` from this key on."""
        return self.hive.walk(self.path)

    def create_key(self, path: str) -> Key:
        """Creates the key at a path below this one, and each key that is missing on the way to it."""
        return self.hive.create_key(_joined(self.path, path))

    def delete(self) -> None:
        """Deletes the key with its values. One that has subkeys is refused."""
        self.hive._edit(self.hive._library.hive_delete_key, [self.path], self.hive._time())

    def delete_tree(self) -> None:
        """Deletes the key with all keys below it, whatever their names are."""
        self.hive._edit(self.hive._library.hive_delete_tree, [self.path], self.hive._time())

    def __eq__(self, other: object) -> bool:
        return isinstance(other, Key) and self.hive is other.hive and _folded(self.path) == _folded(other.path)

    def __hash__(self) -> int:
        return hash((id(self.hive), _folded(self.path)))

    def __repr__(self) -> str:
        return f"<regtx_hive.Key {self.path!r}>"


class _OfKey(Mapping[str, _T]):
    def __init__(self, key: Key) -> None:
        self._key = key

    def _all(self) -> Dict[str, _T]:
        raise NotImplementedError

    def __iter__(self) -> Iterator[str]:
        return iter(self._all())

    def items(self) -> ItemsView[str, _T]:
        return self._all().items()

    def values(self) -> ValuesView[_T]:
        return self._all().values()


class Subkeys(_OfKey[Key]):
    """The subkeys of a key, by their names, in the hive's order. An iteration tells them as they were when it began."""

    def __getitem__(self, name: str) -> Key:
        # a name with a backslash would be the path of another key
        if not _units(name)[1] or "\\" in name:
            self._key.hive._library.check(_NOT_FOUND, self._key.path, name)
        return self._key[name]

    def __len__(self) -> int:
        return int(self._key.hive._info(self._key.path).subkeys)

    def _all(self) -> Dict[str, Key]:
        hive, path, found = self._key.hive, self._key.path, {}
        with Cursor(hive, path) as cursor:
            is_there = cursor.down()
            while is_there:
                found[cursor.name] = Key(hive, _joined(path, cursor.name), cursor.name)
                is_there = cursor.next()
        return found


class Values(_OfKey[Value], MutableMapping[str, Value]):
    """The values of a key, by their names, in the hive's order. An iteration tells them as they were when it began."""

    def __getitem__(self, name: str) -> Value:
        return self._key.hive._value(self._key.path, name)

    def __setitem__(self, name: str, value: Value) -> None:
        hive, (kind, data) = self._key.hive, _checked(value)
        hive._edit(hive._library.hive_set_value, [self._key.path, name], kind, data, len(data), hive._time())

    def __delitem__(self, name: str) -> None:
        hive = self._key.hive
        hive._edit(hive._library.hive_delete_value, [self._key.path, name], hive._time())

    def __len__(self) -> int:
        return int(self._key.hive._info(self._key.path).values)

    def clear(self) -> None:
        for name in self:
            del self[name]

    def _all(self) -> Dict[str, Value]:
        with Cursor(self._key.hive, self._key.path) as cursor:
            return cursor._values()
