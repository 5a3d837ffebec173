"""Types and values of the registry: `regtx` has both."""
from __future__ import annotations

from dataclasses import dataclass
from enum import IntEnum
from typing import Dict, List, Literal, Sequence, Tuple, Union

from .errors import DecodeError, shown

# the greatest number of a type
MOST_KIND = 0xffff_ffff


class Kind(IntEnum):
    """The types of the registry."""

    REG_NONE = 0
    REG_SZ = 1
    REG_EXPAND_SZ = 2
    REG_BINARY = 3
    REG_DWORD = 4
    REG_DWORD_BIG_ENDIAN = 5
    REG_LINK = 6
    REG_MULTI_SZ = 7
    REG_QWORD = 11


_KINDS = {int(kind): kind for kind in Kind}
_TEXTS = (Kind.REG_SZ, Kind.REG_EXPAND_SZ, Kind.REG_LINK)
# the numbers: how many bytes, in which order
_NUMBERS: Dict[int, Tuple[int, Literal["little", "big"]]] = {
    Kind.REG_DWORD: (4, "little"), Kind.REG_DWORD_BIG_ENDIAN: (4, "big"), Kind.REG_QWORD: (8, "little"),
}


@dataclass(frozen=True)
class Value:
    """A type and the bytes of the data. Any number of 32 bits is a type; that of a known one is a `Kind`."""

    kind: int
    data: bytes

    def __post_init__(self) -> None:
        if not isinstance(self.kind, int) or not 0 <= self.kind <= MOST_KIND:
            raise ValueError(f"a type is a number of 32 bits, and not {self.kind!r}")
        if not isinstance(self.data, (bytes, bytearray, memoryview)):
            raise TypeError(f"the data of a value are bytes, and not {type(self.data).__name__}")
        object.__setattr__(self, "kind", _KINDS.get(self.kind, int(self.kind)))
        object.__setattr__(self, "data", bytes(self.data))

    @classmethod
    def none(cls, data: bytes = b"") -> Value:
        """REG_NONE: bytes without a type."""
        return cls(Kind.REG_NONE, data)

    @classmethod
    def sz(cls, text: str) -> Value:
        """REG_SZ: a text, and a zero behind it."""
        return cls(Kind.REG_SZ, _encode(text) + b"\0\0")

    @classmethod
    def expand_sz(cls, text: str) -> Value:
        """REG_EXPAND_SZ: a text with names of variables, such as `%PATH%`."""
        return cls(Kind.REG_EXPAND_SZ, _encode(text) + b"\0\0")

    @classmethod
    def binary(cls, data: bytes) -> Value:
        """REG_BINARY: bytes."""
        return cls(Kind.REG_BINARY, data)

    @classmethod
    def dword(cls, number: int) -> Value:
        """REG_DWORD: a number of 32 bits."""
        return cls._number(Kind.REG_DWORD, number)

    @classmethod
    def dword_big_endian(cls, number: int) -> Value:
        """REG_DWORD_BIG_ENDIAN: the same with its highest byte first."""
        return cls._number(Kind.REG_DWORD_BIG_ENDIAN, number)

    @classmethod
    def link(cls, target: str) -> Value:
        """REG_LINK: the path of another key. It has no zero at its end, as Windows wants it."""
        return cls(Kind.REG_LINK, _encode(target))

    @classmethod
    def multi_sz(cls, texts: Sequence[str]) -> Value:
        """REG_MULTI_SZ: texts, a zero behind each, and one more at the end."""
        if isinstance(texts, str):
            raise TypeError("a list of texts is wanted, and not one text")
        return cls(Kind.REG_MULTI_SZ, b"".join(_encode(text) + b"\0\0" for text in texts) + b"\0\0")

    @classmethod
    def qword(cls, number: int) -> Value:
        """REG_QWORD: a number of 64 bits."""
        return cls._number(Kind.REG_QWORD, number)

    @classmethod
    def _number(cls, kind: Kind, number: int) -> Value:
        size, order = _NUMBERS[kind]
        if not 0 <= number < 1 << 8 * size:
            raise ValueError(f"{number} isn't a number of {8 * size} bits")
        return cls(kind, number.to_bytes(size, order))

    @property
    def value(self) -> Union[str, int, bytes, List[str]]:
        """What the bytes stand for: a str, an int, a list of str; bytes for each other type.

        It is exact: the maker of the type makes the same bytes of it again. Other bytes are a `DecodeError`.
        """
        if self.kind in _NUMBERS:
            size, order = _NUMBERS[self.kind]
            if len(self.data) != size:
                raise self._wrong(f"{len(self.data)} bytes and not {size}")
            return int.from_bytes(self.data, order)
        if self.kind in _TEXTS:
            text = self._units("strict")
            if self.kind == Kind.REG_LINK:
                text += "\0"
            if not text.endswith("\0") or "\0" in text[:-1]:
                raise self._wrong("no zero at the end, or one within")
            return text[:-1]
        if self.kind == Kind.REG_MULTI_SZ:
            text = self._units("strict")
            if text == "\0":
                return []
            if not text.endswith("\0\0"):
                raise self._wrong("no two zeros at the end")
            return text[:-2].split("\0")
        return self.data

    @property
    def text(self) -> str:
        """A text as Windows reads it: up to the first zero, or all of it if there is none.

        Half a unit at the end is left out, and a lone surrogate stays one. Other types than texts are a `DecodeError`.
        """
        if self.kind not in _TEXTS:
            raise self._wrong("this type isn't a text")
        return self._units("surrogatepass").split("\0")[0]

    @property
    def texts(self) -> List[str]:
        """The texts of a REG_MULTI_SZ as Windows reads them: up to the first empty one, or to the end."""
        if self.kind != Kind.REG_MULTI_SZ:
            raise self._wrong("this type isn't a list of texts")
        texts = [*self._units("surrogatepass").split("\0"), ""]
        return texts[:texts.index("")]

    def _units(self, errors: str) -> str:
        data = self.data if errors == "strict" else self.data[:len(self.data) & ~1]
        try:
            return data.decode("utf-16-le", errors)
        except UnicodeDecodeError as error:
            raise self._wrong(f"no well-formed UTF-16: {error.reason} at byte {error.start}") from None

    def _wrong(self, why: str) -> DecodeError:
        name = self.kind.name if isinstance(self.kind, Kind) else f"type {self.kind}"
        return DecodeError(f"{name} {shown(self.data.hex() or '-')}: {why}")


def _encode(text: str) -> bytes:
    if "\0" in text:
        raise ValueError(f"a text has no zero within: {shown(repr(text))}")
    try:
        return text.encode("utf-16-le")
    except UnicodeEncodeError:
        raise ValueError(f"a text has no lone surrogate: {shown(repr(text))}") from None
