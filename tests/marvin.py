"""Marvin32 and the entries of logs of Windows 8.1 and later, by the rules of the public format and by nothing of this project's
code."""
import struct

WORD = 0xffffffff
SEED = (0x884def82, 0xc5554e7a)
PAGE, BIN, SECTOR = 4_096, 4_096, 512


def rotated(word, count):
    return ((word << count) | (word >> (32 - count))) & WORD


def mixed(low, high):
    high ^= low
    low = (rotated(low, 20) + high) & WORD
    high = rotated(high, 9) ^ low
    low = (rotated(low, 27) + high) & WORD
    return low, rotated(high, 19)


def marvin32(seed, data):
    """The hash's two halves, the low one first."""
    low, high = seed
    whole = len(data) // 4 * 4
    for (word,) in struct.iter_unpack("<I", data[:whole]):
        low, high = mixed((low + word) & WORD, high)
    last = int.from_bytes(data[whole:] + b"\x80", "little")
    return mixed(*mixed((low + last) & WORD, high))


def signed(entry):
    """An entry with both hashes right: hash-1 of what is behind its head, hash-2 of the first 32 bytes."""
    entry = entry[:24] + struct.pack("<2I", *marvin32(SEED, entry[40:])) + entry[32:]
    return entry[:32] + struct.pack("<2I", *marvin32(SEED, entry[:32])) + entry[40:]


def entry(number, bins_size, pages, padding=b"", **other):
    """An entry of pages, each an offset and bytes. Other fields by their names: `size`, `count`, `references`."""
    references = other.get("references", [(offset, len(data)) for offset, data in pages])
    body = b"".join(struct.pack("<2I", *reference) for reference in references) + b"".join(data for _, data in pages) + padding
    body += bytes(-(40 + len(body)) % SECTOR)
    head = struct.pack("<4s5I", b"HvLE", other.get("size", 40 + len(body)), 0, number & WORD, bins_size, other.get("count", len(references)))
    return signed(head + bytes(16) + body)
