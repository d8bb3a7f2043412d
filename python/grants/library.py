# SPDX-License-Identifier: Apache-2.0
"""The shared library and its calls, one for each line of include/grants.h; and the calls that need no store."""

import ctypes
import os
import struct
from typing import List, NamedTuple, Optional, Sequence, Tuple, Union

from .refusals import REFUSALS

# What include/grants.h says of sizes; a test holds them to it. A store is a header and its slots; a slot of the old form is shorter.
HEADER_BYTES = 24
SLOT_BYTES = 128
OLD_SLOT_BYTES = 120
MOST_SLOTS = 16384
# The longest proof, the most keys of a palette, and visits that are always enough for a comparison.
PROOF_BYTES = 17080
PALETTE_KEYS = 256
MOST_VISITS = 32769
RECORD_BYTES = 72
# The longest proof of the pocket profile, the bytes that many proofs at once are answered with for each key, and the most versions of a report.
POCKET_BYTES = 2296
ANSWER_BYTES = 34
MOST_FIGURES = 1024
# The longest ICS 23 message.
MESSAGE_BYTES = 29999

Bytes = Union[bytes, bytearray, memoryview]


class Refused(Exception):
    """A call was refused; it changed nothing. `slot` is that of the spoilt record that a read named beside 3, else None."""

    number: int
    sentence: str
    slot: Optional[int]

    def __init__(self, number: int, slot: Optional[int] = None) -> None:
        self.number = number
        self.sentence = REFUSALS.get(number, "a number without a sentence here")
        self.slot = slot
        beside = "" if slot is None else "; the record in slot %d is spoilt" % slot
        super().__init__("refused with %d: %s%s" % (number, self.sentence, beside))

    def __reduce__(self) -> Tuple[type, Tuple[object, ...]]:
        return (Refused, (self.number, self.slot))


Refused.__module__ = "grants"


def _loaded() -> ctypes.CDLL:
    """The file that GRANTS_LIBRARY names, else the one in this package, else the one that is installed."""
    named = os.environ.get("GRANTS_LIBRARY")
    beside = os.path.join(os.path.dirname(os.path.abspath(__file__)), "libgrants.so")
    return ctypes.CDLL(named or (beside if os.path.exists(beside) else "libgrants.so.0"))


_library = _loaded()
_u32, _u64, _size, _lent = ctypes.c_uint32, ctypes.c_uint64, ctypes.c_size_t, ctypes.c_void_p
# What each call returns and takes: a slice is a pointer and a length, an array a pointer.
_CALLS = {
    "format": (_u32, [_lent, _size]),
    "check": (_u32, [_lent, _size]),
    "apply": (_u32, [_lent, _size, _u32, _lent, _size, _lent]),
    "prune": (_u32, [_lent, _size, _u32, _lent]),
    "root": (_u64, [_lent, _size, _u32, _lent]),
    "get": (_u64, [_lent, _size, _u32, _lent, _size, _lent]),
    "prove": (_u64, [_lent, _size, _u32, _lent, _size, _lent, _size, _lent]),
    "palette": (_u64, [_lent, _size, _u32, _lent, _size, _lent, _size, _lent]),
    "changes": (_u32, [_lent, _size, _u32, _u32, _u32, _lent, _size, _lent]),
    "rescue": (_u32, [_lent, _size, _u32, _u32, _lent, _size, _lent]),
    "count": (_u64, [_lent, _size, _u32, _lent]),
    "at": (_u64, [_lent, _size, _u32, _u64, _lent]),
    "over": (_u32, [_lent, _size, _lent, _size]),
    "back": (_u32, [_lent, _size, _lent, _size]),
    "finding": (_u32, [_lent, _size, _u32, _lent, _size, _lent, _size, _lent]),
    "figures": (_u32, [_lent, _size, _u32, _u32, _lent, _size, _lent]),
    "pocket_prove": (_u64, [_lent, _size, _u32, _lent, _size, _lent, _size, _lent]),
    "pocket_verify": (_u32, [_lent, _size, _lent, _size, _lent, _size, _lent]),
    "verify_many": (_u32, [_lent, _size, _lent, _size, _lent, _size, _lent, _size]),
    "version": (_u32, []),
    "verify": (_u32, [_lent, _size, _lent, _size, _lent, _size, _lent]),
    "shelf_verify": (_u32, [_lent, _size, _u32, _lent, _size, _lent, _size, _lent]),
    "ics23_write": (_u32, [_lent, _size] * 7 + [_lent]),
    "ics23_read": (_u32, [_lent, _size, _lent, _size, _lent]),
    "sha256": (_u32, [_lent, _size, _lent]),
}
for _name, (_result, _words) in _CALLS.items():
    _function = getattr(_library, "grants_" + _name)
    _function.restype, _function.argtypes = _result, _words


class Room:
    """Memory lent to a call: never null, also where its length is 0."""

    def __init__(self, length: int, given: Bytes = b"") -> None:
        self.length = length
        self.memory = (ctypes.c_ubyte * max(length, 1))()
        ctypes.memmove(self.memory, bytes(given), len(given))

    def front(self, length: int) -> bytes:
        return bytes(memoryview(self.memory)[:length])


def room_of(given: Bytes) -> Room:
    given = as_bytes(given)
    return Room(len(given), given)


def as_bytes(given: Bytes) -> bytes:
    if not isinstance(given, (bytes, bytearray, memoryview)):
        raise TypeError("bytes are wanted, not %s" % type(given).__name__)
    return bytes(given)


def number_of(given: int) -> int:
    """A number as the calls take it; ctypes would wrap any other one round."""
    if not isinstance(given, int) or isinstance(given, bool):
        raise TypeError("a version is a whole number")
    if not 0 <= given < 2**32:
        raise ValueError("a version is a whole number from 0 to 4,294,967,295")
    return given


def call(name: str, *given: Union[int, Room, Tuple[Room]]) -> None:
    """One call. A room goes as a slice, a room in a tuple as an array. A refusal is raised."""
    words: List[object] = []
    for it in given:
        if isinstance(it, int):
            words.append(it)
        elif isinstance(it, tuple):
            words.append(ctypes.addressof(it[0].memory))
        else:
            words += [ctypes.addressof(it.memory), it.length]
    said = getattr(_library, "grants_" + name)(*words)
    number, high = said & 0xFFFFFFFF, said >> 32
    if number:
        raise Refused(number, high - 1 if high else None)


def u32_at(data: bytes, at: int) -> int:
    (number,) = struct.unpack_from("<I", data, at)
    return int(number)


def version() -> Tuple[int, int, int]:
    """The version of the library that is loaded: major, minor, patch."""
    said = int(_library.grants_version())
    return said >> 24, said >> 16 & 255, said >> 8 & 255


def found_in(answer: Room) -> Optional[bytes]:
    """1 and the value, or 0."""
    said = answer.front(33)
    return said[1:] if said[0] == 1 else None


def sha256(data: Bytes) -> bytes:
    """SHA-256, by the library's own proved code."""
    digest = Room(32)
    call("sha256", room_of(data), (digest,))
    return digest.front(32)


def name(text: str) -> bytes:
    """The key that stands for a name: the SHA-256 of its UTF-8 bytes, as in the command line tool."""
    return sha256(text.encode("utf-8"))


def verify(root: Bytes, key: Bytes, proof: Bytes) -> Optional[bytes]:
    """What a proof shows of a key against a root: its value, or None for 'absent'. Refused: 12, 10, 11.

    The root must come from who signs it, the proof may come from anybody. Where the signed root is 32 zero bytes nothing is granted, and no
    proof is needed: none is accepted against it."""
    found = Room(33)
    call("verify", room_of(root), room_of(key), room_of(proof), (found,))
    return found_in(found)


def verify_pocket(root: Bytes, key: Bytes, proof: Bytes) -> Optional[bytes]:
    """As `verify` for proofs of at most 32 steps for each leaf shown. Refused: 12, 10, 19, 11."""
    found = Room(33)
    call("pocket_verify", room_of(root), room_of(key), room_of(proof), (found,))
    return found_in(found)


def verify_many(root: Bytes, keys: Sequence[Bytes], proofs: Union[Bytes, Sequence[Bytes]]) -> List[Union[Optional[bytes], Refused]]:
    """What each proof of a row shows of its key against one root, up to 256 at once: as `verify`, or its refusal, 10 or 11, in its place. The row is
    a list of proofs as `palette` gives it, or their bytes one after the other. Refused: 12, 10 (it isn't as many pieces as keys, by their own lengths)."""
    if any(len(as_bytes(key)) != 32 for key in keys):
        raise Refused(12)
    row = as_bytes(proofs) if isinstance(proofs, (bytes, bytearray, memoryview)) else b"".join(as_bytes(it) for it in proofs)
    answers = Room(ANSWER_BYTES * min(len(keys), PALETTE_KEYS))
    call("verify_many", room_of(root), room_of(b"".join(map(bytes, keys))), room_of(row), answers)
    shown: List[Union[Optional[bytes], Refused]] = []
    for i in range(len(keys)):
        said = answers.front(answers.length)[ANSWER_BYTES * i : ANSWER_BYTES * (i + 1)]
        shown.append(Refused(said[0]) if said[0] else said[2:] if said[1] == 1 else None)
    return shown


def shelf_verify(root: Bytes, bits: int, key: Bytes, proof: Bytes) -> Optional[bytes]:
    """The same of a key of a shelf, against its list's root: the proof is the list's record for the key's part, then the part's. The bits are signed with the root
    (`Statement.bits`). Refused: 12, 21 (bits above 12), 10, 11."""
    found = Room(33)
    call("shelf_verify", room_of(root), number_of(bits), room_of(key), room_of(proof), (found,))
    return found_in(found)


class Message(NamedTuple):
    """What an ICS 23 message was written from: the proof, the raw key asked for, and raw key and value of each leaf shown, the left one first."""

    proof: bytes
    asked: bytes
    leaves: List[Tuple[bytes, bytes]]

    def verify(self, root: Bytes) -> Optional[bytes]:
        """What the proof shows of the key asked for, against a root. Refused: 12, 11."""
        return verify(root, sha256(self.asked), self.proof)


def write_message(proof: Bytes, asked: Bytes, leaves: Sequence[Tuple[Bytes, Bytes]]) -> bytes:
    """A proof as the message of ICS 23 that partners' verifiers read (docs/PARTNERS.md). Keys and values are raw there: the key asked for, and key and value of each
    leaf that the proof shows, the left one first. Refused: 10, 15."""
    if len(leaves) > 2:
        raise Refused(15)
    lent = [part for leaf in leaves for part in leaf] + [b""] * (4 - 2 * len(leaves))
    room, length = Room(MESSAGE_BYTES), Room(4)
    call("ics23_write", room_of(proof), room_of(asked), *map(room_of, lent), room, (length,))
    return room.front(u32_at(length.front(4), 0))


def read_message(message: Bytes) -> Message:
    """What such a message was written from; no other encoding is taken. Refused: 10."""
    given = as_bytes(message)
    room, answer = Room(PROOF_BYTES), Room(44)
    call("ics23_read", room_of(given), room, (answer,))
    said = answer.front(44)
    length, *spots = struct.unpack("<11I", said)
    asked, *parts = [given[at : at + size] for at, size in zip(spots[::2], spots[1::2])]
    return Message(room.front(length), asked, [(key, value) for key, value in zip(parts[::2], parts[1::2]) if key])


def cut(proofs: Bytes) -> List[bytes]:
    """Proofs that stand one after the other, cut apart by the lengths they begin with; bytes that no length divides are the last one."""
    rest, parts = as_bytes(proofs), []
    while rest:
        said = u32_at(rest, 0) if len(rest) >= 4 else 0
        end = said if 4 <= said <= len(rest) else len(rest)
        parts.append(rest[:end])
        rest = rest[end:]
    return parts


def verify_palette(root: Bytes, keys: Sequence[Bytes], proofs: Bytes) -> List[Optional[bytes]]:
    """What proofs in one row show of the keys they were asked for, in that order: all of them, or the first refusal. A proof that is missing,
    and bytes left over, are off form (10)."""
    parts = cut(proofs)
    shown = [verify(root, key, parts[i] if i < len(parts) else b"") for i, key in enumerate(keys)]
    if len(parts) > len(keys):
        raise Refused(10)
    return shown
