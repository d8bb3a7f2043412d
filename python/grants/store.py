# SPDX-License-Identifier: Apache-2.0
"""A store in memory of its own, and what its calls answer."""

import threading
from typing import Iterable, List, Mapping, NamedTuple, Optional, Sequence, Tuple, Union

from .library import HEADER_BYTES, MOST_FIGURES, MOST_SLOTS, MOST_VISITS, OLD_SLOT_BYTES, PALETTE_KEYS, POCKET_BYTES, PROOF_BYTES
from .library import RECORD_BYTES, SLOT_BYTES
from .library import Bytes, Refused, Room, as_bytes, call, cut, found_in, number_of, room_of, u32_at

# Keys with their new values, None to take a key out; or the bytes of a batch.
Changes = Union[Mapping[bytes, Optional[bytes]], Iterable[Tuple[bytes, Optional[bytes]]], Bytes]


class Applied(NamedTuple):
    """What a publishing made."""

    version: int
    root: bytes
    new_records: int


class Change(NamedTuple):
    """A key that was added (`before` is None), removed (`after` is None) or given another value."""

    key: bytes
    before: Optional[bytes]
    after: Optional[bytes]


class Figures(NamedTuple):
    """The figures of a version: its grants, its inner nodes, its longest path and the sum of its path lengths, in steps."""

    version: int
    leaves: int
    inner: int
    longest: int
    paths: int


class Report(NamedTuple):
    """The figures of a range of versions: of each version; the different records of the range; the records of each version, added up."""

    versions: List[Figures]
    distinct: int
    records: int


class Finding(NamedTuple):
    """What a false proof that is accepted puts into one's hands: two different messages with equal SHA-256, or one whose SHA-256 is 32 zero bytes."""

    messages: List[bytes]


def batch(changes: Changes) -> bytes:
    """The bytes of a batch: records in the order of their keys. Bytes stay as they are."""
    if isinstance(changes, (bytes, bytearray, memoryview)):
        return bytes(changes)
    pairs = changes.items() if isinstance(changes, Mapping) else changes
    records = []
    for key, value in pairs:
        if len(as_bytes(key)) != 32 or (value is not None and len(as_bytes(value)) != 32):
            raise ValueError("a key and a value are 32 bytes")
        head = b"\x28\0\0\0\2\0\0\0" if value is None else b"\x48\0\0\0\1\0\0\0"
        records.append((bytes(key), head + bytes(key) + (bytes(32) if value is None else bytes(value))))
    return b"".join(record for _, record in sorted(records, key=lambda it: it[0]))


class Store:
    """A store of any bytes, copied; `check` says whether it is sound. A store may be used by several threads: its calls run one after the other."""

    def __init__(self, data: Bytes) -> None:
        self._room = room_of(data)
        self._lock = threading.Lock()

    @classmethod
    def format(cls, capacity: int) -> "Store":
        """A fresh, empty store of so many slots. Refused: 1."""
        if not isinstance(capacity, int) or capacity < 0:
            raise ValueError("a capacity is a whole number")
        # No more than 16,384 slots are accepted, so no more memory than one too many would take is needed to say so.
        store = cls(bytes(HEADER_BYTES + SLOT_BYTES * min(capacity, MOST_SLOTS + 1)))
        store._call("format")
        return store

    def _call(self, name: str, *given: Union[int, Room, Tuple[Room]]) -> None:
        with self._lock:
            call(name, self._room, *given)

    def to_bytes(self) -> bytes:
        """A copy of the store's bytes, to be kept in a file."""
        with self._lock:
            return self._room.front(self._room.length)

    def _header(self, at: int) -> int:
        head = self.to_bytes()[:HEADER_BYTES]
        if len(head) < HEADER_BYTES:
            raise Refused(1)
        return u32_at(head, at)

    @property
    def capacity(self) -> int:
        """What the header says, as are oldest and latest; only `check` says whether the store is sound."""
        return self._header(8)

    @property
    def oldest(self) -> int:
        return self._header(12)

    @property
    def latest(self) -> int:
        return self._header(16)

    def check(self) -> None:
        """Nothing where the store is sound. Refused: 1, 2, 3."""
        self._call("check")

    def apply(self, number: int, changes: Changes) -> Applied:
        """Publishes a version under a number, any above latest. A version between two publishings reads as the earlier one.
        Refused: 1, 2, 3, 4, 5, 18, 7."""
        answer = Room(40)
        self._call("apply", number_of(number), room_of(batch(changes)), (answer,))
        said = answer.front(40)
        return Applied(u32_at(said, 0), said[4:36], u32_at(said, 36))

    def apply_next(self, changes: Changes) -> Applied:
        """The same under the number after latest. Refused: 1, 2, 3, 4, 5, 18 (latest is 4,294,967,295), 7."""
        # Where there is no next number it is 0, which is never above latest; where there is no header, the call says so first.
        head = self.to_bytes()
        return self.apply((u32_at(head, 16) + 1) % 2**32 if len(head) >= HEADER_BYTES else 0, changes)

    def prune(self, version: int) -> int:
        """Keeps no version before this one; how many records were freed. Refused: 1, 2, 3, 8."""
        freed = Room(4)
        self._call("prune", number_of(version), (freed,))
        return u32_at(freed.front(4), 0)

    def root(self, version: int) -> bytes:
        """The root of a version, 32 zero bytes where it holds no grant. Refused: 1, 2, 8, 3."""
        root = Room(32)
        self._call("root", number_of(version), (root,))
        return root.front(32)

    def get(self, version: int, key: Bytes) -> Optional[bytes]:
        """The value of a key in a version, or None; a read trusts the store. Refused: 12, 1, 2, 8, 3 or 17."""
        found = Room(33)
        self._call("get", number_of(version), room_of(key), (found,))
        return found_in(found)

    def prove(self, version: int, key: Bytes, most: int = PROOF_BYTES) -> bytes:
        """The proof that a key is in a version, or that it isn't, in at most so many bytes. Refused: 12, 1, 2, 8, 14, 3 or 17, 9."""
        room, length = Room(min(most, PROOF_BYTES)), Room(4)
        self._call("prove", number_of(version), room_of(key), room, (length,))
        return room.front(u32_at(length.front(4), 0))

    def count(self, version: int) -> int:
        """How many grants a version holds. Refused: 1, 2, 8, 3."""
        count = Room(8)
        self._call("count", number_of(version), (count,))
        return int.from_bytes(count.front(8), "little")

    def at(self, version: int, position: int) -> Tuple[bytes, bytes]:
        """The grant at a position of a version, 0 the least key: key and value. Refused: 1, 2, 8, 3, 20 (not below the number), 3 or 17."""
        if not isinstance(position, int) or not 0 <= position < 2**64:
            raise ValueError("a position is a whole number from 0 on")
        grant = Room(64)
        self._call("at", number_of(version), position, (grant,))
        said = grant.front(64)
        return said[:32], said[32:]

    def prove_pocket(self, version: int, key: Bytes) -> bytes:
        """As `prove`, for a proof of at most 32 steps for each leaf shown. Refused: 12, 1, 2, 8, 14, 3 or 17, 19."""
        room, length = Room(POCKET_BYTES), Room(4)
        self._call("pocket_prove", number_of(version), room_of(key), room, (length,))
        return room.front(u32_at(length.front(4), 0))

    def figures(self, first: int, last: int) -> Report:
        """The figures of 1 to 1,024 kept versions. Refused: 1, 2, 3, 8."""
        many = min(max(number_of(last) - number_of(first) + 1, 0), MOST_FIGURES)
        room, totals = Room(16 * many), Room(8)
        self._call("figures", first, last, room, (totals,))
        said, sums = room.front(room.length), totals.front(8)
        of = [Figures(first + i, *(u32_at(said, 16 * i + at) for at in (0, 4, 8, 12))) for i in range(many)]
        return Report(of, u32_at(sums, 0), u32_at(sums, 4))

    def finding(self, version: int, key: Bytes, proof: Bytes) -> Optional[Finding]:
        """None where an accepted proof tells the truth about a version of this store, else what it would take that it doesn't.
        Refused: 12, 1, 2, 3, 8, 14, 10, 11."""
        finding = Room(131)
        self._call("finding", number_of(version), room_of(key), room_of(proof), (finding,))
        said = finding.front(131)
        return Finding([said[1:66], said[66:]][: 3 - said[0]]) if said[0] else None

    def palette(self, version: int, keys: Sequence[Bytes], most: Optional[int] = None) -> List[bytes]:
        """The proofs for up to 256 keys, in the order asked, each as `prove` would give it, in at most so many bytes together.
        Refused: 12, 1, 2, 8, then of the first key refused 14, 3 or 17; then 9."""
        if any(len(as_bytes(key)) != 32 for key in keys):
            raise Refused(12)
        needed = PROOF_BYTES * min(len(keys), PALETTE_KEYS)
        room, length = Room(needed if most is None else min(most, needed)), Room(4)
        self._call("palette", number_of(version), room_of(b"".join(map(bytes, keys))), room, (length,))
        return cut(room.front(u32_at(length.front(4), 0)))

    def changes(self, first: int, second: int, limit: int = MOST_VISITS, most: Optional[int] = None) -> List[Change]:
        """What changed from one kept version to another, in the order of keys, with at most so many visits and bytes of the library's list.
        Refused: 1, 2, 3, 8, 13, 9."""
        # Each record of the list is another leaf, and so another slot.
        needed = RECORD_BYTES * min(self._room.length // SLOT_BYTES, MOST_SLOTS)
        room, records = Room(needed if most is None else min(most, needed)), Room(4)
        self._call("changes", number_of(first), number_of(second), number_of(limit), room, (records,))
        listed = room.front(RECORD_BYTES * u32_at(records.front(4), 0))
        changed: List[Change] = []
        for at in range(0, len(listed), RECORD_BYTES):
            kind, key, value = listed[at + 4], listed[at + 8 : at + 40], listed[at + 40 : at + 72]
            if kind == 2:
                changed.append(Change(key, value, None))
            elif changed and changed[-1].key == key:
                changed[-1] = changed[-1]._replace(after=value)
            else:
                changed.append(Change(key, None, value))
        return changed


class Rescued(NamedTuple):
    """What a rescue gave back: versions `first` to latest. The numbers are those of the two buffers compared: records kept as they were, kept
    with another retired-since, used slots left out."""

    store: Store
    first: int
    same: int
    other: int
    out: int


def rescue(damaged: Bytes, oldest: int, latest: int) -> Rescued:
    """The good versions of a damaged store: the longest run, none before oldest, that ends at latest; the bytes' header isn't looked at.
    Refused: 1, 2 (oldest above latest), 3 (no version).

    **Compare `store.root(latest)` with the root that was signed.** A root record whose retired-since was damaged makes withdrawn grants seem
    in force in later versions, and nothing else shows it."""
    source = room_of(damaged)
    target, answer = Room(source.length), Room(16)
    call("rescue", source, number_of(oldest), number_of(latest), target, (answer,))
    said = answer.front(16)
    return Rescued(Store(target.front(target.length)), *(u32_at(said, at) for at in (0, 4, 8, 12)))


def move_over(old: Bytes) -> Store:
    """A store of the old form, with slots of 120 bytes and no counts, in the form of today; its slots and versions stay. Refused: 1, 2, 3."""
    source = room_of(old)
    target = Room(HEADER_BYTES + SLOT_BYTES * max(0, (source.length - HEADER_BYTES) // OLD_SLOT_BYTES))
    call("over", source, target)
    return Store(target.front(target.length))


def move_back(store: Store) -> bytes:
    """The bytes of a store in the old form. Refused: 1, 2, 3."""
    source = room_of(store.to_bytes())
    target = Room(HEADER_BYTES + OLD_SLOT_BYTES * max(0, (source.length - HEADER_BYTES) // SLOT_BYTES))
    call("back", source, target)
    return target.front(target.length)
