# SPDX-License-Identifier: Apache-2.0
"""A shelf, read (docs/SCALE.md): more grants than one store holds, under one root. To publish into one is for the command line tool, which sees to it that there is one writer."""

import contextlib
import os
import re
from collections import OrderedDict
from typing import Callable, Dict, Iterator, List, Mapping, NamedTuple, Optional, Sequence, Set, Tuple, Union

from .library import MOST_SLOTS, PALETTE_KEYS, Bytes, Refused, as_bytes
from .store import Change, Store

SHELF_BITS = 12
# So many parts are kept open at a time; a part has two million bytes at most.
_MOST_OPEN = 16
_NO_ROOT = bytes(32)


class ShelfRefused(Refused):
    """A shelf has no answer. `part` is the number of the part that is refused, None where it is the list; a part that isn't the one that the list names makes the shelf unsound, 3."""

    part: Optional[int]

    def __init__(self, number: int, part: Optional[int], why: str = "") -> None:
        super().__init__(number)
        self.part = part
        self.sentence = why or self.sentence
        self.args = ("refused with %d: %s%s" % (number, "" if part is None else "part %03x: " % part, self.sentence),)

    def __reduce__(self) -> Tuple[type, Tuple[object, ...]]:
        return (ShelfRefused, (self.number, self.part, self.sentence))


ShelfRefused.__module__ = "grants"


class _File(NamedTuple):
    """A part's file as its name tells it: `part-0a3-7-2-3906` is part 0a3 with versions 2 to 7, and 3,906 grants in version 7. In this order the newest comes last."""

    latest: int
    oldest: int
    grants: int
    part: int
    name: str


_NAME = re.compile(r"part-([0-9a-f]{3})-(0|[1-9][0-9]{0,9})-(0|[1-9][0-9]{0,9})-(0|[1-9][0-9]{0,4})", re.ASCII)


def _file(name: str) -> Optional[_File]:
    read = _NAME.fullmatch(name)
    if not read:
        return None
    part, latest, oldest, grants = int(read[1], 16), int(read[2]), int(read[3]), int(read[4])
    return _File(latest, oldest, grants, part, name) if max(latest, oldest) < 2**32 and grants <= MOST_SLOTS else None


def _bits(text: str, published: bool) -> Optional[int]:
    """The bits that a file 'shelf' says, None for one that doesn't. Where a shelf is being made afresh it has a line 'fresh' too, whose bits hold as long as nothing was published."""
    plain, fresh = (re.search(form, text, re.ASCII | re.MULTILINE) for form in (r"^bits ([0-9]{1,9})$", r"^fresh ([0-9]{1,9}) [0-9]{1,9}$"))
    if not plain or not re.search(r"^slots [0-9]{1,9}$", text, re.ASCII | re.MULTILINE):
        return None
    if fresh and not published and int(fresh[1]) <= SHELF_BITS:
        plain = fresh
    return int(plain[1]) if int(plain[1]) <= SHELF_BITS else None


@contextlib.contextmanager
def _of(part: Optional[int]) -> Iterator[None]:
    """What is refused here is refused for a part, or for the list."""
    try:
        yield
    except ShelfRefused:
        raise
    except Refused as refused:
        raise ShelfRefused(refused.number, part) from refused


class Shelf:
    """A shelf as its files were when it was opened, to be opened again once it was written: `files` gives, by their names, how to read them. Its list is checked at once, and each part when it is asked for; what a part says counts only
    where it has the root that the list names. For one thread at a time."""

    def __init__(self, files: Mapping[str, Callable[[], bytes]]) -> None:
        """ValueError where they are no shelf. Refused: 1, 2, 3, of the list."""
        for name in ("shelf", "list"):
            if name not in files:
                raise ValueError("these files are no shelf: there is none called '%s'" % name)
        self._list = Store(files["list"]())
        with _of(None):
            self._list.check()
        bits = _bits(files["shelf"]().decode("utf-8", "replace"), self._list.latest > 0)
        if bits is None:
            raise ValueError("these files are no shelf: the one called 'shelf' has no bits from 0 to %d, or no slots" % SHELF_BITS)
        self.bits: int = bits
        found = [it for it in map(_file, files) if it and it.part < 2**bits and it.latest <= self.latest and it.oldest <= self.oldest]
        self._files: Dict[int, Callable[[], bytes]] = {it.part: files[it.name] for it in sorted(found)}
        self._open: "OrderedDict[int, Store]" = OrderedDict()

    @classmethod
    def open(cls, folder: Union[str, "os.PathLike[str]"]) -> "Shelf":
        """The shelf of a folder."""

        def reader(name: str) -> Callable[[], bytes]:
            def read() -> bytes:
                with open(os.path.join(folder, name), "rb") as f:
                    return f.read()

            return read

        return cls({name: reader(name) for name in os.listdir(folder)})

    @property
    def oldest(self) -> int:
        return self._list.oldest

    @property
    def latest(self) -> int:
        return self._list.latest

    def root(self, version: int) -> bytes:
        """The one hash that is signed, for `shelf_verify` with `bits`. Refused: 8."""
        with _of(None):
            return self._list.root(version)

    def _part(self, key: Bytes) -> int:
        if len(as_bytes(key)) != 32:
            raise Refused(12)
        return int.from_bytes(bytes(key[:2]), "big") >> (16 - self.bits)

    def _list_key(self, part: int) -> bytes:
        return (part << (16 - self.bits)).to_bytes(2, "big") + bytes(30)

    def _store(self, part: int) -> Optional[Store]:
        """A part's store, checked; None where it has no file. Those that were asked for last are kept."""
        if part not in self._files:
            return None
        if part not in self._open:
            try:
                store = Store(self._files[part]())
            except OSError as error:
                raise ShelfRefused(3, part, "its file can't be read any more: open the shelf again") from error
            with _of(part):
                store.check()
            self._open[part] = store
        self._open.move_to_end(part)
        while len(self._open) > _MOST_OPEN:
            self._open.popitem(last=False)
        return self._open[part]

    def _at(self, part: int, version: int) -> Optional[Tuple[Store, int]]:
        """A part in a version of the shelf, with the version of its own that this reads as; None where it has no file and is empty. Refused: 8; 3 where it isn't the part that the list names."""
        with _of(None):
            root = self._list.get(version, self._list_key(part)) or _NO_ROOT
        store = self._store(part)
        if store is None and root == _NO_ROOT:
            return None
        if store is None:
            raise ShelfRefused(3, part, "it is lost: the list names it in version %d, and it has no file" % version)
        own = min(version, store.latest)
        with _of(part):
            has = store.root(own) if own >= store.oldest else _NO_ROOT
        if has != root:
            raise ShelfRefused(3, part, "its file has another root in version %d than the list names" % version)
        return store, own

    def get(self, version: int, key: Bytes) -> Optional[bytes]:
        """The value of a key in a version, or None. Refused: 12, 8, 3 or 17."""
        part = self._part(key)
        at = self._at(part, version)
        with _of(part):
            return at[0].get(at[1], key) if at else None

    def prove(self, version: int, key: Bytes) -> bytes:
        """The proof that a key is in a version, or that it isn't, for `shelf_verify`. Refused: 12, 8, 14 (the shelf holds no grant), 3 or 17."""
        return self.palette(version, [key])[0]

    def palette(self, version: int, keys: Sequence[Bytes]) -> List[bytes]:
        """The proofs for up to 256 keys, in the order asked; a part is read once. Refused: 12, 8, 14, 3 or 17."""
        parts = [self._part(key) for key in keys]
        if len(keys) > PALETTE_KEYS:
            raise Refused(12)
        proofs: Dict[int, bytes] = {}
        for part in sorted(set(parts)):
            wanted = [i for i, it in enumerate(parts) if it == part]
            with _of(None):
                first = self._list.prove(version, self._list_key(part))
                empty = self._list.get(version, self._list_key(part)) is None
            at = None if empty else self._at(part, version)
            with _of(part):
                row = at[0].palette(at[1], [keys[i] for i in wanted]) if at else [b""] * len(wanted)
            proofs.update((i, first + second) for i, second in zip(wanted, row))
        return [proofs[i] for i in range(len(keys))]

    def _named(self, version: int) -> List[int]:
        """The parts that the list names in a version, in the order of keys. Refused: 8; 3 where a key of the list is no part's."""
        parts = []
        with _of(None):
            for position in range(self._list.count(version)):
                key, _ = self._list.at(version, position)
                parts.append(self._part(key))
                if self._list_key(parts[-1]) != key:
                    raise ShelfRefused(3, None, "the list has %s, which is no part's key with these bits" % key.hex())
        return parts

    def count(self, version: int) -> int:
        """How many grants a version holds. Refused: 8, 3."""
        count = 0
        for part in self._named(version):
            at = self._at(part, version)
            with _of(part):
                count += at[0].count(at[1]) if at else 0
        return count

    def changes(self, first: int, second: int) -> List[Change]:
        """What changed from one kept version to another, in the order of keys. Refused: 8, 3."""
        with _of(None):
            parts: Set[int] = {self._part(it.key) for it in self._list.changes(first, second)}
        changed: List[Change] = []
        for part in sorted(parts):
            was, now = self._at(part, first), self._at(part, second)
            if was is None or now is None:
                raise ShelfRefused(3, part, "it is lost: the list names it, and it has no file")
            with _of(part):
                changed += now[0].changes(was[1], now[1])
        return changed
