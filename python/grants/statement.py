# SPDX-License-Identifier: Apache-2.0
"""What the publisher signs, read; and what an editor keeps so that a stale list is refused (docs/EDITOR.md). Nothing here needs the library."""

import enum
import re
from typing import NamedTuple, Optional, Union

_FIRST = "the root of a grant store"
_FORM = re.compile(
    _FIRST + r"\nversion ([0-9]{1,10})\nroot ([0-9a-f]{64})\n(?:bits ([0-9]|1[0-2])\n)?(?:published ([0-9TZ:-]{20})\n)?made ([0-9TZ:-]{20})\n(?:not-after ([0-9TZ:-]{20})\n)?",
    re.ASCII,
)
_DATE = re.compile(r"([0-9]{4})-([0-9]{2})-([0-9]{2})T([0-9]{2}):([0-9]{2}):([0-9]{2})Z", re.ASCII)


def _seconds(text: str) -> Optional[int]:
    """Seconds since 1970 of a date such as 2026-05-10T10:00:00Z; None for a day or a time that there isn't."""
    read = _DATE.fullmatch(text)
    if not read:
        return None
    year, month, day, hour, minute, second = map(int, read.groups())
    leap = year % 4 == 0 and (year % 100 != 0 or year % 400 == 0)
    lengths = [31, 29 if leap else 28, 31, 30, 31, 30, 31, 31, 30, 31, 30, 31]
    if not (1 <= month <= 12 and 1 <= day <= lengths[month - 1] and hour < 24 and minute < 60 and second < 60):
        return None
    before = year - 1
    days = 365 * year + (before // 4 - before // 100 + before // 400 + 1) + sum(lengths[: month - 1]) + day - 1 - 719528
    return ((days * 24 + hour) * 60 + minute) * 60 + second


class Statement(NamedTuple):
    """A root with its version and dates, as it is signed (docs/SIGNING.md). Dates are seconds since 1970. Of a shelf, `bits` says how many bits of a key name
    its part, for `shelf_verify`; of a store it is None. Check the signature first, over the same bytes."""

    version: int
    root: bytes
    published: Optional[int]
    made: int
    not_after: Optional[int]
    bits: Optional[int] = None

    @staticmethod
    def read(text: Union[bytes, str]) -> "Statement":
        """The very lines that `grants root --out` writes, and no others; ValueError for any other bytes."""
        try:
            plain = text if isinstance(text, str) else bytes(text).decode("ascii")
        except UnicodeDecodeError:
            plain = ""
        read = _FORM.fullmatch(plain)
        if read:
            version, root, bits, published, made, not_after = read.groups()
            dates = [None if date is None else _seconds(date) for date in (published, made, not_after)]
            whole = all(date is None or it is not None for date, it in zip((published, made, not_after), dates))
            if whole and int(version) < 2**32 and str(int(version)) == version and dates[1] is not None:
                return Statement(int(version), bytes.fromhex(root), dates[0], dates[1], dates[2], None if bits is None else int(bits))
        raise ValueError("this is no statement that `grants root --out` writes")


class Verdict(enum.Enum):
    """What an editor makes of a statement whose signature holds."""

    FRESH = "fresh"
    OLDER = "older than the version seen before"
    OTHER_ROOT = "another root for the version seen before"
    UNDATED = "without a date"
    PAST = "past its date"


class Seen(NamedTuple):
    """What an editor keeps of a list, from one start to the next: the highest version, its root, and the latest time that it knows to have come."""

    version: int = 0
    root: bytes = bytes(32)
    time: int = 0

    def judge(self, statement: Statement, now: int) -> Verdict:
        """Whether to believe a signed statement at a time of the clock, in seconds since 1970. A clock that is behind what was seen, or behind the
        statement's own 'made', is not believed."""
        if statement.version < self.version:
            return Verdict.OLDER
        if statement.version == self.version and statement.root != self.root:
            return Verdict.OTHER_ROOT
        if statement.not_after is None:
            return Verdict.UNDATED
        if self._time(statement, now) > statement.not_after:
            return Verdict.PAST
        return Verdict.FRESH

    def after(self, statement: Statement, now: int) -> "Seen":
        """What to keep once the statement was judged: what it says where it is fresh. Of one that is past, that its date has come: no clock that is set
        back makes it fresh again."""
        verdict = self.judge(statement, now)
        if verdict is Verdict.FRESH:
            return Seen(statement.version, statement.root, self._time(statement, now))
        if verdict is Verdict.PAST and statement.not_after is not None:
            return self._replace(time=max(self.time, statement.not_after + 1))
        return self

    def _time(self, statement: Statement, now: int) -> int:
        return max(now, self.time, statement.made)
