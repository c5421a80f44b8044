"""Announced leap rows, lent to the calls that read TAI-UTC."""
from __future__ import annotations

import ctypes
import os
import struct
from operator import index
from typing import Iterable, Iterator

import numpy as np

from ._library import TABLE_BYTES, function
from .refusals import Refused

_MOST = 16


class Table:
    """Leap rows that were announced after the library was built: year, month, and TAI-UTC in whole seconds from the first of that month on.

    The rows stand behind the library's own 42. The library judges them: 20 for more than 16, 21 for a row that is not later than the one before it, 22 for a
    step of other than one second.

    >>> table = Table([(2027, 1, 38)])                                   # made up
    >>> table.rows, table.count, len(table)
    (((2027, 1, 38),), 43, 1)
    >>> dat(2027, 1, 1, 0.0, table=table).seconds
    38.0
    >>> Table([(2016, 7, 38)])
    Traceback (most recent call last):
    celestial_time.refusals.Refused: Table: refused 21...
    """

    __slots__ = ("_bytes", "_kept", "_known", "_rows")

    def __init__(self, rows: Iterable[tuple[int, int, int]] = ()) -> None:
        self._rows = tuple((index(year), index(month), index(seconds)) for year, month, seconds in rows)
        for year, month, _ in self.rows:
            if not 1 <= month <= 12:
                raise ValueError(f"no month: {year}-{month}")
        # More than 16 rows have no place in the bytes; their number alone is handed on, and the library refuses it.
        held = [*self.rows[:_MOST], *[(0, 1, 0)] * (_MOST - len(self.rows))]
        try:
            self._bytes = struct.pack(
                "<2I32i", len(self.rows), len(self.rows), *(12 * y + m - 1 for y, m, _ in held), *(s for _, _, s in held)
            )
        except struct.error:
            raise OverflowError("a year or a number of seconds does not fit 32 bits") from None
        self._known = 0
        self._keep()

    def _keep(self) -> None:
        self._kept = np.frombuffer(self._bytes, "u1")
        code = function("ct_check_table")(self.address, TABLE_BYTES)
        if code < 0:
            raise Refused(-code, "Table")

    @classmethod
    def from_bytes(cls, given: bytes) -> "Table":
        """The table of 136 bytes, as the header of the C interface describes them.

        >>> Table.from_bytes(bytes(Table([(2027, 1, 38)]))).rows
        ((2027, 1, 38),)
        """
        given = memoryview(given).tobytes()  # bytes(136) would be those of no rows
        code = function("ct_check_table")(given, len(given))
        if code < 0:
            raise Refused(-code, "Table.from_bytes")
        read = struct.unpack("<2I32i", given)
        return cls((read[2 + i] // 12, read[2 + i] % 12 + 1, read[18 + i]) for i in range(read[0]))

    @classmethod
    def read(cls, path: str | os.PathLike[str]) -> "Table":
        """The table of a text file: lines of a month and TAI-UTC from then on, as `2027-01 38`, or the IERS's file leap-seconds.list.

        Rows that the library has must be equal, and the later ones are lent. A refusal names the line at fault.

        >>> import pathlib, tempfile
        >>> with tempfile.TemporaryDirectory() as folder:
        ...     file = pathlib.Path(folder, 'rows')
        ...     _ = file.write_text('#@ 4007750400\\n2017-01 37\\n2027-01 38   # made up')
        ...     table = Table.read(file)
        >>> table, table.known_until
        (Table([(2027, 1, 38)]), 61406)
        """
        with open(path, "rb") as file:
            text = file.read()
        table, known = ctypes.create_string_buffer(TABLE_BYTES), ctypes.create_string_buffer(4)
        code = function("ct_read_table")(text, len(text), table, TABLE_BYTES, known, 4)
        if code < 0:
            raise Refused(-code, f"{os.fspath(path)}: line {function('ct_table_fault')(text, len(text))}")
        made = cls.from_bytes(table.raw)
        made._known = int.from_bytes(known.raw, "little")
        return made

    # the name of the first versions
    from_file = read

    @property
    def known_until(self) -> int:
        """The Modified Julian Date until which a table that was read from a text is known, by its expiry; 0 where none is told.

        >>> Table().known_until
        0
        """
        return self._known

    @property
    def rows(self) -> tuple[tuple[int, int, int], ...]:
        """The rows that were announced. A table is not changed: the calls read its bytes.

        >>> Table([(2027, 1, 38)]).rows
        ((2027, 1, 38),)
        """
        return self._rows

    @property
    def address(self) -> int:
        """Where the 136 bytes lie, for the calls.

        >>> Table().address > 0
        True
        """
        return int(self._kept.__array_interface__["data"][0])

    @property
    def count(self) -> int:
        """How many rows there are with the library's own: 42 to 58.

        >>> Table().count
        42
        """
        return int(function("ct_check_table")(self.address, TABLE_BYTES))

    def __bytes__(self) -> bytes:
        return self._bytes

    def __len__(self) -> int:
        return len(self.rows)

    def __iter__(self) -> Iterator[tuple[int, int, int]]:
        return iter(self.rows)

    def __eq__(self, other: object) -> bool:
        return isinstance(other, Table) and self.rows == other.rows

    def __hash__(self) -> int:
        return hash(self.rows)

    def __repr__(self) -> str:
        return f"Table({list(self.rows)})"

    def __reduce__(self) -> tuple[object, ...]:
        return _again, (self.rows, self._known)


def _again(rows: tuple[tuple[int, int, int], ...], known: int) -> Table:
    made = Table(rows)
    made._known = known
    return made


_none_lent: Table | None = None


def lent_table(table: Table | None) -> Table:
    """The table that a call was lent, or the one of no rows.

    >>> len(lent_table(None))
    0
    """
    global _none_lent
    if table is None:
        if _none_lent is None:
            _none_lent = Table()
        return _none_lent
    if not isinstance(table, Table):
        raise TypeError(f"table is a {type(table).__name__} and not a Table")
    return table
