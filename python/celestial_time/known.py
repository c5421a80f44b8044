"""Until which day leap rows are known, and whether a date lies after it: as the summary of a line has them, by the same calls of the library."""
from __future__ import annotations

import ctypes
import struct

from ._library import TABLE_BYTES, check_float_mode, function
from .refusals import Refused
from .tables import Table, lent_table

# The records of three runs, as ct_run_size writes them: none named, and TAI with one stamp.
_NO_RUN, _ONE_STAMP = bytes(96), struct.pack("<12Q", *[0] * 4, 1, 0, 0, 1, *[0] * 4)
_SUMMARY, _AFTER = 832, 4  # CT_SUMMARY_BYTES and CT_LOOK_AFTER_KNOWN


def known_until(table: Table | None = None) -> str:
    """The day until which the leap rows are known: their text's expiry, or else six months with the last row that is lent, or what the library's own rows were
    checked until.

    >>> known_until(), known_until(Table([(2027, 1, 38)]))
    ('2026-06-28', '2027-06-30')
    """
    rows, out = lent_table(table), ctypes.create_string_buffer(_SUMMARY)
    code = function("ct_line_summary")(_NO_RUN, len(_NO_RUN), *(b"", 0) * 3, rows.address, TABLE_BYTES, rows.known_until, out, _SUMMARY)
    if code < 0:
        raise Refused(-code, "known_until")
    return out.raw[:code].decode("ascii").split()[-1]  # table 42 rows last 2017-01 37 lent 0 known until 2026-06-28


def is_after_known(jd1: float, jd2: float, table: Table | None = None) -> bool:
    """Whether the UTC day of a TAI date is later than that until which the leap rows are known.

    >>> is_after_known(2461219.5, 0.9), is_after_known(2461220.5, 0.1)
    (False, True)
    """
    check_float_mode()
    rows, parts = lent_table(table), [struct.pack("<d", part) for part in (jd1, jd2)]
    lent = (_ONE_STAMP, len(_ONE_STAMP), parts[0], 8, parts[1], 8, bytes(1), 1, rows.address, TABLE_BYTES, rows.known_until)
    code = function("ct_line_look")(*lent)
    if code < 0:
        raise Refused(-code, "is_after_known")
    return bool(code & _AFTER)
