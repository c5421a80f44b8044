"""Two-part Julian dates, eight time scales, the calendar, TAI-UTC, UTC texts and stamp blocks, on arrays of numpy.

The package hands arrays to the shared library, whose calls are proved; what it does itself is tested and not proved (README.md beside the package).
An array call answers a named tuple of arrays, of which the last, `numbers`, has 0 for each stamp that is answered and the number of its refusal for each
other; a call with single values raises `Refused`, which carries the number.

>>> import celestial_time as ct
>>> tai = ct.gpstai([2457754.5, float('nan')], 0.0)
>>> tai.jd1, tai.numbers
(array([2457754.5,       nan]), array([0, 9], dtype=uint8))
"""
from ._answers import (
    NO_INT, NO_LONG, Bill, CalendarDates, Dates, DatesByRule, Fields, FullWeeks, Leaps, Milliseconds, Offsets, Order, Places, Seconds, Sorted,
    Texts, TextsByRule, Ticks, Times, UtcFields, Walked, Weeks,
)
from ._library import FloatModeError, LibraryError, default_float_mode
from ._version import __version__
from .blocks import BlockRefused, Stamps, block_of, listing, listings, read_blocks, reason_listing, write_blocks
from .calendars import cal2jd, dtf2d, from_unix, jd2cal
from .csv_files import Readings, read_readings
from .datetimes import from_datetime, utc_datetime64
from .offsets import ABSENT, DRIFTING, WHOLE, dat, leap_at_end_of_day, offsets_at_0h
from .order import argsort, compare, difference, equal, same_stamp, seconds_between
from .placed import Passes, Placed, place_files, read_passes
from .placing import milliseconds, place
from .refusals import Refused, reason
from .runs import Line, Run, line_up, line_up_recorders, listed_places
from .scales import (
    SCALES, add_days, add_seconds, convert, gpstai, taigps, taitcg, taitt, taiut1, taiutc, tcbtdb, tcgtai, tcgtt, tdbtcb, tdbtt, tttai, tttcg, tttdb,
    ttut1, ut1tai, ut1tt, ut1utc, utctai, utcut1,
)
from .standby import standby_bill
from .tables import Table
from .texts import FORMS, dates_of_texts, from_iso8601, parse_iso8601, to_iso8601, utc_texts
from .ticks import place_ticks
from .weeks import gps_from_week, gps_full_week, gps_to_week

__all__ = [
    "ABSENT", "add_days", "add_seconds", "argsort", "Bill", "block_of", "BlockRefused", "cal2jd", "CalendarDates", "compare", "convert", "dat", "Dates",
    "dates_of_texts", "DatesByRule", "default_float_mode", "difference", "DRIFTING", "dtf2d", "equal", "Fields", "FloatModeError", "FORMS", "from_datetime",
    "from_iso8601", "from_unix", "FullWeeks", "gps_from_week", "gps_full_week", "gps_to_week", "gpstai", "jd2cal", "leap_at_end_of_day", "Leaps",
    "LibraryError", "Line", "line_up", "line_up_recorders", "listed_places", "listing", "listings", "Milliseconds", "milliseconds", "NO_INT", "NO_LONG",
    "Offsets", "offsets_at_0h", "Order", "parse_iso8601", "Passes", "place", "place_files", "place_ticks", "Placed", "Places", "read_blocks", "read_passes",
    "read_readings", "Readings", "reason", "reason_listing", "Refused", "Run", "same_stamp", "SCALES", "Seconds", "seconds_between", "Sorted", "Stamps",
    "standby_bill", "Table", "taigps", "taitcg", "taitt", "taiut1", "taiutc", "tcbtdb", "tcgtai", "tcgtt", "tdbtcb", "tdbtt", "Texts", "TextsByRule", "Ticks",
    "Times", "to_iso8601", "tttai", "tttcg", "tttdb", "ttut1", "ut1tai", "ut1tt", "ut1utc", "utc_datetime64", "utc_texts", "UtcFields", "utctai", "utcut1",
    "Walked", "Weeks", "WHOLE", "write_blocks",
]
