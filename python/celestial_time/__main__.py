"""python3 -m celestial_time listing [table=FILE] FILE
python3 -m celestial_time lineup [-r FILE.html] [gps=FILE] [tai=FILE] [utc=FILE] [table=FILE]
python3 -m celestial_time place [-o OUT.csv] [-p PICTURE.svg] [-r FILE.html] [gps=FILE] [tai=FILE] [utc=FILE] passes=FILE [readings=NAME,..] [table=FILE]
python3 -m celestial_time --help | --version

  listing   the UTC listing of each stamp block of a recorder's file, one after the other; - is standard input
  lineup    the stamps of up to three recorders in one line by their TAI, with their UTC, as the program line_up lists them
            -r: and one page for a browser, with the runs' figures, the leap rows, the refused and left out stamps, and a picture
  place     a row for each reading of up to three recorders' CSV files: its UTC and its metres along the pipe, from the marker passes beside it,
            or the number and the sentence by which it has none; how many have none is said on standard error, and so is a table whose expiry
            is before the last reading
            -o: the table to this file; -p: a picture over metres; -r: and one page for a browser, with figures, sentences and the picture
  table     announced leap rows, a line for each, as 2027-01 38

{files}

Exit status: 0 done, 1 a block, a pass or the table is refused, 2 not readable or writable, or other words. A refused stamp is no failure. Where nobody reads
on, or by Ctrl-C, it ends by that signal, as other programs do.
"""
from __future__ import annotations

import os
import signal
import sys

from ._library import FloatModeError, LibraryError
from ._version import __version__
from .blocks import BlockRefused, Source, listings, write_whole
from .csv_files import HELP
from .lineup import RECORDERS, line_up_files, listing_of, read_recorder
from .pipe_pictures import drawn_column, svg_of_places
from .pipe_report import write_places_page
from .placed import place_files
from .refusals import Refused
from .report import write_page
from .tables import Table

DONE, REFUSED, FAILED = 0, 1, 2
USAGE = __doc__.replace("{files}", HELP)


class Words(Exception):
    """The words of the command line are not as they are due."""


def _say(what: str) -> None:
    if sys.stderr is not None:  # where it is closed, print would write into the listing
        print(f"celestial_time: {what}", file=sys.stderr)


def _source(name: str) -> Source:
    return sys.stdin.buffer.read() if name == "-" else name


def _table(files: dict[str, str]) -> Table | None:
    return Table.read(files["table"]) if "table" in files else None


def _list(words: list[str]) -> int:
    rows = [word for word in words if word.startswith("table=")]
    files = [word for word in words if word not in rows]
    if len(files) != 1 or len(rows) > 1 or rows == ["table="]:
        raise Words("listing: one file is due, and at most one table")
    status = DONE
    for one in listings(_source(files[0]), table=_table({"table": row.partition("=")[2] for row in rows})):
        sys.stdout.buffer.write(one)
        status = REFUSED if one.startswith(b"block refused") else DONE
    return status


def _files(command: str, words: list[str], known: tuple[str, ...]) -> dict[str, str]:
    """The files by the words before them: those of the recorders, and others that are known; before a blank stand those that begin with -."""
    files: dict[str, str] = {}
    left = iter(words)
    for word in left:
        name, _, file = (word, "", next(left, "")) if word in known and word.startswith("-") else word.partition("=")
        if name not in (*RECORDERS, *known) or not file or name in files:
            raise Words(f"{command}: not understood, or there twice: {word}")
        files[name] = file
    if not set(files) & set(RECORDERS):
        raise Words(f"{command}: no run is named")
    return files


def _line_up(words: list[str]) -> int:
    files = _files("lineup", words, ("table", "-r"))
    table = _table(files)
    recorders = tuple(read_recorder(scale, files[scale]) for scale in RECORDERS if scale in files)
    status = DONE
    for recorder in recorders:
        if recorder.refused is not None:
            _say(f"{files[recorder.scale]}: {recorder.refused}")
            status = REFUSED
    line = line_up_files(*recorders, table=table)
    if "-r" in files:
        write_page(files["-r"], line, recorders, files)
    for part in listing_of(line, recorders, table):
        sys.stdout.buffer.write(part)
    return status


def _place(words: list[str]) -> int:
    files = _files("place", words, ("passes", "readings", "table", "-o", "-p", "-r"))
    if "passes" not in files:
        raise Words("place: no passes are named")
    placed = place_files({scale: files[scale] for scale in RECORDERS if scale in files}, files["passes"], table=_table(files))
    readings = placed.names(files["readings"].split(",") if "readings" in files else None)
    if "-p" in files:
        write_whole(files["-p"], iter([svg_of_places(placed, drawn_column(placed, readings)).encode("utf-8", "surrogateescape")]))
    if "-r" in files:
        write_places_page(files["-r"], placed, readings)
    if "-o" in files:
        write_whole(files["-o"], placed.csv(readings))
    else:
        for part in placed.csv(readings):
            sys.stdout.buffer.write(part)
        sys.stdout.flush()  # where nobody reads on it ends here, without a word
    for note in placed.notes():
        _say(note)
    return DONE


def _done(words: list[str]) -> int:
    """What the words ask for, done, and the exit status."""
    commands = {"listing": _list, "lineup": _line_up, "place": _place}
    asked = set(words) & {"-h", "--help", "--version"}
    if asked and (len(words) == 1 or len(words) == 2 and words[0] in commands):
        print(f"celestial_time {__version__}\n" if asked == {"--version"} else USAGE, end="", flush=True)
        return DONE
    if words == ["help"]:
        print(USAGE, end="", flush=True)
        return DONE
    if not words or words[0] not in commands:
        raise Words("listing, lineup or place is due")
    status = commands[words[0]](words[1:])
    sys.stdout.flush()
    return status


def _end_by(number: signal.Signals) -> int:
    """End as a program does that leaves the signal alone: by it, without a word. Python would try to write what is left once more, and complain."""
    if sys.stdout is not None:
        os.dup2(os.open(os.devnull, os.O_WRONLY), sys.stdout.fileno())
    signal.signal(number, signal.SIG_DFL)
    os.kill(os.getpid(), number)
    return 128 + number


def main(words: list[str]) -> int:
    """Do what the words say, and return the exit status.

    >>> main(['lineup', 'gps'])
    2
    """
    try:
        if sys.stdout is None:
            raise OSError("standard output is closed")
        return _done(words)
    except Words as wrong:
        _say(f"{wrong}\n{USAGE.rstrip()}")
    except BrokenPipeError:
        return _end_by(signal.SIGPIPE)
    except KeyboardInterrupt:
        return _end_by(signal.SIGINT)
    except BlockRefused as refused:
        _say(str(refused))
    except Refused as refused:
        _say(str(refused))
        return REFUSED
    except (OSError, ValueError, LibraryError, FloatModeError, MemoryError) as error:
        _say(str(error) or type(error).__name__)
    return FAILED


if __name__ == "__main__":
    sys.exit(main(sys.argv[1:]))
