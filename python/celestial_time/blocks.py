"""Stamp blocks: a recorder's file is one block after the other, each of two sizes, all jd1 and all jd2."""
from __future__ import annotations

import os
import stat
import struct
from typing import Any, BinaryIO, Iterator, NamedTuple, Union

import numpy as np
from numpy.typing import ArrayLike, NDArray

from ._library import TABLE_BYTES, check_float_mode, function
from ._arrays import FLOAT, address_of, in_one_piece
from .refusals import Refused
from .tables import Table, lent_table

MOST = 4000
_PART = 1 << 16
Source = Union[str, "os.PathLike[str]", bytes, bytearray, memoryview, "NDArray[np.uint8]", BinaryIO]


class Stamps(NamedTuple):
    """The stamps of a file, and the number of stamps in each of its blocks.

    >>> read_blocks(block_of([2451545.0], [0.0])).sizes
    array([1])
    """

    jd1: NDArray[np.float64]
    jd2: NDArray[np.float64]
    sizes: NDArray[np.int64]


class BlockRefused(Refused):
    """A block that the library refuses: `block` is its place among the blocks, `at` its first byte, and `before` the stamps of the blocks before it.

    >>> try:
    ...     read_blocks(block_of([2451545.0], [0.0]) + b'half')
    ... except BlockRefused as refused:
    ...     refused.number, refused.block, refused.at, refused.before.jd1
    (14, 1, 24, array([2451545.]))
    """

    def __init__(self, number: int, values: dict[str, Any], block: int, at: int, before: Stamps) -> None:
        super().__init__(number, f"block {block} at byte {at}", values)
        self.args = (number, values, block, at, before)
        self.block, self.at, self.before = block, at, before


def read_blocks(source: Source) -> Stamps:
    """The stamps of a recorder's file, of its bytes, or of what an open file has left to read; no bytes are no blocks.

    Those of one block are read where they lie, and are read-only where the bytes are or a file is mapped; those of more are put together, and may be written.

    >>> read_blocks(block_of([2451545.0, float('nan')], [0.0, 0.25]))
    Stamps(jd1=array([2451545.,      nan]), jd2=array([0.  , 0.25]), sizes=array([2]))
    """
    held = bytes_of(source)
    parts: list[tuple[NDArray[Any], NDArray[Any]]] = []
    sizes: list[int] = []
    at = 0
    while at < len(held):
        block = _first_block(held[at:])
        stamps = function("ct_block_stamps")(address_of(block), block.nbytes)
        if stamps < 0:
            raise BlockRefused(-stamps, _sizes_of(held[at:]), len(sizes), at, _joined(parts, sizes))
        floats = block[8:].view(FLOAT)
        parts.append((floats[:stamps], floats[stamps:]))
        sizes.append(stamps)
        at += block.nbytes
    return _joined(parts, sizes)


def block_of(jd1: ArrayLike, jd2: ArrayLike) -> bytes:
    """The bytes of one block, of at most 4,000 stamps.

    >>> len(block_of([2451545.0], [0.0]))
    24
    """
    first, second = in_one_piece("jd1", jd1), in_one_piece("jd2", jd2)
    if max(len(first), len(second)) > 0xFFFFFFFF:
        raise OverflowError(f"{max(len(first), len(second))} stamps: a size has 32 bits")
    block = struct.pack("<2I", len(first), len(second)) + first.tobytes() + second.tobytes()
    code = function("ct_block_stamps")(block, len(block))
    if code < 0:
        raise Refused(-code, "block_of", {"length": len(block), "size": len(first), "second_size": len(second)})
    return block


def write_blocks(target: str | os.PathLike[str] | BinaryIO, jd1: ArrayLike, jd2: ArrayLike, *, size: int = MOST) -> int:
    """Write stamps as a file of blocks with `size` stamps each, the last with what is left, and return how many blocks they are. Their bits stay.

    A file is written beside and then renamed, so that a call that fails leaves it as it was; who may read and write it stays.

    >>> import io
    >>> file = io.BytesIO()
    >>> write_blocks(file, [2451545.0, 2451546.0, 2451547.0], [0.0, 0.0, 0.0], size=2)
    2
    >>> read_blocks(file.getvalue()).sizes
    array([2, 1])
    """
    first, second = in_one_piece("jd1", jd1), in_one_piece("jd2", jd2)
    if len(first) != len(second):
        raise ValueError(f"{len(first)} first parts and {len(second)} second parts")
    if size < 1:
        raise ValueError(f"blocks of {size} stamps")
    if not isinstance(target, (str, os.PathLike)) and not hasattr(target, "writelines"):
        raise TypeError(f"target is a {type(target).__name__} and neither a path nor a file that is open to be written")
    starts = range(0, max(len(first), 1), size)
    blocks = (block_of(first[start : start + size], second[start : start + size]) for start in starts)
    if not isinstance(target, (str, os.PathLike)):
        target.writelines(blocks)
    else:
        write_whole(target, blocks)
    return len(starts)


def write_whole(path: str | os.PathLike[str], parts: Iterator[bytes]) -> None:
    """Write a file of these bytes: beside it, and then renamed, so that a call that fails leaves it as it was; a pipe as it is.

    >>> import pathlib, tempfile
    >>> with tempfile.TemporaryDirectory() as folder:
    ...     write_whole(folder + '/file', iter([b'one', b'two']))
    ...     pathlib.Path(folder, 'file').read_bytes()
    b'onetwo'
    """
    if os.path.exists(path) and not os.path.isfile(path):
        with open(path, "wb") as pipe:
            pipe.writelines(parts)
    else:
        _write_beside(os.path.realpath(path), parts)


def _write_beside(path: str, blocks: Iterator[bytes]) -> None:
    beside = f"{path}.{os.getpid()}.new"
    kept = stat.S_IMODE(os.stat(path).st_mode) if os.path.exists(path) else None
    # Opened with no more than the mode that is kept, from which the process's mask may take.
    with open(beside, "xb", opener=lambda name, flags: os.open(name, flags, 0o666 if kept is None else kept & 0o777)) as file:
        try:
            if kept is not None:
                os.fchmod(file.fileno(), kept)
            file.writelines(blocks)
            file.flush()
            os.replace(beside, path)
        except BaseException:
            os.remove(beside)
            raise


def listing(block: Source, *, table: Table | None = None) -> bytes:
    """The listing of one block: a header, and a line with the UTC text or the refusal of each stamp. A block that is refused has a line that says so.

    >>> print(listing(block_of([2451545.0, float('nan')], [0.0, 0.0])).decode(), end='')
    utc listing 2 refused 1
    0 2000-01-01T12:00:00.000
    1 refused 6
    """
    held, rows = bytes_of(block), lent_table(table)
    check_float_mode()
    return b"".join(_parts_of(held, rows))


def reason_listing(block: Source, *, table: Table | None = None) -> bytes:
    """The second listing of one block: as `listing`, with each refusal told in a sentence.

    >>> print(reason_listing(block_of([2451545.0, float('nan')], [0.0, 0.0])).decode(), end='')
    utc listing 2 refused 1
    0 2000-01-01T12:00:00.000
    1 date is outside the calendar: sum 7ff8000000000000
    """
    held = bytes_of(block)
    return b"".join(_parts_of(held, lent_table(table), "ct_reason_listing_part", held.nbytes))


def listings(source: Source, *, table: Table | None = None) -> Iterator[bytes]:
    """The listings of a file's blocks, one after the other. Where a block is refused, its listing says so and is the last.

    >>> two = block_of([2451545.0], [0.0]) + block_of([], [])
    >>> [one.splitlines()[0] for one in listings(two)]
    [b'utc listing 1 refused 0', b'utc listing 0 refused 0']
    """
    held = bytes_of(source)
    at = 0
    while True:
        block = _first_block(held[at:])
        yield listing(block, table=table)
        at += block.nbytes
        if at >= len(held) or function("ct_block_stamps")(address_of(block), block.nbytes) < 0:
            return


def _parts_of(block: NDArray[np.uint8], table: Table, call: str = "ct_listing_part", *came: int) -> Iterator[bytes]:
    part = np.empty(_PART, "u1")
    line = 0
    while True:
        code = function(call)(
            address_of(block), block.nbytes, *came, line, table.address, TABLE_BYTES, address_of(part), part.nbytes
        )
        if code < 0:
            raise Refused(-code, "listing")
        if code == 0:
            return
        yield part[:code].tobytes()
        line += int(np.count_nonzero(part[:code] == 10))


class RunSize(NamedTuple):
    """How large a run is up to the first block that is refused: the library's record of it, its stamps, blocks and bytes, and the number of that refusal, or 0.

    >>> run_size(bytes_of(block_of([2451545.0], [0.0]) + b'half'))[1:]
    (1, 1, 24, 14)
    """

    record: bytes
    stamps: int
    blocks: int
    bytes: int
    refused: int


def run_size(held: NDArray[np.uint8]) -> RunSize:
    """How large the run is whose bytes these are.

    >>> run_size(bytes_of(b'')).stamps
    0
    """
    record = np.empty(32, "u1")
    size = function("ct_run_size")(address_of(held), held.nbytes, address_of(record), record.nbytes)
    stamps, blocks, refused, _ = map(int, record.view("<u8"))
    return RunSize(record.tobytes(), stamps, blocks, size, refused)


def block_refused(held: NDArray[np.uint8], size: RunSize, before: Stamps) -> BlockRefused:
    """The block that ended a run of this size, behind these stamps.

    >>> held = bytes_of(block_of([2451545.0], [0.0]) + b'half')
    >>> str(block_refused(held, run_size(held), read_blocks(b'')))
    'block 1 at byte 24: refused 14: the number of bytes is wrong: length 4 (length=4, size=1718378856, second_size=0)'
    """
    return BlockRefused(size.refused, _sizes_of(held[size.bytes :]), size.blocks, size.bytes, before)


def bytes_of(source: Source) -> NDArray[np.uint8]:
    """The bytes of a file, which is mapped where it can be, or of what else has bytes.

    >>> bytes_of(b'abc')
    array([97, 98, 99], dtype=uint8)
    """
    if isinstance(source, (str, os.PathLike)):
        # A pipe can't be mapped, nor a file without a byte.
        if os.path.isfile(source) and os.path.getsize(source):
            return np.asarray(np.memmap(source, "u1", "r"))
        with open(source, "rb") as file:
            return bytes_of(file.read())
    held: Any = source
    try:
        size = memoryview(held).nbytes
    except TypeError:
        if not hasattr(held, "read"):
            raise TypeError(f"a {type(held).__name__} is neither a path, nor bytes, nor a file that is open to be read") from None
        read = held.read()
        if not isinstance(read, bytes):
            raise TypeError(f"the file reads a {type(read).__name__} and no bytes: open it with 'rb'") from None
        return bytes_of(read)
    return np.frombuffer(held, "u1") if size else np.empty(0, "u1")


def _first_block(held: NDArray[np.uint8]) -> NDArray[np.uint8]:
    """As many bytes as the first size asks for, or all that there are; what they are worth the library says."""
    if len(held) < 8:
        return held
    return held[: 8 + 16 * int(held[:4].view("<u4")[0])]


def _sizes_of(held: NDArray[np.uint8]) -> dict[str, int]:
    sizes = [int(held[start : start + 4].view("<u4")[0]) if len(held) >= start + 4 else 0 for start in (0, 4)]
    return {"length": len(held), "size": sizes[0], "second_size": sizes[1]}


def _joined(parts: list[tuple[NDArray[Any], NDArray[Any]]], sizes: list[int]) -> Stamps:
    if len(parts) == 1:
        return Stamps(parts[0][0], parts[0][1], np.array(sizes))
    if not parts:
        return Stamps(np.empty(0, FLOAT), np.empty(0, FLOAT), np.empty(0, int))
    return Stamps(np.concatenate([a for a, _ in parts]), np.concatenate([b for _, b in parts]), np.array(sizes))
