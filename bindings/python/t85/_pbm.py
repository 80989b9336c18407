"""PBM images, raw and plain, as docs/PBM.md describes them. The library reads them."""
from __future__ import annotations

from dataclasses import dataclass
from typing import Callable, Iterator

from . import _PbmReader
from ._rows import row_bytes

# The bytes per read.
_PIECE = 1 << 16


@dataclass(frozen=True)
class Page:
    """An image: its rows are adjacent, as many as the file has; in raw rows, the bits after the last pixel are those of the
    file. `end` is the place in the file behind it; no image can follow a plain one, which ends with the file."""

    width: int
    height: int
    rows: memoryview
    end: int


def read_page(data: bytes, begin: int = 0) -> Page:
    """Reads the image of a PBM that begins at this byte. If rows are missing, it has fewer than its height."""
    source = _Bytes(data, begin)
    reader = PageReader(source.read)
    if reader.is_plain:
        return Page(reader.width, reader.height, memoryview(b"".join(reader.rows())), len(data))
    # Raw rows are packed in the file as the library takes them: they are not copied.
    first = source.place - reader.unread
    rows = memoryview(data)[first : first + reader.height * row_bytes(reader.width)]
    return Page(reader.width, reader.height, rows, first + len(rows))


@dataclass
class _Bytes:
    """Bytes that are read from a place on, which follows what has been read."""

    data: bytes
    place: int

    def read(self, size: int) -> bytes:
        piece = self.data[self.place : self.place + size]
        self.place += len(piece)
        return piece


class PageReader:
    """Reads a PBM row by row, with a function that returns up to a number of bytes, and none at the end. It may read
    beyond the image."""

    def __init__(self, more: Callable[[int], bytes]) -> None:
        self._reader = _PbmReader(lambda: more(_PIECE))
        self.width: int = self._reader.width
        self.height: int = self._reader.height
        self.is_plain: bool = self._reader.is_plain

    @property
    def unread(self) -> int:
        """Returns how many bytes were read beyond the rows so far."""
        return self._reader.unread

    def rows(self) -> Iterator[bytes]:
        """Yields the packed rows, as many as the file has."""
        while (row := self._reader.next_row()) is not None:
            yield row


def head_of(width: int, height: int) -> bytes:
    """Returns the header of a PBM."""
    return b"P4\n%d %d\n" % (width, height)
