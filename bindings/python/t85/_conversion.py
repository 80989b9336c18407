"""Converts files piece by piece, in memory that does not grow with the height of the image."""
from __future__ import annotations

import contextlib
import io
import mmap
import os
import tempfile
from typing import Any, Callable, Iterator, Optional, Protocol, Union, cast

from . import _NO_LIMIT, MAX_BYTES, Buffer, Decoder, Encoder, Error, Header, Rows, _height_in_use, _length, _numbers, _Option, _word
from ._files import writing
from ._pbm import PageReader, head_of
from ._rows import row_bytes

_HEADER_BYTES = 20
# The bytes of a stream per read, and of an output per write; and the bytes of a stream that are stored in memory.
_PIECE, _HELD, _MOST_KEPT = 1 << 12, 1 << 16, 1 << 20


class Readable(Protocol):
    """The methods that a source needs."""

    def read(self, size: int = ..., /) -> Optional[bytes]: ...


class Writable(Protocol):
    """The methods that a target needs."""

    def write(self, data: bytes, /) -> Optional[int]: ...


Source = Union[str, "os.PathLike[str]", Readable]
Target = Union[str, "os.PathLike[str]", Writable]


def encode_file(
    source: Source,
    target: Target,
    *,
    stripe_rows: int = 128,
    most_offset: int = 0,
    two_lines: bool = False,
    typical: bool = True,
    variable_height: bool = False,
    announced_height: Optional[int] = None,
    reset: bool = False,
    comment: Optional[Buffer] = None,
) -> int:
    """Encodes a PBM image, raw or plain, from source to target, and returns the length of the stream in bytes.

    source  a file name, or a binary file object, which may be read beyond the image
    target  the same; a file given by name appears only when it is complete

    The options are those of encode. The image is read row by row, and the stream is written as it is produced, before more
    is read, so both may be pipes. If rows are missing, an Error is raised; a file object then has the stream of the complete
    stripes, and a prefix of the next one.
    """
    with _reading(source) as file, _writing(target) as output:
        page = PageReader(_more_of(file, output))
        encoder = Encoder(
            page.width,
            page.height,
            stripe_rows=stripe_rows,
            most_offset=most_offset,
            two_lines=two_lines,
            typical=typical,
            variable_height=variable_height,
            announced_height=announced_height,
            reset=reset,
            comment=comment,
        )
        for row in page.rows():
            output.put(encoder.row(row))
        if encoder.rows_left:
            raise Error(_numbers.ROWS_MISSING)
        output.put(encoder.end())
        return output.length


def decode_file(
    source: Source,
    target: Target,
    *,
    max_rows: Optional[int] = None,
    max_bytes: Optional[int] = MAX_BYTES,
) -> int:
    """Decodes a stream from source to a raw PBM in target, and returns the height.

    source     a file name, or a binary file object, which may be read beyond the stream
    target     the same; a file given by name appears only when it is complete
    max_rows   reject an image of more rows; None, the default, means no limit
    max_bytes  reject an image whose rows take more bytes; None means no limit

    Rows are written as they are decoded, before more is read, so both may be pipes. A PBM begins with its height, so a
    stream that may give its height late is read to its end before anything is written. It is stored meanwhile, beyond
    1 MiB in a temporary file.

    If the stream is broken, an Error is raised, whose partial has the number of recoverable rows. A file object then has
    the header with the full height, and these rows.
    """
    most = _NO_LIMIT if max_rows is None else _word("max_rows", max_rows)
    limit = None if max_bytes is None else _length("max_bytes", max_bytes)
    with _reading(source) as file, _writing(target) as output, contextlib.ExitStack() as stack:
        more = _more_of(file, output)
        stream = _Stream(more)
        width = stream.header.width
        if stream.header.options & _Option.VARIABLE_HEIGHT:
            data = _kept(stream.front, more, stack)
            height = _height_in_use(data, most)
            again: Any = data if isinstance(data, mmap.mmap) else io.BytesIO(data)
            stream = _Stream(_more_of(again, output))
        else:
            height = stream.header.height
            if height > most:
                raise Error(_numbers.TOO_MANY_ROWS)
        _refuse_large(height * row_bytes(width), limit)
        output.put(head_of(width, height))
        count = 0
        for row in stream.rows():
            # A late height cuts off rows that were returned before it.
            if count < height:
                output.put(row)
                count += 1
        if stream.status:
            raise Error(stream.status, Rows(width, count, row_bytes(width), b""))
    return height


def _is_name(file: Any) -> bool:
    return isinstance(file, (str, os.PathLike))


@contextlib.contextmanager
def _reading(source: Source) -> Iterator[Readable]:
    if _is_name(source):
        with open(cast(str, source), "rb", buffering=0) as file:
            yield file
    else:
        yield cast(Readable, source)


class _Output:
    """Buffers bytes for a file object: those of many rows are written together."""

    def __init__(self, file: Writable) -> None:
        self._file, self._held, self.length = file, bytearray(), 0

    def put(self, data: bytes) -> None:
        self._held += data
        self.length += len(data)
        if len(self._held) >= _HELD:
            self.send()

    def send(self) -> None:
        """Writes the buffered bytes. An unbuffered file object may accept a part of them at a time."""
        rest = bytes(self._held)
        self._held.clear()
        while rest:
            count = self._file.write(rest)
            if count is None and isinstance(self._file, io.RawIOBase):
                raise BlockingIOError("target takes no bytes now")
            rest = b"" if count is None else rest[count:]


@contextlib.contextmanager
def _writing(target: Target) -> Iterator[_Output]:
    """Opens a target for writing; it is also written if an error follows."""
    with contextlib.ExitStack() as stack:
        if _is_name(target):
            file: Writable = stack.enter_context(writing(os.fspath(cast(str, target))))
        else:
            file = cast(Writable, target)
        output = _Output(file)
        try:
            yield output
        except Error:
            output.send()
            raise
        output.send()


def _more_of(file: Readable, output: _Output) -> Callable[[int], bytes]:
    """Returns a function that reads up to a number of bytes of a file: those that are available, if the file can
    say. Buffered output is written before each read."""
    read = getattr(file, "read1", file.read)

    def more(size: int) -> bytes:
        output.send()
        data = read(size)
        if data is None:
            raise BlockingIOError("source has no bytes now")
        return bytes(data)

    return more


class _Stream:
    """A stream whose header has been read, with a function that returns up to a number of bytes, and none at the
    end."""

    def __init__(self, more: Callable[[int], bytes]) -> None:
        self._more, self._decoder, self.front = more, Decoder(), b""
        while self._decoder.header is None:
            piece = more(_PIECE)
            if not piece:
                self._decoder.end()
            self._decoder.feed(piece[: _HEADER_BYTES - len(self.front)])
            self.front += piece
        self.header: Header = self._decoder.header

    def rows(self) -> Iterator[bytes]:
        """Yields the rows in order."""
        piece = self.front[_HEADER_BYTES:]
        while True:
            yield from self._decoder._fed(piece)
            if self._decoder._status != _numbers.MORE:
                return
            piece = self._more(_PIECE)
            if not piece:
                yield from self._decoder._ended()
                return

    @property
    def status(self) -> int:
        """Returns 0 if all rows arrived, or the stream's error."""
        return self._decoder._status


def _kept(front: bytes, more: Callable[[int], bytes], stack: contextlib.ExitStack) -> Union[bytes, mmap.mmap]:
    """Stores all bytes of a stream; if there are many, in a temporary file."""
    held = bytearray(front)
    while len(held) < _MOST_KEPT:
        piece = more(_HELD)
        if not piece:
            return bytes(held)
        held += piece
    file = stack.enter_context(tempfile.TemporaryFile())
    while held:
        file.write(held)
        held[:] = more(_HELD)
    file.flush()
    return stack.enter_context(mmap.mmap(file.fileno(), 0, access=mmap.ACCESS_COPY))


def _refuse_large(taken: int, max_bytes: Optional[int]) -> None:
    if max_bytes is not None and taken > max_bytes:
        text = f"rows take {taken} bytes, and max_bytes is {max_bytes}: give a greater max_bytes, or max_bytes=None for no limit"
        raise Error(_numbers.NO_ROOM, text=text)
