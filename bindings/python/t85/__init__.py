"""JBIG1 (ITU-T T.82) in the fax profile T.85, with the C library libt85.

    >>> stream = encode(rows, 1728, 2200, most_offset=127)
    >>> decode(stream)[:13]
    b'P4\\n1728 2200\\n'
    >>> header(stream).width
    1728

Rows are packed with eight pixels per byte, the leftmost in the most significant bit; 1 is black, as in a raw PBM. Input may
be any object with a buffer: bytes, bytearray, memoryview, mmap. Output is bytes.

Other packages represent pixels differently, and nothing is converted unless you ask for it:

    >>> page = pack(array, black=True)            # a 2-D NumPy array in which True or 1 is black
    >>> page = from_image(image)                  # a Pillow image in mode 1, in which 1 is white
    >>> stream = encode(page.data, page.width, page.count)
    >>> image = to_image(decode_rows(stream))
    >>> array = unpack(decode_rows(stream), black=True)
    >>> packed = to_array(decode_rows(stream))    # the packed rows, without another copy

Packed arrays are encoded in place, and decode_into decodes into an existing one.

t85.pillow makes Pillow open and save streams. t85.many, and the command python3 -m t85, process many files.

For a stream that arrives in pieces, use a Decoder, which returns rows as soon as their bytes have arrived. For an image row
by row, use an Encoder, which returns the stream as far as it is certain. encode_file and decode_file convert files in this
way, in memory that does not grow with the height of the image. parts lists the parts of a stream.

A stream of a few bytes may denote an image of terabytes. So decode and decode_rows reject images whose rows take more than
MAX_BYTES, 1 GiB, unless max_bytes says otherwise. A call temporarily needs twice the size of the rows, and for a broken
stream up to three times that size plus 8 MiB.

The library is loaded from the file that T85_LIBRARY names; otherwise from the directory of this file, where a wheel has it;
otherwise as libt85.so.1 from the system's directories. Functions may be called from several threads at once, and let other
threads run during a call.
"""
from __future__ import annotations

import array
import ctypes
import enum
import importlib
import mmap
import os
from ctypes import POINTER, byref, c_bool, c_char, c_size_t, c_uint8, c_uint32, c_uint64, c_void_p
from dataclasses import dataclass
from typing import TYPE_CHECKING, Any, Callable, Iterator, Optional, Union

from . import _numbers
from ._rows import Rows, from_image, pack, to_array, to_image, unpack
from ._rows import refuse_pixels as _refuse_pixels
from ._rows import row_bytes as _row_bytes

__all__ = [
    "MAX_BYTES",
    "BrokenPart",
    "Choice",
    "Decoder",
    "Encoder",
    "Error",
    "Header",
    "Part",
    "RawHeader",
    "Rows",
    "Summary",
    "decode",
    "decode_file",
    "decode_into",
    "decode_rows",
    "encode",
    "encode_file",
    "from_image",
    "header",
    "info",
    "pack",
    "parts",
    "raw_header",
    "set_height",
    "set_unused_fields",
    "stream_length",
    "to_array",
    "to_image",
    "unpack",
    "version",
]

MAX_BYTES = 1 << 30

Buffer = Union[bytes, bytearray, memoryview, mmap.mmap, "array.array[Any]"]
Writable = Union[bytearray, memoryview, mmap.mmap, "array.array[Any]"]
if TYPE_CHECKING:
    _Memory = ctypes.Array[c_char]
    # Takes memory and its length, and returns a status.
    _Writer = Callable[[_Memory, int], int]

_SONAME = "libt85.so.1"
# The length of a stream's header, and the greatest length of a PBM's.
_HEADER_BYTES, _HEAD_BYTES = 20, 22
_NO_LIMIT = 0xFFFFFFFF
_FIRST_ROOM = 1 << 23


class _Option(enum.IntFlag):
    """The bits of the options byte in the header of a stream."""

    TWO_LINES = _numbers.TWO_LINES
    VARIABLE_HEIGHT = _numbers.VARIABLE_HEIGHT
    TYPICAL = _numbers.TYPICAL


class _Options(ctypes.Structure):
    _fields_ = [
        ("version", c_uint32),
        ("options", c_uint32),
        ("stripe_rows", c_uint32),
        ("most_offset", c_uint32),
        ("announced_height", c_uint32),
        ("announces_height", c_bool),
        ("reset", c_bool),
        ("has_comment", c_bool),
    ]


class _Header(ctypes.Structure):
    _fields_ = [(name, c_uint32) for name in ("width", "height", "stripe_rows", "most_offset", "options")]


class _RawHeader(ctypes.Structure):
    _fields_ = [
        *((name, c_uint32) for name in ("width", "height", "stripe_rows", "first_layer", "last_layer", "planes", "fill")),
        *((name, c_uint32) for name in ("most_offset", "most_vertical_offset", "order", "options")),
    ]


class _Summary(ctypes.Structure):
    _fields_ = [
        *((name, c_uint32) for name in ("width", "height", "stripe_rows", "most_offset", "options", "image_height")),
        ("entities", c_uint32),
        ("moves", c_uint64),
        ("comments", c_uint64),
    ]


class _Facts(ctypes.Structure):
    _fields_ = [
        ("version", c_uint32),
        *((name, c_uint32) for name in ("width", "height", "stripe_rows", "most_offset", "options", "image_height")),
        ("entities", c_uint32),
        ("moves", c_uint64),
        ("comments", c_uint64),
        ("stream_len", c_size_t),
    ]


class _Part(ctypes.Structure):
    _fields_ = [
        ("version", c_uint32),
        ("kind", c_uint32),
        ("offset", c_size_t),
        ("len", c_size_t),
        *((name, c_uint32) for name in ("stripe", "entities", "late_height", "has_move", "is_at_height", "reserved")),
        ("passed", c_size_t),
    ]


class _Pbm(ctypes.Structure):
    _fields_ = [
        *((name, c_uint32) for name in ("version", "next", "width", "height", "is_plain", "rows_left", "filled")),
        *((name, c_uint8) for name in ("made", "place", "status", "spare")),
        ("value", c_uint64),
        ("reserved", c_uint64 * 3),
    ]


class _Decoder(ctypes.Structure):
    _fields_ = [("opaque", c_uint64 * (_numbers.DECODER_BYTES // 8))]


class _Encoder(ctypes.Structure):
    _fields_ = [("opaque", c_uint64 * (_numbers.ENCODER_BYTES // 8))]


class _Choice(ctypes.Structure):
    _fields_ = [("opaque", c_uint32 * (_numbers.CHOICE_BYTES // 4))]


def _named() -> str:
    """The library's name, for the loader."""
    beside = os.path.join(os.path.dirname(os.path.abspath(__file__)), _SONAME)
    return os.environ.get("T85_LIBRARY") or (beside if os.path.exists(beside) else _SONAME)


def _opened() -> ctypes.CDLL:
    name = _named()
    try:
        return ctypes.CDLL(name)
    except OSError as error:
        hint = "T85_LIBRARY may name its file, and ldconfig lets the loader find an installed one"
        # With the package's name, `python3 -m t85` prints the error in one line.
        raise ImportError(f"the library {name} cannot be loaded ({error}): {hint}", name=__name__) from None


def _load() -> ctypes.CDLL:
    library = _opened()
    read, write, size, word = [c_void_p, c_size_t], [POINTER(c_char), c_size_t], c_size_t, c_uint32
    chosen = [POINTER(_Options), *read]
    encoded = [word, word, *read, size, *chosen, *write, *write, POINTER(size)]
    types = {
        "t85_version": (word, []),
        "t85_window_bytes": (size, [word]),
        "t85_header": (c_uint8, [*read, POINTER(_Header)]),
        "t85_raw_header": (c_uint8, [*read, POINTER(_RawHeader)]),
        "t85_set_unused_fields": (c_uint8, [*write, c_uint8, c_uint8, c_uint8]),
        "t85_set_height": (c_uint8, write),
        "t85_info": (c_uint8, [*read, POINTER(_Summary)]),
        "t85_encode": (c_uint8, encoded),
        "t85_encode_bound": (c_uint64, [word, word, POINTER(_Options), size]),
        "t85_decode": (c_uint8, [*read, word, *write, *write, POINTER(size)]),
        "t85_decode_rows": (c_uint8, [*read, word, size, *write, *write, POINTER(word)]),
        "t85_message": (size, [c_uint8, *write]),
        "t85_stream_facts": (c_uint8, [*read, POINTER(_Facts)]),
        "t85_next_part": (c_uint8, [*read, POINTER(_Part)]),
        "t85_pbm_start": (c_uint8, [POINTER(_Pbm), size]),
        "t85_pbm_header": (c_uint8, [POINTER(_Pbm), *read, POINTER(size)]),
        "t85_pbm_row": (c_uint8, [POINTER(_Pbm), *read, *write, POINTER(size)]),
        "t85_pbm_end": (c_uint8, [POINTER(_Pbm)]),
        "t85_decode_start": (c_uint8, [POINTER(_Decoder), size, word]),
        "t85_decode_bytes": (c_uint8, [POINTER(_Decoder), *read, *write, POINTER(size), POINTER(size)]),
        "t85_decode_end": (c_uint8, [POINTER(_Decoder), *write, POINTER(size)]),
        "t85_decode_again": (word, [POINTER(_Decoder), *write]),
        "t85_decode_rest": (c_uint8, [POINTER(_Decoder), *read, POINTER(size)]),
        "t85_decode_height": (word, [POINTER(_Decoder)]),
        "t85_decode_certain": (word, [POINTER(_Decoder)]),
        "t85_encode_start": (c_uint8, [POINTER(_Encoder), size, word, word, *chosen, *write, *write, POINTER(size)]),
        "t85_encode_row": (c_uint8, [POINTER(_Encoder), *read, *write, *write, POINTER(size)]),
        "t85_encode_offset": (c_uint8, [POINTER(_Encoder), c_uint8]),
        "t85_best_offset": (c_uint8, [POINTER(_Encoder), *read, *write, *write, write[0]]),
        "t85_choice_start": (c_uint8, [POINTER(_Choice), size, word, POINTER(_Options)]),
        "t85_choice_row": (c_uint8, [POINTER(_Choice), *read, *read]),
        "t85_choice_offset": (c_uint8, [POINTER(_Choice), c_uint8, write[0]]),
        "t85_encode_end": (c_uint8, [POINTER(_Encoder), *write, *write, POINTER(size)]),
        "t85_encode_abort": (c_uint8, [POINTER(_Encoder), *write, POINTER(size)]),
        "t85_encode_rows_left": (word, [POINTER(_Encoder)]),
        "t85_encode_room": (c_uint64, [POINTER(_Encoder)]),
    }
    for name, (result, words) in types.items():
        call = getattr(library, name)
        call.restype, call.argtypes = result, words
    return library


_LIBRARY = _load()


@dataclass(frozen=True)
class Header:
    """The fields of a stream's header. If the options include bit 0x20, the height is the greatest possible height."""

    width: int
    height: int
    stripe_rows: int
    most_offset: int
    options: int


@dataclass(frozen=True)
class Summary(Header):
    """The fields of the header, and facts about the rest of the stream: the line of `jbgtopbm85 --info`."""

    image_height: int
    entities: int
    moves: int
    comments: int


class Error(ValueError):
    """An error: its number, its text, and in partial what was written before it: for a stream, the recoverable image."""

    def __init__(self, number: int, partial: Union[bytes, Rows] = b"", text: Optional[str] = None) -> None:
        self.number = number
        self.text = _message(number) if text is None else text
        self.partial = partial
        super().__init__(f"{self.text} ({number})")

    def __reduce__(self) -> tuple[type[Error], tuple[int, Union[bytes, Rows], str]]:
        return type(self), (self.number, self.partial, self.text)


class BrokenPart(Error):
    """The error of a part of a stream, the offset of the part, and the number of stripe data entities before it."""

    def __init__(self, number: int, offset: int, stripe: int) -> None:
        self.offset, self.stripe = offset, stripe
        super().__init__(number)

    def __reduce__(self) -> tuple[type[BrokenPart], tuple[int, int, int]]:  # type: ignore[override]
        return type(self), (self.number, self.offset, self.stripe)


@dataclass(frozen=True)
class Part:
    """A part of a stream: its kind ("header", "comment", "move", "new height" or "data entity"), its offset and length in
    bytes, and the number of stripe data entities before it."""

    kind: str
    offset: int
    length: int
    stripe: int


_KINDS = ("header", "comment", "move", "new height", "data entity")


def _message(number: int) -> str:
    text = ctypes.create_string_buffer(256)
    length = _LIBRARY.t85_message(number, text, len(text))
    return ctypes.string_at(text, min(length, len(text))).decode("ascii")


def _lent(data: Buffer) -> tuple[Union[bytes, c_void_p, _Memory], int]:
    """Returns a value that ctypes can pass, and its length in bytes: the bytes themselves, a writable buffer or an array in
    place, otherwise a copy.

    Both are taken from one view. While the value exists, no other thread can resize the buffer.
    """
    if isinstance(data, bytes):
        return data, len(data)
    view = memoryview(data)
    if view.c_contiguous and view.nbytes:
        if not view.readonly:
            return (c_char * view.nbytes).from_buffer(view), view.nbytes
        if hasattr(data, "__array_interface__"):
            return _address(view), view.nbytes
    copied = view.tobytes()
    return copied, len(copied)


def _address(view: memoryview) -> c_void_p:
    """Returns the address of a read-only array's view, which lives as long as the result."""
    array = importlib.import_module("numpy").frombuffer(view.cast("B"), "uint8")
    found = c_void_p(array.__array_interface__["data"][0])
    setattr(found, "view", array)
    return found


def _size(data: Buffer) -> int:
    return memoryview(data).nbytes


def _word(name: str, value: int) -> int:
    if not 0 <= value < 1 << 32:
        raise OverflowError(f"{name} is not from 0 to 4294967295")
    return value


def _byte(name: str, value: int) -> int:
    if not 0 <= value < 1 << 8:
        raise OverflowError(f"{name} is not from 0 to 255")
    return value


def _length(name: str, value: int) -> int:
    if not 0 <= value < 1 << 63:
        raise OverflowError(f"{name} is not from 0 to 9223372036854775807")
    return value


def _chosen(
    stripe_rows: int,
    most_offset: int,
    two_lines: bool,
    typical: bool,
    variable_height: bool,
    announced_height: Optional[int],
    reset: bool,
    has_comment: bool,
) -> _Options:
    return _Options(
        version=_numbers.OPTIONS_VERSION,
        options=(_Option.TWO_LINES if two_lines else 0)
        | (_Option.VARIABLE_HEIGHT if variable_height else 0)
        | (_Option.TYPICAL if typical else 0),
        stripe_rows=_word("stripe_rows", stripe_rows),
        most_offset=_word("most_offset", most_offset),
        announced_height=_word("announced_height", announced_height or 0),
        announces_height=announced_height is not None,
        reset=bool(reset),
        has_comment=has_comment,
    )


def _window(width: int) -> _Memory:
    return ctypes.create_string_buffer(max(_LIBRARY.t85_window_bytes(width), 1))


def _with_room(write: _Writer, first: int, most: int) -> tuple[int, _Memory]:
    """The status of a call that writes, and the buffer that it wrote to, which is doubled while it is too small."""
    room = min(first, most)
    while True:
        output = ctypes.create_string_buffer(max(room, 1))
        status = write(output, room)
        if status != _numbers.NO_ROOM or room == most:
            return status, output
        del output
        room = min(2 * room, most)


def _likely_room(row: int, step: int, height: int, stripe_rows: int, given: int, said: int) -> int:
    """A buffer size that is likely to suffice: noise takes a twentieth more than its rows, and each stripe has an end marker.

    Only the rows that are present count: `given` is the number of their bytes, `said` that of the comment.
    """
    there = min(height, given // max(step, 1) + 1)
    rows = min(there * row, given)
    return 4096 + rows + rows // 8 + 16 * (there // max(stripe_rows, 1) + 1) + said


@dataclass(frozen=True)
class _Extent:
    """The extent of the rows of a stream's image: `height` rows if the stream is whole, otherwise at most that many."""

    height: int
    whole: bool
    row: int
    step: int

    @property
    def length(self) -> int:
        """The number of bytes from the first of the rows to the last."""
        return (self.height - 1) * self.step + self.row if self.height else 0


def _extent(stream: Buffer, fields: Header, step: int) -> _Extent:
    """The extent of rows `step` bytes apart, from the header and the parts of a stream, without decoding."""
    summary = _Summary()
    status = _LIBRARY.t85_info(*_lent(stream), byref(summary))
    height = fields.height if status else summary.image_height
    return _Extent(height, whole=not status, row=_row_bytes(fields.width), step=step)


def _height_in_use(stream: Buffer, max_rows: int) -> int:
    """The height of a stream's image as in its PBM, also for a broken stream, with as little decoding as possible."""
    fields, written = header(stream), c_size_t()
    window, image = _window(fields.width), ctypes.create_string_buffer(_HEAD_BYTES)
    lent = *_lent(stream), max_rows, window, len(window), image, len(image), byref(written)
    status = _LIBRARY.t85_decode(*lent)
    # Buffers are released before an error is raised; otherwise a memory map could not be closed.
    del lent
    if not written.value:
        raise Error(status)
    return int(image.raw[: written.value].split()[2])


def _decoded(write: _Writer, extent: _Extent, before: int, max_bytes: Optional[int]) -> tuple[int, _Memory]:
    """The status of a call that decodes, and the buffer that it wrote to: `before` bytes, and at most max_bytes of rows.

    For a whole stream, all rows are decoded; otherwise the recoverable ones, which may be far fewer, so the buffer grows.
    """
    limit = extent.length if max_bytes is None else _length("max_bytes", max_bytes)
    fits = extent.length <= limit
    if not extent.whole:
        status, output = _with_room(write, before + _FIRST_ROOM, before + min(extent.length, limit))
    else:
        # Without a buffer, the library still reports other errors.
        room = before + extent.length if fits else 0
        status, output = _with_room(write, room, room)
    if status == _numbers.NO_ROOM and not fits:
        taken = f"{extent.length} bytes" if extent.whole else f"more than {limit} bytes"
        text = f"rows take {taken}, and max_bytes is {limit}: give a greater max_bytes, or max_bytes=None for no limit"
        raise Error(_numbers.NO_ROOM, text=text)
    return status, output


def version() -> tuple[int, int, int]:
    """The library's version: major, minor, patch."""
    number = _LIBRARY.t85_version()
    return number >> 16, number >> 8 & 255, number & 255


def header(stream: Buffer) -> Header:
    """Parses the header of a stream, its first 20 bytes."""
    fields = _Header()
    status = _LIBRARY.t85_header(*_lent(stream), byref(fields))
    if status:
        raise Error(status)
    return Header(*(getattr(fields, name) for name, _ in _Header._fields_))


def info(stream: Buffer) -> Summary:
    """Parses a stream without decoding its pixels."""
    fields = _Summary()
    status = _LIBRARY.t85_info(*_lent(stream), byref(fields))
    if status:
        raise Error(status)
    return Summary(*(getattr(fields, name) for name, _ in _Summary._fields_))


def stream_length(data: Buffer) -> int:
    """The length of the stream at the beginning of the data, so that concatenated streams can be split."""
    facts = _Facts(version=_numbers.FACTS_VERSION)
    status = _LIBRARY.t85_stream_facts(*_lent(data), byref(facts))
    if status:
        raise Error(status)
    return int(facts.stream_len)


def parts(stream: Buffer) -> Iterator[Part]:
    """Yields the parts of a stream in order. If one is broken or incomplete, BrokenPart is raised instead of it."""
    lent, part = _lent(stream), _Part(version=_numbers.PART_VERSION)
    while True:
        status = _LIBRARY.t85_next_part(*lent, byref(part))
        if status == _numbers.NO_MORE_PARTS:
            return
        if status:
            raise BrokenPart(status, part.offset, part.stripe)
        yield Part(_KINDS[part.kind], part.offset, part.len, part.stripe)


# These statuses have other texts where a caller passes rows instead of a PBM.
_PBM_TEXTS = {33: "PBM width or height is zero", 34: "PBM is wider than 1048576", 36: "PBM ends too early"}


class _PbmReader:
    """Reads a PBM with the library, in memory that does not grow with it. The function `more` returns the next bytes, and
    none at the end; it may return bytes beyond the image."""

    def __init__(self, more: Callable[[], bytes]) -> None:
        self._more, self._taken = more, c_size_t()
        state = _Pbm()
        self._lent, self._count = byref(state), byref(self._taken)
        _LIBRARY.t85_pbm_start(self._lent, ctypes.sizeof(state))
        self._take(b"")
        status = self._read(_LIBRARY.t85_pbm_header)
        if status != _numbers.HEADER_READ:
            raise Error(status, text=_PBM_TEXTS.get(status))
        self.width: int = state.width
        self.height: int = state.height
        self.is_plain = bool(state.is_plain)
        self._row = ctypes.create_string_buffer(_row_bytes(self.width))

    @property
    def unread(self) -> int:
        """Returns how many bytes of the last piece were not consumed."""
        return self._left

    def next_row(self) -> Optional[bytes]:
        """Returns the next row, packed, or None if there is none, or if the file ends before it is complete."""
        status = self._read(_LIBRARY.t85_pbm_row, self._row, len(self._row))
        if status == _numbers.ROW:
            return self._row.raw
        if status in (_numbers.OK, _numbers.ROWS_MISSING):
            return None
        raise Error(status)

    def _take(self, piece: bytes) -> None:
        """Keeps a piece, and the address of its bytes that were not consumed."""
        self._piece, self._left = piece, len(piece)
        self._start = ctypes.cast(ctypes.c_char_p(piece), c_void_p).value or 0

    def _read(self, call: Callable[..., int], *row: Any) -> int:
        """Calls the library with the bytes that were not consumed, and with more as long as it asks for more."""
        while True:
            status = call(self._lent, self._start, self._left, *row, self._count)
            self._start += self._taken.value
            self._left -= self._taken.value
            if status != _numbers.MORE:
                return status
            self._take(self._more())
            if not self._left:
                return int(_LIBRARY.t85_pbm_end(self._lent))


# The bytes that Python takes for each row in a list, besides those of the row.
_ROW_COST = 48


class Decoder:
    """Decodes a stream that arrives in pieces.

        >>> decoder = Decoder()
        >>> for piece in pieces:
        ...     show(decoder.feed(piece))
        >>> show(decoder.end())

    feed returns each row, packed, as soon as its bytes have arrived. While the stream may still give another height, this
    may include rows that the height cuts off: the image is the first `height` rows. If the stream is broken, an Error is
    raised, and its partial contains the rows that the call had decoded.

    A few bytes may complete billions of rows. rows and last_rows return an iterator instead of a list, so only one row is in
    memory at a time. It has to be exhausted before the next call: until then, other calls raise RuntimeError.

    A Decoder belongs to one thread at a time.

    header   the fields of the header, or None before it has arrived
    height   the current height: the header's, until another has arrived
    certain  how many of the first rows belong to the image, whatever follows
    is_done  whether the image is complete
    unused   the bytes of the last piece that follow the image; rest consumes those that belong to the stream

    max_rows   the most rows that are returned: an image of more is rejected, with the header or, if a later height may follow,
               once more rows are certain or one more is decoded; None, the default, means no limit
    max_bytes  the most bytes of a list of rows, where each row counts 48 more than it has: feed and end raise an Error, after
               which the decoder cannot be used, if a call decodes more; None means no limit
    """

    def __init__(self, *, max_rows: Optional[int] = None, max_bytes: Optional[int] = MAX_BYTES) -> None:
        self._most = None if max_bytes is None else _length("max_bytes", max_bytes)
        # Whether an iterator is not exhausted, or a list had too many rows.
        self._is_busy = False
        self.header: Optional[Header] = None
        self.is_done = False
        self.unused = b""
        self._front = b""
        self._status = _numbers.MORE
        self._state = _Decoder()
        self._window = ctypes.create_string_buffer(0)
        limit = _NO_LIMIT if max_rows is None else _word("max_rows", max_rows)
        _LIBRARY.t85_decode_start(byref(self._state), ctypes.sizeof(self._state), limit)

    def __enter__(self) -> Decoder:
        return self

    def __exit__(self, *_: object) -> None:
        self._window = ctypes.create_string_buffer(0)

    @property
    def height(self) -> int:
        return int(_LIBRARY.t85_decode_height(byref(self._state)))

    @property
    def certain(self) -> int:
        return int(_LIBRARY.t85_decode_certain(byref(self._state)))

    def feed(self, data: Buffer) -> list[bytes]:
        """Returns the rows that these bytes complete."""
        return self._listed(self._fed(bytes(memoryview(data))))

    def end(self) -> list[bytes]:
        """Signals the end of the stream, and returns the remaining rows."""
        return self._listed(self._ended())

    def rows(self, data: Buffer) -> Iterator[bytes]:
        """Yields the rows that these bytes complete. The partial of an Error has no rows."""
        return self._yielded(self._fed(bytes(memoryview(data))))

    def last_rows(self) -> Iterator[bytes]:
        """Signals the end of the stream, and yields the remaining rows. The partial of an Error has no rows."""
        return self._yielded(self._ended())

    def rest(self, data: Buffer) -> bool:
        """Consumes what still belongs to the stream, once the image is complete: the empty stripe data entity behind a height
        that followed the last stripe. Returns whether nothing more can belong to the stream.

        `unused` then contains the bytes that do not belong to it. To continue, call this with those bytes, followed by the
        next ones. At the end of the input, nothing more belongs to the stream.
        """
        self._begin()
        piece, taken = bytes(memoryview(data)), c_size_t()
        status = _LIBRARY.t85_decode_rest(byref(self._state), piece, len(piece), byref(taken))
        self._is_busy = False
        if status not in (_numbers.OK, _numbers.MORE):
            raise Error(status)
        self.unused = piece[taken.value :]
        return not status

    def _listed(self, rows: Iterator[bytes]) -> list[bytes]:
        self._begin()
        found: list[bytes] = []
        length = 0
        for row in rows:
            length += len(row) + _ROW_COST
            if self._most is not None and length > self._most:
                text = f"the list of rows takes more than {self._most} bytes: use rows, or a greater max_bytes"
                raise Error(_numbers.NO_ROOM, self._partial(found), text)
            found.append(row)
        self._is_busy = False
        self._raise_error(found)
        return found

    def _yielded(self, rows: Iterator[bytes]) -> Iterator[bytes]:
        self._begin()
        return self._until_end(rows)

    def _until_end(self, rows: Iterator[bytes]) -> Iterator[bytes]:
        yield from rows
        self._is_busy = False
        self._raise_error([])

    def _begin(self) -> None:
        if self._is_busy:
            raise RuntimeError("the rows of the call before were not all taken")
        self._is_busy = True

    def _fed(self, piece: bytes) -> Iterator[bytes]:
        """Yields the rows that a piece completes. At the end, the status is that of the last call."""
        taken, row = c_size_t(), c_size_t()
        while True:
            lent = piece, len(piece), self._window, len(self._window), byref(taken), byref(row)
            self._status = _LIBRARY.t85_decode_bytes(byref(self._state), *lent)
            if self.header is None:
                self._front += piece[: taken.value]
            piece = piece[taken.value :]
            if self._status == _numbers.HEADER_READ:
                self.header = header(self._front)
                self._window = _window(self.header.width)
            elif self._status == _numbers.ROW:
                yield from self._equal_rows(row.value)
            else:
                self.unused = piece
                self.is_done = not self._status
                return

    def _ended(self) -> Iterator[bytes]:
        """The same at the end of the stream."""
        row = c_size_t()
        while True:
            lent = self._window, len(self._window), byref(row)
            self._status = _LIBRARY.t85_decode_end(byref(self._state), *lent)
            if self._status != _numbers.ROW:
                self.is_done = not self._status
                return
            yield from self._equal_rows(row.value)

    def _equal_rows(self, place: int) -> Iterator[bytes]:
        """Yields the row at this place of the window, and the rows behind it that equal it."""
        assert self.header is not None
        row = self._window.raw[place : place + _row_bytes(self.header.width)]
        yield row
        for _ in range(_LIBRARY.t85_decode_again(byref(self._state), self._window, len(self._window))):
            yield row

    def _raise_error(self, rows: list[bytes]) -> None:
        """Raises the stream's error, if there is one, with the rows of the call."""
        if self._status not in (_numbers.OK, _numbers.MORE):
            raise Error(self._status, self._partial(rows))

    def _partial(self, rows: list[bytes]) -> Rows:
        width = self.header.width if self.header else 0
        return Rows(width, len(rows), _row_bytes(width), b"".join(rows))


class Encoder:
    """Encodes an image row by row.

        >>> encoder = Encoder(1728, 2200, most_offset=127)
        >>> for row in rows:
        ...     send(encoder.row(row))
        >>> send(encoder.end())

    row and end return the bytes of the stream that have become certain, which may be none. Unless offset is called, their
    concatenated results are the stream that encode returns for the whole image. The first row's result includes the header
    and the comment. The options are those of encode. With announced_height, the height is the greatest number of rows, and
    end writes the actual number.

    offset chooses the offset of the adaptive template pixel for the stripe that begins with the next row. Without it, the
    encoder chooses one from the rows of the previous stripe. best_offset returns the offset that gives a stripe the fewest
    bytes, if you have all its rows.

    An Error is raised, and the encoder is unchanged, if a row or an offset follows the last row or the end, or end or abort
    follows the end (number 54), if a row is too short (55), if an offset is chosen within a stripe (56) or is not allowed (22), if rows
    of the stripe are missing in best_offset (36), or if end is called before all rows or, with announced_height, before the
    first row (36).

    An Encoder belongs to one thread at a time.

    rows_left  how many more rows are accepted
    is_done    whether the stream is complete
    """

    def __init__(
        self,
        width: int,
        height: int,
        *,
        stripe_rows: int = 128,
        most_offset: int = 0,
        two_lines: bool = False,
        typical: bool = True,
        variable_height: bool = False,
        announced_height: Optional[int] = None,
        reset: bool = False,
        comment: Optional[Buffer] = None,
    ) -> None:
        chosen = _chosen(
            stripe_rows, most_offset, two_lines, typical, variable_height, announced_height, reset, comment is not None
        )
        said = b"" if comment is None else bytes(memoryview(comment))
        self.width = _word("width", width)
        self.is_done = False
        self._state = _Encoder()
        self._window = _window(min(width, 1 << 20))
        # The header and the comment, which are returned with the first row.
        self._output = ctypes.create_string_buffer(26 + len(said))
        self._head = b""
        self._head = self._written(
            _LIBRARY.t85_encode_start, ctypes.sizeof(self._state), width, _word("height", height), byref(chosen),
            *_lent(said),
        )

    def __enter__(self) -> Encoder:
        return self

    def __exit__(self, *_: object) -> None:
        self._window, self._output = ctypes.create_string_buffer(0), ctypes.create_string_buffer(0)

    @property
    def rows_left(self) -> int:
        return int(_LIBRARY.t85_encode_rows_left(byref(self._state)))

    def row(self, data: Buffer) -> bytes:
        """Encodes the next packed row, and returns bytes that became certain. Bytes after the row are ignored."""
        _refuse_pixels(data, self.width, 1, None)
        return self._written(_LIBRARY.t85_encode_row, *_lent(data))

    def offset(self, offset: int) -> None:
        """Chooses the adaptive pixel's offset for the next stripe: 0, or 3 (5 with two_lines) to most_offset."""
        status = _LIBRARY.t85_encode_offset(byref(self._state), _byte("offset", offset))
        if status:
            raise Error(status)

    def best_offset(self, rows: Buffer) -> int:
        """Returns the offset that gives the next stripe the fewest bytes.

        The rows are packed, without gaps; bytes after the stripe are ignored. The stripe is encoded without output with up
        to three offsets: the current one, 0, and the one at which the most pixels equal the pixel that far to their left.
        """
        _refuse_pixels(rows, self.width, max(_size(rows) // max(_row_bytes(self.width), 1), 1), None)
        scratch, offset = _window(min(self.width, 1 << 20)), ctypes.create_string_buffer(1)
        lent = self._window, len(self._window), scratch, len(scratch), offset
        status = _LIBRARY.t85_best_offset(byref(self._state), *_lent(rows), *lent)
        if status:
            raise Error(status)
        return offset.raw[0]

    def end(self) -> bytes:
        """Returns the last bytes of the stream, with the height if fewer rows were passed than announced."""
        last = self._written(_LIBRARY.t85_encode_end)
        self.is_done = True
        return last

    def abort(self) -> bytes:
        """Returns the last bytes of a stream that cannot be completed: the marker ABORT (T.82, 6.2.5), behind the header if
        no row was passed. Nothing can follow. Unless all rows were passed, decoding the stream raises the error 11."""
        marker, written = ctypes.create_string_buffer(2), c_size_t()
        status = _LIBRARY.t85_encode_abort(byref(self._state), marker, len(marker), byref(written))
        if status:
            raise Error(status)
        found, self._head = self._head + marker.raw[: written.value], b""
        return found

    def _written(self, call: Callable[..., int], *words: Any) -> bytes:
        """The bytes not returned yet, followed by those that a call writes."""
        room = int(_LIBRARY.t85_encode_room(byref(self._state)))
        if len(self._output) < room:
            self._output = ctypes.create_string_buffer(2 * room)
        written = c_size_t()
        lent = self._window, len(self._window), self._output, len(self._output), byref(written)
        status = call(byref(self._state), *words, *lent)
        if status:
            raise Error(status)
        found, self._head = self._head + ctypes.string_at(self._output, written.value), b""
        return found


class Choice:
    """Chooses the offsets of the adaptive template pixel by JBIG-KIT's rule, for an Encoder with the same width and options.

        >>> encoder = Encoder(1728, 2200, stripe_rows=128, most_offset=127)
        >>> choice, offset, above = Choice(1728, most_offset=127), 0, b""
        >>> for y, row in enumerate(rows):
        ...     if y and y % 128 == 0:
        ...         offset = choice.offset(offset)
        ...         encoder.offset(offset)
        ...     choice.row(row, above)
        ...     send(encoder.row(row))
        ...     above = row

    The encoder then moves the pixel as JBIG-KIT's jbg85_enc_lineout does. jbg_enc_out does not use the last row of a stripe:
    for its moves, do not pass that row.

    An Error is raised, and the choice is unchanged, if a row is too short (number 55), or if no stripe can have been encoded
    with the current offset (22).
    """

    def __init__(
        self, width: int, *, most_offset: int = 0, two_lines: bool = False, typical: bool = True, reset: bool = False
    ) -> None:
        chosen = _chosen(128, most_offset, two_lines, typical, False, None, reset, False)
        self.width = _word("width", width)
        self._state = _Choice()
        self._call(_LIBRARY.t85_choice_start, ctypes.sizeof(self._state), width, byref(chosen))

    def row(self, data: Buffer, above: Buffer = b"") -> None:
        """Counts the next packed row of a stripe. Above the first row, and above that of each stripe with reset, is none."""
        _refuse_pixels(data, self.width, 1, None)
        if _size(above):
            _refuse_pixels(above, self.width, 1, None)
        self._call(_LIBRARY.t85_choice_row, *_lent(data), *_lent(above))

    def offset(self, current: int) -> int:
        """Returns the offset for the next stripe, after one that was encoded with the current offset, and begins it."""
        offset = ctypes.create_string_buffer(1)
        self._call(_LIBRARY.t85_choice_offset, _byte("current", current), offset)
        return offset.raw[0]

    def _call(self, call: Callable[..., int], *words: Any) -> None:
        status = call(byref(self._state), *words)
        if status:
            raise Error(status)


def encode(
    rows: Union[Buffer, Rows],
    width: int,
    height: int,
    *,
    stride: Optional[int] = None,
    stripe_rows: int = 128,
    most_offset: int = 0,
    two_lines: bool = False,
    typical: bool = True,
    variable_height: bool = False,
    announced_height: Optional[int] = None,
    reset: bool = False,
    comment: Optional[Buffer] = None,
    best_offset: bool = False,
) -> bytes:
    """Encodes an image of packed rows, in a buffer or as Rows. An array with one item per pixel is rejected: see pack.

    stride            bytes from one row to the next; by default, a buffer's rows have no gaps
    stripe_rows       rows per stripe
    most_offset       greatest offset of the adaptive template pixel, 0 to 127
    two_lines         use the two-line template
    typical           use typical prediction
    variable_height   the option VLENGTH, which announced_height also sets
    announced_height  height in the header; a lower actual height is written after the last row
    reset             code each stripe independently of the ones before it
    comment           the bytes of a comment
    best_offset       for each stripe, use the offset that gives the fewest bytes (Encoder.best_offset), instead of the one that
                      the rows of the previous stripe choose; it takes several times as long

    If rows are missing, the Error contains the stream of the complete stripes, and a prefix of the next one.
    """
    if isinstance(rows, Rows):
        if rows.width != width:
            raise ValueError(f"the rows are {rows.width} pixels wide, and not {width}")
        data: Buffer = rows.data
        stride = rows.stride if stride is None else stride
    else:
        data = rows
    _refuse_pixels(data, width, height, stride)
    chosen = _chosen(
        stripe_rows, most_offset, two_lines, typical, variable_height, announced_height, reset, comment is not None
    )
    said = b"" if comment is None else bytes(memoryview(comment))
    window = _window(min(_word("width", width), 1 << 20))
    step = _row_bytes(width) if stride is None else _length("stride", stride)
    _word("height", height)
    if best_offset and step >= _row_bytes(width):
        encoder = Encoder(
            width, height, stripe_rows=stripe_rows, most_offset=most_offset, two_lines=two_lines, typical=typical,
            variable_height=variable_height, announced_height=announced_height, reset=reset, comment=comment,
        )
        return _encode_best(encoder, memoryview(data).cast("B"), height, step, stripe_rows)
    written = c_size_t()

    def write(stream: _Memory, room: int) -> int:
        lent = *_lent(data), step, byref(chosen), *_lent(said), window, len(window)
        return int(_LIBRARY.t85_encode(width, height, *lent, stream, room, byref(written)))

    most = _LIBRARY.t85_encode_bound(width, height, byref(chosen), len(said))
    first = _likely_room(_row_bytes(width), step, height, stripe_rows, _size(data), len(said))
    status, stream = _with_room(write, first, most)
    found = ctypes.string_at(stream, written.value)
    if status:
        raise Error(status, found)
    return found


def _encode_best(encoder: Encoder, rows: memoryview, height: int, step: int, stripe_rows: int) -> bytes:
    """Encodes rows at a stride, each stripe with its best offset."""
    length = _row_bytes(encoder.width)
    pieces: list[bytes] = []
    present = min(height, (len(rows) - length) // step + 1)
    for first in range(0, present, stripe_rows):
        stripe = [rows[y * step : y * step + length] for y in range(first, min(first + stripe_rows, height, present))]
        if len(stripe) == min(stripe_rows, height - first):
            encoder.offset(encoder.best_offset(b"".join(stripe)))
        pieces += map(encoder.row, stripe)
    if present < height:
        raise Error(_numbers.ROWS_MISSING, b"".join(pieces))
    return b"".join([*pieces, encoder.end()])


def decode(stream: Buffer, *, max_rows: Optional[int] = None, max_bytes: Optional[int] = MAX_BYTES) -> bytes:
    """Decodes a stream to a raw PBM.

    max_rows   reject an image of more rows; None, the default, means no limit
    max_bytes  reject an image whose rows take more bytes; None means no limit

    If the stream is broken, the Error contains the PBM header with the full height, and each recoverable row.
    """
    fields = header(stream)
    window = _window(fields.width)
    limit = _NO_LIMIT if max_rows is None else _word("max_rows", max_rows)
    extent = _extent(stream, fields, _row_bytes(fields.width))
    written = c_size_t()

    def write(image: _Memory, room: int) -> int:
        lent = *_lent(stream), limit, window, len(window)
        return int(_LIBRARY.t85_decode(*lent, image, room, byref(written)))

    before = len(f"P4\n{fields.width} {extent.height}\n")
    status, image = _decoded(write, extent, before, max_bytes)
    found = ctypes.string_at(image, written.value)
    if status:
        raise Error(status, found)
    return found


def decode_rows(
    stream: Buffer,
    *,
    stride: Optional[int] = None,
    max_rows: Optional[int] = None,
    max_bytes: Optional[int] = MAX_BYTES,
) -> Rows:
    """Decodes a stream to rows.

    stride     bytes from one row to the next; by default, rows have no gaps. Bytes between rows are 0.
    max_rows   reject an image of more rows; None, the default, means no limit
    max_bytes  reject an image whose rows, with the bytes between them, take more bytes; None means no limit

    If the stream is broken, the Error contains each recoverable row.
    """
    fields = header(stream)
    window = _window(fields.width)
    limit = _NO_LIMIT if max_rows is None else _word("max_rows", max_rows)
    step = _row_bytes(fields.width) if stride is None else _length("stride", stride)
    extent = _extent(stream, fields, step)
    written = c_uint32()

    def write(rows: _Memory, room: int) -> int:
        lent = *_lent(stream), limit, step, window, len(window)
        return int(_LIBRARY.t85_decode_rows(*lent, rows, room, byref(written)))

    status, rows = _decoded(write, extent, 0, max_bytes)
    count = written.value
    length = (count - 1) * step + extent.row if count else 0
    found = Rows(fields.width, count, step, ctypes.string_at(rows, length))
    if status:
        raise Error(status, found)
    return found


def decode_into(
    stream: Buffer,
    rows: Writable,
    *,
    stride: Optional[int] = None,
    max_rows: Optional[int] = None,
) -> int:
    """Decodes a stream to rows in a caller's buffer, and returns their number.

    rows      a writable contiguous buffer, such as a bytearray or a packed NumPy array; not the stream's own memory
    stride    bytes from one row to the next; by default, rows have no gaps. Bytes between rows are unchanged
    max_rows  reject an image of more rows; None, the default, means no limit

    If the stream is broken or the buffer is too short, the recoverable rows are written; the Error has their number.
    """
    fields = header(stream)
    _refuse_pixels(rows, fields.width, fields.height, stride)
    window, written = _window(fields.width), c_uint32()
    limit = _NO_LIMIT if max_rows is None else _word("max_rows", max_rows)
    step = _row_bytes(fields.width) if stride is None else _length("stride", stride)
    view = memoryview(rows)
    room = (c_char * view.nbytes).from_buffer(view)
    lent = *_lent(stream), limit, step, window, len(window), room, len(room)
    status = _LIBRARY.t85_decode_rows(*lent, byref(written))
    del lent, room, view
    if status:
        raise Error(status, Rows(fields.width, written.value, step, b""))
    return written.value


# Imported at the end, since they use the definitions above.
from ._conversion import decode_file, encode_file  # noqa: E402
from ._header import RawHeader, raw_header, set_height, set_unused_fields  # noqa: E402
