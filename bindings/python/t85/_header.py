"""Reads all fields of a stream's header, and changes some of them."""
from __future__ import annotations

from ctypes import byref, c_char
from dataclasses import dataclass
from typing import Callable

from . import _LIBRARY, Buffer, Error, Writable, _byte, _lent, _RawHeader


@dataclass(frozen=True)
class RawHeader:
    """All fields of the 20 bytes of a header (T.82, 6.2), whatever their values; fill is the fourth byte."""

    width: int
    height: int
    stripe_rows: int
    first_layer: int
    last_layer: int
    planes: int
    fill: int
    most_offset: int
    most_vertical_offset: int
    order: int
    options: int


def raw_header(stream: Buffer) -> RawHeader:
    """Returns all fields of a header, whether or not `header` accepts it. Error 1 is raised if it is not complete."""
    fields = _RawHeader()
    status = _LIBRARY.t85_raw_header(*_lent(stream), byref(fields))
    if status:
        raise Error(status)
    return RawHeader(*(getattr(fields, name) for name, _ in _RawHeader._fields_))


def set_unused_fields(stream: Writable, *, my: int, order: int, options: int) -> None:
    """Sets the fields of a stream's header that have no effect on an image of one plane without layers, although some
    printers compare them: MY (byte 17), the order (byte 18), and the bits 0x10 (TPDON) and 0x04 (DPON) of the options
    (byte 19). Other bits of options are ignored. The image stays the same.

    An Error is raised, and nothing is changed, if the header is rejected (numbers 1 to 8), if order is above 15 (2), or if
    0x04 would announce a private table (8).
    """
    my, order, options = _byte("my", my), _byte("order", order), _byte("options", options)
    _change(stream, _LIBRARY.t85_set_unused_fields, my, order, options)


def set_height(stream: Writable) -> None:
    """Writes the actual height of a stream into its header, for readers that do not expect a later one. The image stays the
    same. An Error is raised, and nothing is changed, if the header is rejected (numbers 1 to 8); other errors of the stream
    are not noticed."""
    _change(stream, _LIBRARY.t85_set_height)


def _change(stream: Writable, call: Callable[..., int], *words: int) -> None:
    """Calls the library with the memory of a stream, and these words."""
    view = memoryview(stream)
    memory = (c_char * view.nbytes).from_buffer(view)
    status = call(memory, view.nbytes, *words)
    # The buffer is released before an error is raised; otherwise a memory map could not be closed.
    del memory, view
    if status:
        raise Error(status)
