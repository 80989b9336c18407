"""The rows of an image, and conversion from and to the arrays and images of other packages.

NumPy and Pillow are imported only by the functions that need them.
"""
from __future__ import annotations

import importlib
from dataclasses import dataclass
from typing import Any, Optional, Protocol


@dataclass(frozen=True)
class Rows:
    """The rows of an image: `count` rows, each `stride` bytes after the one before."""

    width: int
    count: int
    stride: int
    data: bytes


class PillowImage(Protocol):
    """The methods of a Pillow image that are used."""

    @property
    def mode(self) -> str: ...

    @property
    def size(self) -> tuple[int, int]: ...

    def tobytes(self, encoder_name: str = ..., *args: Any) -> bytes: ...


def row_bytes(width: int) -> int:
    """The number of bytes in a row, with eight pixels per byte."""
    return (width + 7) // 8


def pack(array: Any, *, black: bool) -> Rows:
    """Packs the rows of a 2-D array with one item per pixel: a NumPy array, or whatever NumPy can convert to one.

    black  whether True and 1 are black, and False and 0 white; black=False means the reverse
    """
    numpy = importlib.import_module("numpy")
    pixels = numpy.asarray(array)
    if pixels.ndim != 2:
        raise ValueError(f"array has not 2 dimensions, but {pixels.ndim}")
    if pixels.dtype.kind not in "biuf" or not numpy.isin(pixels, (0, 1)).all():
        raise ValueError("array has other items than 0 and 1")
    height, width = pixels.shape
    bits = numpy.packbits(pixels.astype(bool) == bool(black), axis=1)
    return Rows(width, height, row_bytes(width), bits.tobytes())


def to_array(rows: Rows) -> Any:
    """The packed rows as a 2-D NumPy array with eight pixels per item, read-only and without a copy."""
    numpy = importlib.import_module("numpy")
    shape, strides = (rows.count, row_bytes(rows.width)), (rows.stride, 1)
    return numpy.ndarray(shape, "uint8", rows.data, strides=strides)


def unpack(rows: Rows, *, black: bool) -> Any:
    """Unpacks rows to a 2-D NumPy array of bool, with one item per pixel; black is the value of a black pixel."""
    numpy = importlib.import_module("numpy")
    bits = numpy.unpackbits(to_array(rows), axis=1, count=rows.width)
    return bits == bool(black)


def from_image(image: PillowImage) -> Rows:
    """The rows of a Pillow image in mode 1. In Pillow, 1 is white, so each bit is inverted.

    An image of another mode is rejected, since there are many ways to convert it to black and white.
    """
    if image.mode != "1":
        raise ValueError(f"image has the mode {image.mode}, and not 1: image.convert('1') makes one")
    width, height = image.size
    data = image.tobytes("raw", "1;I") if width and height else b""
    return Rows(width, height, row_bytes(width), data)


def to_image(rows: Rows) -> Any:
    """The rows as a Pillow image in mode 1. In Pillow, 1 is white, so each bit is inverted."""
    pillow = importlib.import_module("PIL.Image")
    size, row = (rows.width, rows.count), row_bytes(rows.width)
    if not rows.width or not rows.count:
        return pillow.new("1", size)
    starts = range(0, rows.count * rows.stride, rows.stride)
    data = rows.data if rows.stride == row else b"".join(rows.data[start : start + row] for start in starts)
    return pillow.frombytes("1", size, data, "raw", "1;I")


def refuse_pixels(rows: Any, width: int, height: int, stride: Optional[int]) -> None:
    """Raises TypeError unless the data are packed rows: for a Pillow image, or an array with one item per pixel."""
    if hasattr(rows, "mode") and hasattr(rows, "tobytes"):
        raise TypeError("rows are packed bytes, with 1 for black: from_image(image) makes them of an image in mode 1")
    if _has_pixels(rows, width, height, stride):
        raise TypeError(
            "rows are packed bytes, with 1 for black, and this array has an item a pixel: pack(array, black=True) makes"
            " them where True or 1 is black, pack(array, black=False) where it is white"
        )


def _has_pixels(rows: Any, width: int, height: int, stride: Optional[int]) -> bool:
    """Whether an array has one item per pixel, by its kind and shape. Bytes and other objects are no array."""
    view = memoryview(rows)
    if view.format.endswith("?"):
        return True
    if not hasattr(rows, "dtype") and view.ndim < 2:
        return False
    if view.itemsize != 1:
        return True
    if stride is not None:
        return False
    if width == 1:
        # Packed rows have the same length, but another bit.
        data = view.tobytes()
        return 1 in data and data.count(0) + data.count(1) == len(data)
    shape = view.shape or ()
    return view.nbytes == width * height or (len(shape) > 1 and shape[1] == width)
