"""Draws a stream, with Pillow: its page, the boundaries of its stripes, the moves of the adaptive pixel, the bytes of each
stripe as bars, and hatching where a broken stream cannot be recovered.

    >>> show("page.jbg", "page.png")

The library decodes the page, and also locates the parts of the stream.
"""
from __future__ import annotations

import importlib
import os
from typing import Any, Collection, Tuple

from . import Error, Rows, decode_rows, to_image
from ._files import Files, protocols
from ._text import printable
from ._walk import Walk, walk

_WIDTH, _HEIGHT = 720, 940
_MARGIN, _LEFT, _TOP, _BARS, _BOTTOM = 28, 86, 78, 300, 60
_INK, _FAINT, _BOUND, _MOVE, _BAR, _BROKEN = "#1f2933", "#616e7c", "#2f6f9f", "#b8460e", "#7fa8c9", "#b3261e"
_LETTERS = 17
# Pillow stores one byte per pixel, so this is a quarter of a gigabyte there.
_MOST_BYTES = 1 << 25
# The height of a label.
_LINE = 20


def show(name: str, picture: str) -> None:
    """Writes the picture of a stream as a PNG."""
    draw_file(name).save(picture, "PNG")


def draw_file(name: str, stores: Collection[str] = ()) -> Any:
    """Returns the picture of a file's stream, as a Pillow image. stores are the protocols that the name may have."""
    return draw_stream(Files(protocols(stores)).read(name), printable(os.path.basename(name)))


def _rows(stream: bytes) -> Tuple[Rows, str]:
    """The recoverable rows of a stream, and its error."""
    try:
        return decode_rows(stream, max_bytes=_MOST_BYTES), ""
    except Error as error:
        if not isinstance(error.partial, Rows):
            raise
        return error.partial, error.text


def draw_stream(stream: bytes, title: str) -> Any:
    """Returns the picture of a stream, as a Pillow image."""
    parts = walk(stream)
    rows, fault = _rows(stream)
    return _Picture(parts, rows, fault, len(stream), title).drawn()


class _Picture:
    def __init__(self, parts: Walk, rows: Rows, fault: str, length: int, title: str) -> None:
        self.parts, self.rows, self.fault, self.length, self.title = parts, rows, fault, length, title
        self.height = rows.count if not fault else parts.height
        self.pillow = importlib.import_module("PIL.Image")
        draw, font = importlib.import_module("PIL.ImageDraw"), importlib.import_module("PIL.ImageFont")
        scale = min(_WIDTH / rows.width, _HEIGHT / max(self.height, 1), 2.0)
        self.page = max(int(rows.width * scale), 1), max(int(self.height * scale), 1)
        size = _LEFT + self.page[0] + _BARS, _TOP + self.page[1] + _BOTTOM
        self.image = self.pillow.new("RGB", (max(size[0], 820), size[1]), "white")
        self.draw = draw.Draw(self.image)
        try:
            self.font = font.truetype("DejaVuSans.ttf", _LETTERS)
        except OSError:
            self.font = font.load_default()

    def drawn(self) -> Any:
        self._head()
        self._rows_that_are_there()
        if self.rows.count < self.height:
            self._hatch(self._at(self.rows.count), self._at(self.height))
        self._stripes()
        self._legend()
        return self.image

    def _at(self, row: int) -> int:
        """Returns the vertical position of a row."""
        return _TOP + row * self.page[1] // max(self.height, 1)

    def _text(self, x: float, y: float, text: str, fill: str = _INK, anchor: str = "l") -> None:
        width = self.draw.textlength(text, font=self.font)
        self.draw.text((x - width * {"l": 0, "r": 1}[anchor], y), text, fill=fill, font=self.font)

    def _head(self) -> None:
        size = f"{self.rows.width} by {self.height} pixels, {self.length:,} bytes, {len(self.parts.stripes)} stripes"
        self._text(_MARGIN, 18, f"{self.title}: {size}")
        if self.fault:
            self._text(_MARGIN, 42, f"{self.fault}: {self.rows.count} rows can be recovered", _BROKEN)

    def _rows_that_are_there(self) -> None:
        left, right, bottom = _LEFT, _LEFT + self.page[0], self._at(self.rows.count)
        if self.rows.count:
            page = to_image(self.rows).convert("L").resize((self.page[0], max(bottom - _TOP, 1)), self.pillow.BOX)
            self.image.paste(page, (left, _TOP))
        self.draw.rectangle((left - 1, _TOP - 1, right, self._at(self.height)), outline=_FAINT)

    def _hatch(self, top: int, bottom: int) -> None:
        """Hatches the rows that cannot be recovered."""
        tile = self.pillow.new("RGB", (self.page[0], max(bottom - top, 1)), "#fdecea")
        pen = importlib.import_module("PIL.ImageDraw").Draw(tile)
        for x in range(-tile.height, tile.width, 14):
            pen.line((x, tile.height, x + tile.height, 0), fill=_BROKEN)
        self.image.paste(tile, (_LEFT, top))

    def _stripes(self) -> None:
        most = max((stripe.end - stripe.begin for stripe in self.parts.stripes), default=1)
        left, labelled = _LEFT + self.page[0], 0
        for stripe in self.parts.stripes:
            top, bottom = self._at(stripe.row), self._at(stripe.row + self.parts.rows_of(stripe))
            count = stripe.end - stripe.begin
            length = max(count * (_BARS - 120) // most, 1)
            self.draw.rectangle((left + 14, top + 1, left + 14 + length, max(bottom - 2, top + 1)), fill=_BAR)
            if stripe.row:
                self._dashed(_LEFT, left, top)
            if stripe.move is not None:
                self.draw.polygon([(_LEFT - 14, top), (_LEFT - 14, top + 12), (_LEFT - 3, top + 6)], fill=_MOVE)
                self._text(_LEFT - 20, top - 3, f"to {stripe.move}", _MOVE, "r")
            if top >= labelled:
                self._text(left + 20 + length, (top + bottom) / 2 - 11, f"{count:,}")
                labelled = top + _LINE

    def _dashed(self, left: int, right: int, y: int) -> None:
        for x in range(left, right, 12):
            self.draw.line((x, y, min(x + 6, right), y), fill=_BOUND)

    def _legend(self) -> None:
        y, x = self._at(self.height) + 24, _MARGIN
        marks = [("stripe", _BOUND), ("adaptive pixel moves", _MOVE), ("bytes of a stripe", _BAR)]
        if self.rows.count < self.height:
            marks.append(("lost", _BROKEN))
        for label, colour in marks:
            self.draw.rectangle((x, y + 4, x + 14, y + 16), fill=colour)
            self._text(x + 22, y, label)
            x += 22 + int(self.draw.textlength(label, font=self.font)) + 30
