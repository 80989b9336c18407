"""Importing this module makes Pillow open and save .jbg and .jbig files, as images in mode 1.

    >>> import t85.pillow
    >>> from PIL import Image
    >>> Image.open("page.jbg").save("page.png")
    >>> Image.open("page.png").convert("1").save("page.jbg", most_offset=127)

save accepts the options of t85.encode under the same names, except stride. A broken stream raises OSError when its pixels
are loaded. With ImageFile.LOAD_TRUNCATED_IMAGES, it yields the rows that the stream determines, followed by white rows.
"""
from __future__ import annotations

import importlib
from typing import Any, Tuple

from . import Error, Rows, _numbers, decode_rows, encode, from_image, header, info
from ._rows import row_bytes

_IMAGE: Any = importlib.import_module("PIL.Image")
_FILE: Any = importlib.import_module("PIL.ImageFile")

FORMAT = "JBIG"
_HEADER_BYTES = 20
_OPTIONS = (
    "stripe_rows",
    "most_offset",
    "two_lines",
    "typical",
    "variable_height",
    "announced_height",
    "reset",
    "comment",
    "best_offset",
)


def _accept(prefix: bytes) -> bool:
    """Whether a file may be a stream. Icons begin with the same four bytes, but then have a width that no stream has."""
    return prefix[:4] == b"\0\0\1\0" and 0 < int.from_bytes(prefix[4:8], "big") <= _numbers.MOST_WIDTH


class JbigFile(_FILE.ImageFile):  # type: ignore[misc]
    """A stream as a Pillow image file. If the height may come late, it is determined when the file is opened."""

    format = FORMAT
    format_description = "JBIG1 (ITU-T T.82) in the fax profile T.85"

    def _open(self) -> None:
        try:
            fields = header(self.fp.read(_HEADER_BYTES))
        except Error as error:
            raise SyntaxError(error.text) from error
        height = self._late_height(fields.height) if fields.options & _numbers.VARIABLE_HEIGHT else fields.height
        self._size = fields.width, height
        # The name of this attribute differs between versions of Pillow.
        setattr(self, "_mode" if isinstance(getattr(type(self), "mode", None), property) else "mode", "1")
        self.tile = [("t85", (0, 0, fields.width, height), 0, None)]

    def load_seek(self, pos: int) -> None:
        """Seeks in the file. Since this method exists, ImageFile.Parser collects all bytes before it loads the image."""
        self.fp.seek(pos)

    def _late_height(self, most: int) -> int:
        self.fp.seek(0)
        try:
            return info(self.fp.read()).image_height
        except Error:
            return most


class JbigDecoder(_FILE.PyDecoder):  # type: ignore[misc]
    """Decodes a whole stream, when Pillow loads the pixels of its one tile."""

    _pulls_fd = True

    def decode(self, buffer: bytes) -> Tuple[int, int]:
        _, _, width, height = self.state.extents()
        length = height * row_bytes(width)
        try:
            # The file may have changed since Pillow accepted the size of its image.
            rows = decode_rows(self.fd.read(), max_bytes=length)
            is_same = (rows.width, rows.count) == (width, height)
        except Error as error:
            if not _FILE.LOAD_TRUNCATED_IMAGES or not isinstance(error.partial, Rows):
                what = "image file is truncated" if error.number == _numbers.TRUNCATED else "broken data stream when reading image file"
                raise OSError(f"{what}: {error.text}") from error
            rows = error.partial
            is_same = rows.width == width and rows.count <= height
        if not is_same:
            raise OSError("image file has changed since it was opened")
        self.set_as_raw(rows.data + bytes(length - len(rows.data)), "1;I")
        return -1, 0


def _save(image: Any, file: Any, filename: str) -> None:
    """Writes an image in mode 1. Other modes are rejected: there are many ways to convert them to black and white."""
    if image.mode != "1":
        raise OSError(f"cannot write mode {image.mode} as {FORMAT}")
    options = {name: image.encoderinfo[name] for name in _OPTIONS if name in image.encoderinfo}
    rows = from_image(image)
    try:
        file.write(encode(rows.data, rows.width, rows.count, **options))
    except Error as error:
        raise OSError(error.text) from error


_IMAGE.register_decoder("t85", JbigDecoder)
_IMAGE.register_open(FORMAT, JbigFile, _accept)
_IMAGE.register_save(FORMAT, _save)
_IMAGE.register_extensions(FORMAT, [".jbg", ".jbig"])
