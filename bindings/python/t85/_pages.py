"""Files with several images: raw PBM images, or streams, one behind the other.

Bytes behind an image that are no image at all are ignored, as the commands ignore them.
"""
from __future__ import annotations

import os
from dataclasses import dataclass
from typing import List, Optional, Sequence

from . import Error, Summary, header, info, stream_length
from ._pbm import Page, head_of, read_page
from ._rows import row_bytes

_NO_PBM = 31


def pages_of(data: bytes) -> List[Page]:
    """Reads all images of a PBM. The text of an Error names the image, if it is not the first one."""
    pages: List[Page] = []
    end = 0
    while end < len(data) or not pages:
        try:
            page = read_page(data, end)
        except Error as error:
            if pages and error.number == _NO_PBM:
                break
            raise in_image(error, len(pages))
        pages.append(page)
        end = page.end
    return pages


def in_image(error: Error, before: int) -> Error:
    """Returns the error of an image that follows this many others."""
    return Error(error.number, error.partial, f"image {before + 1}: {error.text}") if before else error


def numbered(output: str, number: int, count: int) -> str:
    """Returns the name of the output of one of several images: NAME-1.jbg, NAME-2.jbg and so on."""
    stem, ending = os.path.splitext(output)
    return f"{stem}-{number}{ending}" if count > 1 else output


@dataclass(frozen=True)
class Streams:
    """The complete streams of a file, and a broken one behind them, if there is one, with its error."""

    whole: List[memoryview]
    broken: Optional[memoryview] = None
    error: Optional[Error] = None

    @property
    def length(self) -> int:
        """Returns how many bytes they take together."""
        return sum(map(len, self.whole)) + len(self.broken or b"")


def streams_of(data: bytes) -> Streams:
    """Finds all streams of a file."""
    whole: List[memoryview] = []
    rest = memoryview(data)
    while rest or not whole:
        try:
            if whole:
                header(rest)
        except Error:
            break
        try:
            length = stream_length(rest)
        except Error as error:
            return Streams(whole, rest, in_image(error, len(whole)))
        whole.append(rest[:length])
        rest = rest[length:]
    return Streams(whole)


def infos(streams: Streams) -> List[Summary]:
    return [info(stream) for stream in streams.whole]


def heads(summaries: Sequence[Summary]) -> List[bytes]:
    """Returns the headers of the images that streams denote."""
    return [head_of(it.width, it.image_height) for it in summaries]


def rows_of(summaries: Sequence[Summary]) -> List[int]:
    """Returns how many bytes the rows of each image take."""
    return [it.image_height * row_bytes(it.width) for it in summaries]
