"""The stripes of a stream, from the parts that the library lists."""
from __future__ import annotations

from dataclasses import dataclass, field
from typing import List, Optional

from . import BrokenPart, Header, header, parts


@dataclass(frozen=True)
class Stripe:
    """A stripe: its first row, its bytes from its marker segments to its end marker, and the offset of the adaptive
    pixel in it."""

    row: int
    begin: int
    end: int
    move: Optional[int]


@dataclass
class Walk:
    """Returns the readable stripes of a stream, and its height."""

    fields: Header
    height: int
    stripes: List[Stripe] = field(default_factory=list)

    def rows_of(self, stripe: Stripe) -> int:
        return min(self.fields.stripe_rows, self.height - stripe.row)


def walk(stream: bytes) -> Walk:
    """The bytes behind the whole stripes are one more, broken stripe."""
    fields = header(stream)
    found, begin, move = Walk(fields, fields.height), 0, None
    try:
        for part in parts(stream):
            end = part.offset + part.length
            if part.kind == "header":
                begin = end
            elif part.kind == "new height":
                found.height = int.from_bytes(stream[end - 4 : end], "big")
            elif part.kind == "move":
                move = stream[end - 2]
            elif part.kind == "data entity":
                found.stripes.append(Stripe(part.stripe * fields.stripe_rows, begin, end, move))
                begin, move = end, None
    except BrokenPart as broken:
        if begin < len(stream):
            found.stripes.append(Stripe(broken.stripe * fields.stripe_rows, begin, len(stream), move))
    return found
