"""Samples that the module's tests share: the page in examples/, and examples that docs/EXAMPLES.md works by hand."""
import os
import textwrap

HERE = os.path.dirname(os.path.abspath(__file__))
EXAMPLES = os.path.join(HERE, "../../examples")


def example(name):
    with open(os.path.join(EXAMPLES, name), "rb") as file:
        return file.read()


def head(width, height, stripe_rows, most_offset, options):
    """H(..) of docs/EXAMPLES.md."""
    numbers = b"".join(number.to_bytes(4, "big") for number in (width, height, stripe_rows))
    return bytes([0, 0, 1, 0]) + numbers + bytes([most_offset, 0, 0, options])


def of_page(line):
    """Returns the lines of an example in docs/PYTHON.md that begins with this line."""
    with open(os.path.join(HERE, "../../docs/PYTHON.md"), encoding="utf-8") as page:
        text = page.read()
    begin = text.index(line)
    return textwrap.dedent(text[begin : text.index("\n\n", begin)])


PBM, STREAM = example("letter.pbm"), example("letter.jbg")
ROWS = PBM[-160 * 52 :]


# Streams that docs/EXAMPLES.md works by hand: the rows, the width, the options, and the stream.
WORKED = {
    20: ([b"\xff"], 8, dict(typical=False), head(8, 1, 128, 0, 0) + b"\xf0\xff\x02"),
    39: ([b"\0"], 8, dict(typical=False), head(8, 1, 128, 0, 0) + b"\x60\xff\x02"),
    40: ([b"\0"] * 3, 8, {}, head(8, 3, 128, 0, 8) + b"\xff\x02"),
    41: ([b"\x80"] * 2, 1, dict(stripe_rows=1), head(1, 2, 1, 0, 8) + b"\xe0\xff\x02" * 2),
    42: ([b"\x80"] * 2, 1, dict(stripe_rows=1, reset=True), head(1, 2, 1, 0, 8) + b"\xe0\xff\x03" * 2),
    43: (
        [b"\xff"] * 2,
        8,
        dict(typical=False, stripe_rows=1, most_offset=3),
        head(8, 2, 1, 3, 0) + b"\xf0\xff\x02\xff\x06\0\0\0\0\x03\0\xf8\xff\x02",
    ),
    44: ([b"\0"], 8, dict(comment=b"hi"), head(8, 1, 128, 0, 8) + b"\xff\x07\0\0\0\x02hi\xff\x02"),
}
# The same with an announced height: one that is replaced later, and one that is the image's.
LATE = [
    (
        [b"\x80"],
        dict(typical=False, announced_height=5),
        head(1, 5, 128, 0, 0x20) + b"\xc0\xff\x02\xff\x05\0\0\0\x01\xff\x02",
    ),
    ([b"\x80"], dict(typical=False, announced_height=1), head(1, 1, 128, 0, 0x20) + b"\xc0\xff\x02"),
    (
        [b"\x80"] * 2,
        dict(typical=False, stripe_rows=1, announced_height=9),
        head(1, 9, 1, 0, 0x20) + b"\xc0\xff\x02" * 2 + b"\xff\x05\0\0\0\x02\xff\x02",
    ),
]
