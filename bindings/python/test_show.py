"""Tests pictures of streams: the places of their parts, in the examples of docs/EXAMPLES.md, and the drawing.

    T85_LIBRARY=bin/libt85.so.1 python3 -m unittest discover bindings/python
"""
import contextlib
import io
import os
import tempfile
import unittest

import t85
from t85 import __main__ as command
from t85._walk import Stripe, walk

try:
    import PIL.Image as pillow
except ImportError:
    pillow = None

HERE = os.path.dirname(os.path.abspath(__file__))
EXAMPLES = os.path.join(HERE, "../../examples")


def head(width, height, stripe_rows, most_offset, options):
    """H(..) of docs/EXAMPLES.md."""
    numbers = b"".join(number.to_bytes(4, "big") for number in (width, height, stripe_rows))
    return bytes([0, 0, 1, 0]) + numbers + bytes([most_offset, 0, 0, options])


# Numbers of docs/EXAMPLES.md: the stream, its height, and its stripes.
WALKS = {
    1: (head(1, 2, 1, 0, 8), "e0ff02e0ff02", 2, [Stripe(0, 20, 23, None), Stripe(1, 23, 26, None)]),
    2: (head(8, 2, 1, 3, 0), "f0ff02ff06000000000300f8ff02", 2, [Stripe(0, 20, 23, None), Stripe(1, 23, 34, 3)]),
    3: (head(8, 1, 128, 0, 8), "ff07000000026869ff02", 1, [Stripe(0, 20, 30, None)]),
    5: (head(1, 5, 128, 0, 0x20), "c0ff02ff0500000001ff02", 1, [Stripe(0, 20, 23, None)]),
    6: (head(8, 1, 128, 0, 0), "ff02ff07", 1, [Stripe(0, 20, 22, None)]),
    7: (head(8, 1, 128, 0, 8), "", 1, []),
    10: (head(8, 1, 128, 0, 8), "00ff05", 1, [Stripe(0, 20, 23, None)]),
    23: (head(3, 3, 128, 0, 0), "ff00c0ff02", 3, [Stripe(0, 20, 25, None)]),
    27: (head(1, 2, 1, 0, 8), "e0ff03e0ff03", 2, [Stripe(0, 20, 23, None), Stripe(1, 23, 26, None)]),
    33: (head(8, 2, 128, 0, 0), "f0000000", 2, [Stripe(0, 20, 24, None)]),
}


class Walks(unittest.TestCase):
    def test_worked(self):
        for number, (front, body, height, stripes) in WALKS.items():
            with self.subTest(number=number):
                found = walk(front + bytes.fromhex(body))
                self.assertEqual((found.height, found.stripes), (height, stripes))

    def test_beginnings(self):
        # However much is cut off, no part extends beyond the end.
        with open(os.path.join(EXAMPLES, "letter.jbg"), "rb") as file:
            stream = file.read()
        for count in range(20, len(stream) + 1):
            found = walk(stream[:count])
            self.assertLessEqual(len(found.stripes), 2)
            self.assertTrue(all(stripe.begin <= stripe.end <= count for stripe in found.stripes))


@unittest.skipUnless(pillow, "Pillow is not installed")
class Pictures(unittest.TestCase):
    def setUp(self):
        folder = tempfile.TemporaryDirectory()
        self.addCleanup(folder.cleanup)
        self.folder = folder.name

    def shown(self, stream):
        """The picture of a stream."""
        path = os.path.join(self.folder, "page.jbg")
        with open(path, "wb") as file:
            file.write(stream)
        picture = os.path.join(self.folder, "page.png")
        self.assertEqual(command.main(["show", path, picture]), 0)
        with pillow.open(picture) as image:
            return image.convert("RGB")

    def test_page(self):
        rows = bytes(range(256)) * 6 + bytes(64)
        stream = t85.encode(rows, 64, 200, stripe_rows=50)
        whole, cut = self.shown(stream), self.shown(stream[: len(stream) // 2])
        red = (0xB3, 0x26, 0x1E)
        self.assertNotIn(red, whole.getdata())
        self.assertIn(red, cut.getdata())
        self.assertEqual(whole.getpixel((2, 2)), (255, 255, 255))

    def test_refused(self):
        path, messages = os.path.join(self.folder, "none.jbg"), io.StringIO()
        with contextlib.redirect_stderr(messages):
            self.assertEqual(command.main(["show", path]), 1)
        self.assertEqual(messages.getvalue(), f"{path}: No such file or directory\n")
        # A page for which Pillow would need half a petabyte.
        with open(path, "wb") as file:
            file.write(head(1 << 20, (1 << 32) - 1, (1 << 32) - 1, 0, 8) + b"\xff\x02")
        with contextlib.redirect_stderr(messages):
            self.assertEqual(command.main(["show", path]), 1)
        self.assertIn("and max_bytes is 33554432", messages.getvalue())


if __name__ == "__main__":
    unittest.main()
