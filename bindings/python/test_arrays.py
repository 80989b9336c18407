"""Tests arrays and images of other packages: which ones the module rejects, and which rows it makes of the others.

    T85_LIBRARY=bin/libt85.so.1 python3 -m unittest discover bindings/python

Tests that need NumPy or Pillow are skipped if the interpreter does not have it.
"""
import ctypes
import os
import subprocess
import sys
import unittest
from unittest import mock

import t85

try:
    import numpy
except ImportError:
    numpy = None
try:
    import PIL.Image as pillow
except ImportError:
    pillow = None

HERE = os.path.dirname(os.path.abspath(__file__))
EXAMPLES = os.path.join(HERE, "../../examples")

# Five pixels per row, so three bits of each row are padding.
PIXELS = [[1, 0, 0, 1, 1], [0, 0, 0, 0, 1]]
BLACK = t85.Rows(5, 2, 1, b"\x98\x08")
WHITE = t85.Rows(5, 2, 1, b"\x60\xf0")
HINT = r"pack\(array, black=True\).* pack\(array, black=False\)"


def page():
    """The page in examples/ as rows."""
    with open(os.path.join(EXAMPLES, "letter.pbm"), "rb") as file:
        return t85.Rows(416, 160, 52, file.read()[-160 * 52 :])


class Alone(unittest.TestCase):
    """Tests that need neither package."""

    def test_not_imported(self):
        lines = [
            "import sys, t85",
            "stream = t85.encode(bytes(2), 8, 2)",
            "t85.decode(stream), t85.decode_rows(stream), t85.info(stream)",
            "for wrong in (memoryview(bytes(64)).cast('?'), memoryview(bytes(64)).cast('B', [8, 8])):",
            "    try:",
            "        t85.encode(wrong, 8, 8)",
            "    except TypeError as error:",
            "        print(error)",
            "print(sorted({'numpy', 'PIL'} & set(sys.modules)))",
        ]
        environment = {**os.environ, "PYTHONPATH": HERE}
        ran = subprocess.run([sys.executable, "-c", "\n".join(lines)], env=environment, capture_output=True, text=True)
        self.assertEqual((ran.stderr, ran.returncode), ("", 0))
        said = ran.stdout.splitlines()
        self.assertEqual((len(said), said[-1]), (3, "[]"))
        for line in said[:-1]:
            self.assertRegex(line, HINT)

    def test_missing(self):
        with mock.patch.dict(sys.modules, {"numpy": None, "PIL": None, "PIL.Image": None}):
            with self.assertRaises(ImportError):
                t85.pack(PIXELS, black=True)
            with self.assertRaises(ImportError):
                t85.to_image(BLACK)
            for call in (t85.to_array, lambda rows: t85.unpack(rows, black=True)):
                with self.assertRaises(ImportError):
                    call(BLACK)

    def test_rows_are_taken(self):
        # Rows in two-dimensional memory, and objects that are as long as an array of pixels but are none.
        rows = page()
        self.assertEqual(
            t85.encode(memoryview(rows.data).cast("B", [160, 52]), 416, 160), t85.encode(rows.data, 416, 160)
        )
        for many in (bytes(64), bytearray(64), memoryview(bytes(64))):
            self.assertEqual(t85.encode(many, 8, 8), t85.encode(bytes(8), 8, 8))

    def test_stands_for_an_image(self):
        with self.assertRaisesRegex(TypeError, r"from_image\(image\)"):
            t85.encode(mock.Mock(spec=["mode", "size", "tobytes"]), 8, 8)


@unittest.skipUnless(numpy, "NumPy is not installed")
class Arrays(unittest.TestCase):
    def test_pack(self):
        for kind in ("bool", "uint8", "int8", "int64", "float32", ">u2"):
            for order in "CF":
                array = numpy.array(PIXELS, kind, order=order)
                with self.subTest(kind=kind, order=order):
                    self.assertEqual(t85.pack(array, black=True), BLACK)
                    self.assertEqual(t85.pack(array, black=False), WHITE)
        self.assertEqual(t85.pack(PIXELS, black=True), BLACK)

    def test_pack_refuses(self):
        wrong = {
            "not 2 dimensions, but 1": numpy.zeros(8, bool),
            "not 2 dimensions, but 3": numpy.zeros((2, 2, 3), "uint8"),
            "other items than 0 and 1": numpy.array([[0, 255]], "uint8"),
            "items than 0 and 1": numpy.array([["0", "1"]]),
            "than 0 and 1": numpy.array([[0.0, float("nan")]]),
        }
        for text, array in wrong.items():
            with self.subTest(text=text), self.assertRaisesRegex(ValueError, text):
                t85.pack(array, black=True)
        with self.assertRaises(TypeError):
            t85.pack(PIXELS)

    def test_encode_refuses(self):
        for kind in ("bool", "uint8", "int8", "int32", "int64", "float64"):
            for shape in ((16, 24), (384,), (16, 24, 1), (24, 16)):
                for array in (numpy.zeros(shape, kind), numpy.ones(shape, kind)):
                    with self.subTest(kind=kind, shape=shape), self.assertRaisesRegex(TypeError, HINT):
                        t85.encode(array, 24, 16)
        # More rows than needed, views, and arrays with a row stride.
        array = numpy.ones((20, 48), "uint8")
        wrong = [(array, 48), (array[:, ::2], 24), (numpy.ones((16, 1), "uint8"), 1), (memoryview(array), 48)]
        for array, width in wrong:
            with self.subTest(shape=array.shape), self.assertRaisesRegex(TypeError, HINT):
                t85.encode(array, width, 16)
        with self.assertRaisesRegex(TypeError, HINT):
            t85.encode(numpy.ones((16, 24), bool), 24, 16, stride=24)

    def test_packed_is_taken(self):
        rows = page()
        packed = numpy.frombuffer(rows.data, "uint8").reshape(160, 52)
        stream = t85.encode(rows.data, 416, 160)
        self.assertEqual(t85.encode(packed, 416, 160), stream)
        self.assertEqual(t85.encode(packed.reshape(-1), 416, 160), stream)
        self.assertEqual(t85.encode(numpy.pad(packed, ((0, 0), (0, 3))), 416, 160, stride=55), stream)
        # White pages, and dots in the lowest bit of a byte, look like zeros and ones.
        for array in (numpy.zeros((16, 3), "uint8"), numpy.ones((16, 3), "uint8")):
            self.assertEqual(t85.encode(array, 24, 16), t85.encode(array.tobytes(), 24, 16))
        column = numpy.array([[0x80], [0]], "uint8")
        self.assertEqual(t85.encode(column, 1, 2), t85.encode(b"\x80\0", 1, 2))

    def test_lent_in_place(self):
        # An array is passed in place, writable or not.
        rows = page()
        writable, fixed = bytearray(rows.data), numpy.frombuffer(rows.data, "uint8").reshape(160, 52)
        for packed in (numpy.frombuffer(writable, "uint8").reshape(160, 52), fixed):
            lent, length = t85._lent(packed)
            address = lent.value if isinstance(lent, ctypes.c_void_p) else ctypes.addressof(lent)
            self.assertEqual((address, length), (packed.__array_interface__["data"][0], 160 * 52))
        self.assertEqual(t85._lent(fixed[::2]), (fixed[::2].tobytes(), 80 * 52))
        self.assertEqual(t85.encode(fixed[1:], 416, 159), t85.encode(rows.data[52:], 416, 159))

    def test_to_array(self):
        rows = page()
        packed = t85.to_array(rows)
        self.assertEqual((packed.shape, packed.dtype.name, packed.tobytes()), ((160, 52), "uint8", rows.data))
        self.assertTrue(numpy.shares_memory(packed, numpy.frombuffer(rows.data, "uint8")))
        self.assertFalse(packed.flags.writeable)
        self.assertEqual(t85.to_array(t85.Rows(5, 2, 3, b"\x98ab\x08")).tolist(), [[0x98], [0x08]])
        self.assertEqual(t85.to_array(t85.Rows(5, 0, 1, b"")).shape, (0, 1))

    def test_unpack(self):
        self.assertEqual(t85.unpack(BLACK, black=True).tolist(), numpy.array(PIXELS, bool).tolist())
        self.assertEqual(t85.unpack(WHITE, black=False).tolist(), numpy.array(PIXELS, bool).tolist())
        rows = page()
        self.assertEqual(t85.pack(t85.unpack(rows, black=True), black=True), rows)

    def test_decode_into(self):
        rows = page()
        stream = t85.encode(rows.data, 416, 160)
        packed = numpy.full((160, 55), 7, "uint8")
        self.assertEqual(t85.decode_into(stream, packed, stride=55), 160)
        self.assertEqual(packed[:, :52].tobytes(), rows.data)
        self.assertEqual(set(packed[:, 52:].ravel().tolist()), {7})
        with self.assertRaisesRegex(TypeError, HINT):
            t85.decode_into(stream, numpy.zeros((160, 416), bool))

    def test_both_ways(self):
        rows = page()
        pixels = numpy.unpackbits(numpy.frombuffer(rows.data, "uint8").reshape(160, 52), axis=1)
        self.assertEqual(t85.pack(pixels, black=True), rows)
        self.assertEqual(t85.pack(1 - pixels, black=False), rows)
        packed = t85.pack(pixels == 1, black=True)
        self.assertEqual(t85.decode_rows(t85.encode(packed.data, packed.width, packed.count)), rows)


@unittest.skipUnless(pillow, "Pillow is not installed")
class Images(unittest.TestCase):
    def test_letter(self):
        # Pillow reads the page itself, and inverts the bits of a PBM.
        with pillow.open(os.path.join(EXAMPLES, "letter.pbm")) as image:
            rows = t85.from_image(image)
            self.assertEqual(rows, page())
            again = t85.to_image(t85.decode_rows(t85.encode(rows.data, rows.width, rows.count)))
            self.assertEqual((again.mode, again.size), ("1", image.size))
            self.assertEqual(again.tobytes(), image.tobytes())

    def test_turned(self):
        image = pillow.new("1", (5, 2), 1)
        for y, row in enumerate(PIXELS):
            for x, pixel in enumerate(row):
                image.putpixel((x, y), 0 if pixel else 255)
        self.assertEqual(t85.from_image(image), BLACK)
        self.assertEqual(t85.to_image(BLACK).tobytes(), image.tobytes())
        self.assertEqual(t85.to_image(t85.Rows(5, 2, 3, b"\x98ab\x08")).tobytes(), image.tobytes())
        # Bits after the last pixel are ignored.
        self.assertEqual(t85.from_image(t85.to_image(t85.Rows(5, 2, 1, b"\x9f\x0f"))), BLACK)

    def test_empty(self):
        for size in ((0, 0), (5, 0)):
            rows = t85.from_image(pillow.new("1", size))
            self.assertEqual((rows.width, rows.count, rows.data), (*size, b""))
            self.assertEqual(t85.to_image(rows).size, size)

    def test_refused(self):
        for mode in ("L", "RGB", "P"):
            with self.assertRaisesRegex(ValueError, rf"the mode {mode}, .*image\.convert\('1'\)"):
                t85.from_image(pillow.new(mode, (5, 2)))
        with self.assertRaisesRegex(TypeError, r"from_image\(image\)"):
            t85.encode(pillow.new("1", (8, 8)), 8, 8)


if __name__ == "__main__":
    unittest.main()
