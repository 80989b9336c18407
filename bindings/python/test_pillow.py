"""Tests Pillow with the module t85.pillow: streams that are opened, loaded and saved, and broken ones.

    T85_LIBRARY=bin/libt85.so.1 python3 -m unittest discover bindings/python

The tests are skipped if the interpreter has no Pillow.
"""
import io
import os
import subprocess
import sys
import tempfile
import unittest
from unittest import mock

import t85

try:
    import PIL.Image as pillow
    import PIL.ImageFile

    import t85.pillow
except ImportError:
    pillow = None

HERE = os.path.dirname(os.path.abspath(__file__))
EXAMPLES = os.path.join(HERE, "../../examples")


def read(path):
    with open(path, "rb") as file:
        return file.read()


LETTER = os.path.join(EXAMPLES, "letter.pbm")
STREAM = read(os.path.join(EXAMPLES, "letter.jbg"))
# An icon of one image of 32 by 32 pixels, which begins with the same four bytes.
ICON = bytes.fromhex("0000010001002020000001002000") + (40).to_bytes(4, "little") + (22).to_bytes(4, "little") + bytes(40)


@unittest.skipUnless(pillow, "Pillow is not installed")
class Images(unittest.TestCase):
    def setUp(self):
        with pillow.open(LETTER) as image:
            self.letter = image.copy()

    def same(self, image, other):
        self.assertEqual((image.mode, image.size), (other.mode, other.size))
        self.assertEqual(image.tobytes(), other.tobytes())

    def test_opened(self):
        for form in (None, ["JBIG"]):
            with pillow.open(io.BytesIO(STREAM), formats=form) as image:
                self.assertEqual((image.format, image.mode, image.size), ("JBIG", "1", (416, 160)))
                self.same(image, self.letter)

    def test_saved(self):
        with tempfile.TemporaryDirectory() as folder:
            for name in ("a.jbg", "b.jbig", "C.JBG"):
                path = os.path.join(folder, name)
                self.letter.save(path, most_offset=127)
                self.assertEqual(read(path), STREAM)
                with pillow.open(path) as image:
                    self.same(image, self.letter)
        file = io.BytesIO()
        options = dict(stripe_rows=9, two_lines=True, typical=False, reset=True, comment=b"said", announced_height=200)
        self.letter.save(file, "JBIG", **options)
        found = t85.info(file.getvalue())
        self.assertEqual((found.stripe_rows, found.options, found.comments, found.height), (9, 0x60, 1, 200))
        with pillow.open(file) as image:
            self.same(image, self.letter)

    def test_sizes(self):
        for size in ((1, 1), (7, 3), (8, 2), (9, 1), (65, 40)):
            page, file = self.letter.crop((62, 20, 62 + size[0], 20 + size[1])), io.BytesIO()
            page.save(file, "JBIG")
            with pillow.open(file) as image:
                self.same(image, page)

    def test_save_refused(self):
        for mode in ("L", "RGB", "P"):
            with self.assertRaisesRegex(OSError, f"cannot write mode {mode} as JBIG"):
                pillow.new(mode, (8, 8)).save(io.BytesIO(), "JBIG")
        with self.assertRaises(OSError):
            self.letter.save(io.BytesIO(), "JBIG", most_offset=128)

    def test_broken(self):
        cut = STREAM[:500]
        with self.assertRaises(t85.Error) as caught:
            t85.decode_rows(cut)
        count = caught.exception.partial.count
        self.assertTrue(0 < count < 160)
        with pillow.open(io.BytesIO(cut)) as image, self.assertRaisesRegex(OSError, "image file is truncated"):
            image.load()
        other = STREAM[:500] + b"\xff\x09" + STREAM[502:]
        with pillow.open(io.BytesIO(other)) as image, self.assertRaisesRegex(OSError, "broken data stream .*escape"):
            image.load()
        with mock.patch.object(PIL.ImageFile, "LOAD_TRUNCATED_IMAGES", True), pillow.open(io.BytesIO(cut)) as image:
            self.same(image.crop((0, 0, 416, count)), self.letter.crop((0, 0, 416, count)))
            self.same(image.crop((0, count, 416, 160)), pillow.new("1", (416, 160 - count), 1))

    def test_changed(self):
        # A file that another image replaces after it was opened is rejected, whatever the sizes.
        small = t85.encode(b"\0", 8, 1)
        with pillow.open(io.BytesIO(STREAM)) as image:
            letter = image.copy()
        for first, then in ((small, STREAM), (STREAM, small), (STREAM, t85.encode(bytes(104 * 80), 832, 80))):
            for truncated in (False, True):
                file = io.BytesIO(first)
                with mock.patch.object(PIL.ImageFile, "LOAD_TRUNCATED_IMAGES", truncated), pillow.open(file) as image:
                    file.seek(0)
                    file.truncate()
                    file.write(then)
                    self.assertRaises(OSError, image.load)
        self.same(letter, self.letter)

    def test_parser(self):
        for size in (1, 19, 20, 500, 1 << 16):
            parser = PIL.ImageFile.Parser()
            for at in range(0, len(STREAM), size):
                parser.feed(STREAM[at : at + size])
            self.same(parser.close(), self.letter)
        parser = PIL.ImageFile.Parser()
        parser.feed(STREAM[:500])
        self.assertRaises(OSError, parser.close)

    def test_not_ours(self):
        for data in (STREAM[:19], b"\0\0\1\0", bytes(20), b"\0\0\1\0" + bytes(16)):
            with self.assertRaises(pillow.UnidentifiedImageError):
                pillow.open(io.BytesIO(data), formats=["JBIG"])
        with self.assertRaises(pillow.UnidentifiedImageError):
            pillow.open(io.BytesIO(ICON), formats=["JBIG"])

    def test_large(self):
        tall = bytes.fromhex("0000010000100000ffffffffffffffff00000008ff02")
        with self.assertRaises(pillow.DecompressionBombError):
            pillow.open(io.BytesIO(tall))

    def test_beside_icons(self):
        # A stream is opened as a stream and an icon as an icon, whichever plugin is asked first.
        lines = [
            "import io, sys",
            "from PIL import Image",
            "{}",
            "import t85.pillow",
            "icon = io.BytesIO()",
            "Image.new('RGB', (32, 32)).save(icon, 'ICO', sizes=[(32, 32)])",
            "print(Image.open(icon).format, Image.open(sys.argv[1]).format)",
        ]
        for before in ("", "Image.init()"):
            words = [sys.executable, "-c", "\n".join(lines).format(before), os.path.join(EXAMPLES, "letter.jbg")]
            ran = subprocess.run(words, env={**os.environ, "PYTHONPATH": HERE}, capture_output=True, text=True)
            self.assertEqual((ran.stdout, ran.stderr), ("ICO JBIG\n", ""))


if __name__ == "__main__":
    unittest.main()
