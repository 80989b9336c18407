"""Tests files with several images: PBM images and streams one behind the other. The streams are examples of
docs/EXAMPLES.md.

    T85_LIBRARY=bin/libt85.so.1 python3 -m unittest discover bindings/python
"""
import os
import unittest

from test_many import Folder, read

from t85 import many

# Images of 8 by 1 pixels, white and black, and of 3 by 3 black ones; their streams with and without typical prediction.
WHITE, BLACK, SQUARE = b"P4\n8 1\n\0", b"P4\n8 1\n\xff", b"P4\n3 3\n\xe0\xe0\xe0"


def stream(width, height, options, code):
    sizes = b"".join(number.to_bytes(4, "big") for number in (width, height, 128))
    return b"\0\0\1\0" + sizes + bytes((0, 0, 0, options)) + code


WHITE_STREAM, BLACK_STREAM = stream(8, 1, 8, b"\xff\x02"), stream(8, 1, 8, b"\xf8\xff\x02")
SQUARE_STREAM = stream(3, 3, 0, b"\xff\x00\xc0\xff\x02")
# Two black rows, of which the bytes determine the first, and an image of one row whose height comes late.
CUT_STREAM = stream(8, 2, 0, b"\xf0\x00\x00")
LATE_STREAM = stream(1, 5, 0x20, b"\xc0\xff\x02\xff\x05\x00\x00\x00\x01\xff\x02")


class SeveralPages(Folder):
    def test_file_for_each(self):
        name = self.keep("a.pbm", WHITE + BLACK)
        self.assertEqual(self.counts("encode", name), (1, 0, 0))
        self.assertEqual(sorted(os.listdir(self.folder)), ["a-1.jbg", "a-2.jbg", "a.pbm"])
        self.assertEqual((read(self.path("a-1.jbg")), read(self.path("a-2.jbg"))), (WHITE_STREAM, BLACK_STREAM))
        self.assertEqual(self.counts("encode", name), (0, 1, 0))
        # Only the missing one is written again.
        os.unlink(self.path("a-2.jbg"))
        os.utime(self.path("a-1.jbg"), ns=(1 << 61, 1 << 61))
        self.assertEqual(self.counts("encode", name), (1, 0, 0))
        self.assertEqual(read(self.path("a-2.jbg")), BLACK_STREAM)
        self.assertEqual(os.stat(self.path("a-1.jbg")).st_mtime_ns, 1 << 61)

    def test_one_image(self):
        for number, behind in enumerate([b"", b"\n", b"\0" * 40, b"P5 1 1 1 \0"]):
            name = self.keep(f"a{number}.pbm", BLACK + behind)
            self.assertEqual(self.counts("encode", name), (1, 0, 0))
            self.assertEqual(read(self.path(f"a{number}.jbg")), BLACK_STREAM)
        # A plain image takes the rest of its file.
        name = self.keep("plain.pbm", b"P1 8 1 11111111 P4\n8 1\n\0")
        self.assertEqual(self.counts("encode", name), (1, 0, 0))
        self.assertEqual(read(self.path("plain.jbg")), BLACK_STREAM)

    def test_broken_image(self):
        # Nothing is written of a file with a broken image.
        for number, behind in {36: b"P4\n8 2\n\0", 33: b"P4 0 1 ", 34: b"P4\n1048577 1\n"}.items():
            name = self.keep("a.pbm", WHITE + BLACK + behind)
            outcome = many.Job("encode")(name)
            self.assertEqual((outcome.state, outcome.number), (many.FAILED, number))
            self.assertIn("image 3: ", outcome.text)
            self.assertEqual(os.listdir(self.folder), ["a.pbm"])

    def test_names_that_others_have(self):
        self.keep("a-1.pbm", SQUARE)
        both = [self.path("a.pbm"), self.path("a-1.pbm")]
        self.keep("a.pbm", WHITE + BLACK)
        _, messages = self.ran("encode", *both, status=2)
        self.assertIn("would both be written as", messages)
        self.assertEqual(sorted(os.listdir(self.folder)), ["a-1.pbm", "a.pbm"])
        # The same names, with one image each.
        self.keep("a.pbm", WHITE)
        self.assertEqual(self.counts("encode", *both), (2, 0, 0))
        self.assertEqual(read(self.path("a.jbg")), WHITE_STREAM)

    def test_input_with_a_number(self):
        # An input that one of several outputs would replace.
        page, other = self.keep("a.pbm", WHITE + BLACK), self.keep("a-2.jbg", SQUARE)
        os.symlink(other, self.path("b.pbm"))
        for words in ([page, other], [page, self.path("b.pbm")]):
            self.ran("encode", "--again", *words, status=2)
            self.assertEqual(read(other), SQUARE)


class SeveralStreams(Folder):
    def test_images_in_one_file(self):
        name = self.keep("a.jbg", WHITE_STREAM + LATE_STREAM + SQUARE_STREAM)
        images = WHITE + b"P4\n1 1\n\x80" + SQUARE
        self.assertEqual(self.counts("decode", name), (1, 0, 0))
        self.assertEqual(read(self.path("a.pbm")), images)
        self.assertEqual(self.counts("decode", name), (0, 1, 0))
        self.assertEqual(self.counts("check", name), (1, 0, 0))
        # A file of the same length, or one whose second header differs, is not its images.
        for other in (images.replace(b"1 1", b"2 1"), images + b"\0", WHITE):
            self.keep("a.pbm", other)
            self.assertEqual(self.counts("decode", name, status=1), (0, 0, 1))
            self.assertEqual(read(self.path("a.pbm")), other)

    def test_bytes_behind(self):
        for number, behind in enumerate([b"\0", b"\0" * 40, b"\n", BLACK_STREAM[:19]]):
            name = self.keep(f"a{number}.jbg", BLACK_STREAM + behind)
            self.assertEqual(self.counts("decode", name), (1, 0, 0))
            self.assertEqual(read(self.path(f"a{number}.pbm")), BLACK)

    def test_broken_stream(self):
        name = self.keep("a.jbg", WHITE_STREAM + CUT_STREAM)
        for command in ("decode", "check"):
            outcome = many.Job(command)(name)
            self.assertEqual((outcome.state, outcome.number), (many.FAILED, 9))
            self.assertIn("image 2: ", outcome.text)
        self.assertEqual(os.listdir(self.folder), ["a.jbg"])
        self.assertEqual(self.counts("decode", "--partial", name, status=1), (0, 0, 1))
        self.assertEqual(read(self.path("a.pbm")), WHITE + BLACK)
        # Without a row that can be recovered, the images before it are written.
        name = self.keep("b.jbg", WHITE_STREAM + CUT_STREAM[:21])
        self.assertEqual(self.counts("decode", "--partial", name, status=1), (0, 0, 1))
        self.assertEqual(read(self.path("b.pbm")), WHITE)

    def test_limit_of_bytes(self):
        # The limit is that of all images of a file together.
        name = self.keep("a.jbg", WHITE_STREAM * 5)
        outcome = many.Job("decode", max_bytes=4)(name)
        self.assertEqual((outcome.state, outcome.number), (many.FAILED, 18))
        self.assertEqual(os.listdir(self.folder), ["a.jbg"])
        self.assertEqual(many.Job("decode", max_bytes=5)(name).state, many.DONE)
        self.assertEqual(read(self.path("a.pbm")), WHITE * 5)


if __name__ == "__main__":
    unittest.main()
