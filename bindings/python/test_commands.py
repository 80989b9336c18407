"""Compares the module with the commands, byte for byte: images with several options, truncated streams, and every
buffer size.

`tests/python` runs it: T85_PROGRAMS is the folder of the commands, T85_PAGES has images, raw PBM without comments, with `:`
between them, and T85_STREAMS streams.
"""
import ctypes
import dataclasses
import os
import subprocess
import tempfile
import unittest

import t85

EXAMPLES = os.path.join(os.path.dirname(os.path.abspath(__file__)), "../../examples")
PROGRAMS = os.environ.get("T85_PROGRAMS")
NO_ROOM = 18


def read(name):
    with open(name, "rb") as file:
        return file.read()


def run(program, *words):
    """Returns the output of a command, and its message without its name."""
    ran = subprocess.run([os.path.join(PROGRAMS, program), *words], capture_output=True)
    return ran.stdout, ran.stderr.decode().strip().removeprefix(program + ": ")


def options(height):
    """Sets of options, as arguments of a command and under the module's names."""
    return [
        ("-m 0", {}),
        ("-m 127 -r", dict(most_offset=127, reset=True)),
        ("-m 127 -p 72 -s 7 -C hello", dict(most_offset=127, two_lines=True, stripe_rows=7, comment=b"hello")),
        (f"-m 8 -p 0 -s 50 -Y {height + 9}", dict(most_offset=8, typical=False, stripe_rows=50, announced_height=height + 9)),
    ]


@unittest.skipUnless(PROGRAMS, "T85_PROGRAMS names no folder")
class Commands(unittest.TestCase):
    def setUp(self):
        folder = tempfile.TemporaryDirectory()
        self.addCleanup(folder.cleanup)
        self.stream = os.path.join(folder.name, "stream")

    def keep(self, stream):
        with open(self.stream, "wb") as file:
            file.write(stream)

    def same_outcome(self, stream):
        """The module returns the image that the command writes, or the same rows and error; and the same line or
        error."""
        self.keep(stream)
        image, message = run("jbgtopbm85", self.stream)
        try:
            found = t85.decode(stream), ""
        except t85.Error as error:
            found = error.partial, error.text
        self.assertEqual(found[1], message)
        self.assertTrue(found[0] == image, f"another image, {len(stream)} bytes")
        line, message = run("jbgtopbm85", "--info", self.stream)
        try:
            found = " ".join(map(str, dataclasses.astuple(t85.info(stream)))) + "\n", ""
        except t85.Error as error:
            found = "", error.text
        self.assertEqual(found, (line.decode(), message))

    def same_both_ways(self, name, page, words, names):
        width, height = map(int, page.split(b"\n", 2)[1].split())
        rows = page[-height * ((width + 7) // 8) :]
        stream = t85.encode(rows, width, height, **names)
        self.assertTrue(run("pbmtojbg85", *words.split(), name)[0] == stream, "another stream")
        self.assertTrue(t85.decode(stream) == page, "another image")
        self.assertTrue(t85.decode_rows(stream) == t85.Rows(width, height, (width + 7) // 8, rows), "other rows")
        return stream

    def test_images(self):
        for name in os.environ["T85_PAGES"].split(":"):
            page = read(name)
            height = int(page.split(b"\n", 2)[1].split()[1])
            for words, names in options(height):
                with self.subTest(page=os.path.basename(name), options=words):
                    stream = self.same_both_ways(name, page, words, names)
                    for count in (len(stream) // 5, len(stream) // 2, len(stream) - 1, len(stream)):
                        self.same_outcome(stream[:count])

    def test_examples(self):
        for name in os.environ["T85_STREAMS"].split(":"):
            stream = read(name)
            for count in range(len(stream) + 1):
                with self.subTest(stream=os.path.basename(name), count=count):
                    self.same_outcome(stream[:count])

    def fills(self, call, whole):
        """With a buffer smaller than the output, a C call writes a prefix of the buffer's length."""
        written = ctypes.c_size_t()
        for room in range(len(whole)):
            output = ctypes.create_string_buffer(b"\xa5" * len(whole), len(whole))
            status = call(output, room, ctypes.byref(written))
            self.assertEqual((status, written.value), (NO_ROOM, room))
            self.assertTrue(output.raw == whole[:room] + b"\xa5" * (len(whole) - room))

    def test_rooms(self):
        stream, image = read(os.path.join(EXAMPLES, "letter.jbg")), read(os.path.join(EXAMPLES, "letter.pbm"))
        rows, window = image[-160 * 52 :], t85._window(416)
        options = ctypes.byref(t85._Options(version=1, options=8, stripe_rows=128, most_offset=127))
        lent = window, len(window)
        self.fills(lambda *room: t85._LIBRARY.t85_decode(stream, len(stream), 200, *lent, *room), image)
        self.fills(
            lambda *room: t85._LIBRARY.t85_encode(416, 160, rows, len(rows), 52, options, b"", 0, *lent, *room), stream
        )


if __name__ == "__main__":
    unittest.main()
