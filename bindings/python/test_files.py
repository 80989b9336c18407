"""Tests of conversion from file to file."""
import io
import itertools
import os
import random
import re
import subprocess
import sys
import tempfile
import threading
import tracemalloc
import unittest
from unittest import mock

import t85
from samples import HERE, LATE, PBM, ROWS, STREAM, WORKED, head
from t85._pbm import PageReader


class Dribble(io.RawIOBase):
    """A file object that reads or writes a few bytes at a time, and cannot seek."""

    def __init__(self, data=b"", step=7):
        self.data, self.step, self.taken = data, step, b""

    def read(self, size=-1):
        part, self.data = self.data[: min(size, self.step)], self.data[min(size, self.step) :]
        return part

    def write(self, data):
        self.taken += data[: self.step]
        return len(data[: self.step])


# Encodes or decodes standard input to standard output, and prints how much memory that took beyond Python and the
# module.
POURED = """
import resource, sys, t85

before = resource.getrusage(resource.RUSAGE_SELF).ru_maxrss
call = getattr(t85, sys.argv[1])
call(sys.stdin.buffer, sys.stdout.buffer, **eval(sys.argv[2]))
print(resource.getrusage(resource.RUSAGE_SELF).ru_maxrss - before, file=sys.stderr)
"""


class FromFileToFile(unittest.TestCase):
    def setUp(self):
        folder = tempfile.TemporaryDirectory()
        self.addCleanup(folder.cleanup)
        self.folder = folder.name

    def path(self, name, data=None):
        path = os.path.join(self.folder, name)
        if data is not None:
            with open(path, "wb") as file:
                file.write(data)
        return path

    def encoded(self, image, **names):
        """Encodes an image by each kind of source and target, and returns the stream."""
        stream = io.BytesIO()
        count = t85.encode_file(io.BytesIO(image), stream, **names)
        self.assertEqual(count, len(stream.getvalue()))
        output = Dribble()
        self.assertEqual(t85.encode_file(Dribble(image), output, **names), count)
        name = self.path("to")
        self.assertEqual(t85.encode_file(self.path("from", image), name, **names), count)
        with open(name, "rb") as file:
            self.assertEqual([file.read(), output.taken], [stream.getvalue()] * 2)
        return stream.getvalue()

    def decoded(self, stream, **names):
        """Decodes a stream in the same ways, and returns its image and height; also with the stream stored in a
        file."""
        found = self.decoded_once(stream, **names)
        with mock.patch("t85._conversion._MOST_KEPT", 30):
            self.assertEqual(self.decoded_once(stream, **names), found)
        return found

    def decoded_once(self, stream, **names):
        image = io.BytesIO()
        source = io.BytesIO(b"before" + stream)
        source.seek(6)
        height = t85.decode_file(source, image, **names)
        output = Dribble()
        self.assertEqual(t85.decode_file(Dribble(stream), output, **names), height)
        name = self.path("to")
        self.assertEqual(t85.decode_file(self.path("from", stream), name, **names), height)
        with open(name, "rb") as file:
            self.assertEqual([file.read(), output.taken], [image.getvalue()] * 2)
        self.assertEqual(os.listdir(self.folder).count("to"), 1)
        return image.getvalue(), height

    def fault(self, call, source, **names):
        """Returns the error of a call, and the contents of the target then. A file given by name does not exist
        then."""
        target, name = io.BytesIO(), self.path("broken")
        with self.assertRaises(t85.Error) as caught:
            call(io.BytesIO(source), target, **names)
        for place, path in ((Dribble(source), Dribble()), (self.path("from", source), name)):
            with mock.patch("t85._conversion._MOST_KEPT", 30), self.assertRaises(t85.Error) as again:
                call(place, path, **names)
            self.assertEqual(again.exception.number, caught.exception.number)
        self.assertEqual([entry for entry in os.listdir(self.folder) if "broken" in entry], [])
        return caught.exception, target.getvalue()

    def test_page(self):
        self.assertEqual(self.encoded(PBM, most_offset=127), STREAM)
        self.assertEqual(self.decoded(STREAM), (PBM, 160))

    def test_worked(self):
        # Numbers of docs/EXAMPLES.md, and streams followed by others.
        for number, (rows, width, names, stream) in WORKED.items():
            with self.subTest(number=number):
                image = b"P4\n%d %d\n" % (width, len(rows)) + b"".join(rows)
                self.assertEqual(self.encoded(image, **names), stream)
                self.assertEqual(self.decoded(stream + b"more"), (image, len(rows)))
        for rows, names, stream in LATE:
            image = b"P4\n1 %d\n" % len(rows) + b"".join(rows)
            self.assertEqual(self.encoded(image, **names), stream)
            self.assertEqual(self.decoded(stream + b"more"), (image, len(rows)))
        # Rows beyond a late height were returned before it: example 5 of docs/EXAMPLES.md has one of five.
        stream = head(1, 5, 128, 0, 0x20) + b"\xc0\xff\x02\xff\x05\0\0\0\x01\xff\x02"
        self.assertEqual(self.decoded(stream), (b"P4\n1 1\n\x80", 1))

    def test_plain(self):
        # Numbers of docs/EXAMPLES.md, and headers of docs/PBM.md.
        images = {
            b"P1 1 1 1": head(1, 1, 128, 0, 0) + b"\xc0\xff\x02",
            b"P1\n3 2\n1 1 1\n111\n": head(3, 2, 128, 0, 0) + b"\xfe\xff\x02",
            b"P4 008 01#c\n\xff": head(8, 1, 128, 0, 0) + b"\xf0\xff\x02",
            b"P4#" + b"a" * 9000 + b"\n 8#" + b"b" * 9000 + b"\r" + b" " * 99999 + b"1\n\xff": head(8, 1, 128, 0, 0) + b"\xf0\xff\x02",
        }
        for image, stream in images.items():
            with self.subTest(image=image[:30]):
                self.assertEqual(self.encoded(image, typical=False), stream)
        width, noise = 1001, random.Random(4)
        digits = "".join(noise.choice("01") for _ in range(width * 90))
        plain = "".join(digit + noise.choice(["", "", " ", "\n", "\r\n"]) for digit in digits)
        rows = [int(digits[at : at + width] + "0" * 7, 2).to_bytes(126, "big") for at in range(0, len(digits), width)]
        self.assertEqual(self.encoded(b"P1 1001 90\n" + plain.encode()), t85.encode(b"".join(rows), width, 90))

    def test_texts(self):
        # The texts of docs/PBM.md.
        texts = {
            b"Q": "input is not a PBM bitmap",
            b"P4 x": "bad number in the PBM header",
            b"P4 0 1 ": "PBM width or height is zero",
            b"P4 1048577 1\n": "PBM is wider than 1048576",
            b"P4 1 4294967296 ": "PBM is taller than 4294967295",
            b"P4 1": "PBM ends too early",
            b"P1 1 1 2": "PBM raster has a byte that is no digit",
        }
        for image, text in texts.items():
            with self.assertRaises(t85.Error) as caught:
                t85.encode_file(io.BytesIO(image), io.BytesIO())
            self.assertEqual(caught.exception.text, text)

    def test_cut_header(self):
        # A header means the same in pieces of any length: this comment has what looks like numbers.
        for image in (b"P4\n# 16 2 dots an inch\n8 1\n\xaa", b"P4#1 1 \r#2\n\t008#\r# 3 3\n 01#9\n\xaa"):
            for length in range(1, len(image) + 1):
                pieces = iter([image[at : at + length] for at in range(0, len(image), length)])
                reader = PageReader(lambda size: next(pieces, b""))
                self.assertEqual((reader.width, reader.height, [*reader.rows()]), (8, 1, [b"\xaa"]))
        for filler in (b" ", b"#"):
            image = b"P4\n" + b"#" * 4090 + b" 16 2 " + filler * 5000 + b"\n8 1\n\xaa"
            self.assertEqual(self.encoded(image), t85.encode(b"\xaa", 8, 1))

    def test_long_header(self):
        # The reader keeps no blank, comment or zero that it has read.
        for filler in (b" ", b"#", b"0", b"\n#\n"):
            last = b"8 1\n\xaa" if filler == b"0" else b"\n8 1\n\xaa"
            pieces = itertools.chain([b"P4 "], itertools.repeat(filler * 1000, 300), [last])
            tracemalloc.start()
            reader = PageReader(lambda size: next(pieces, b""))
            most = tracemalloc.get_traced_memory()[1]
            tracemalloc.stop()
            self.assertEqual((reader.width, reader.height, [*reader.rows()]), (8, 1, [b"\xaa"]))
            self.assertLess(most, 100_000)

    def test_no_image(self):
        # The errors of docs/PBM.md; nothing is written.
        images = {
            31: (b"P5 8 1 \xff", b"Q"),
            32: (b"P4 x", b"P4 8 1x\xff"),
            33: (b"P4 0 1\n", b"P4 1 0\n"),
            34: (b"P4 1048577 1\n",),
            35: (b"P4 1 4294967296 ",),
            36: (b"", b"P", b"P4", b"P4\n8 1", b"P4 8 " + b"0" * 200000),
        }
        for number, refused in images.items():
            for image in refused:
                with self.subTest(image=image[:9]):
                    error, written = self.fault(t85.encode_file, image)
                    self.assertEqual((error.number, written), (number, b""))
        error, written = self.fault(t85.encode_file, b"P1\n8 2\n11111111 0 2 000000", typical=False, stripe_rows=1)
        self.assertEqual((error.number, written), (38, head(8, 2, 1, 0, 0) + b"\xf0\xff\x02"))

    def test_texts_of_commands(self):
        # The texts of the errors that only a PBM has are those of the commands.
        with open(os.path.join(HERE, "../../docs/FORMAT.md")) as file:
            rows = [line.split(" | ") for line in file if re.match(r"\| 3[1258] ", line)]
        texts = {int(row[0].strip("| ")): row[2].strip(" |\n") for row in rows}
        self.assertEqual(sorted(texts), [31, 32, 35, 38])
        self.assertEqual({number: t85.Error(number).text for number in texts}, texts)

    def test_missing_rows(self):
        whole = t85.encode(ROWS, 416, 160, stripe_rows=20)
        for names in ({}, dict(announced_height=160), dict(announced_height=200)):
            error, written = self.fault(t85.encode_file, PBM[:-1], stripe_rows=20, **names)
            self.assertEqual((error.number, error.partial), (36, b""))
            if not names:
                self.assertTrue(whole.startswith(written))
                self.assertEqual([part.kind for part in itertools.islice(t85.parts(written), 8)], ["header", *["data entity"] * 7])

    def test_late_height(self):
        # More than is stored in memory.
        noise = random.Random(5).randbytes(1700000)
        stream = t85.encode(noise, 8000, 1700, announced_height=1800)
        self.assertGreater(len(stream), 3 << 19)
        self.assertEqual(self.decoded(stream), (b"P4\n8000 1700\n" + noise, 1700))
        self.assertEqual(self.fault(t85.decode_file, stream, max_rows=1699)[0].number, 24)
        for height, names in ((1 << 20, {}), (160, {}), (161, dict(stripe_rows=160)), (1 << 31, dict(stripe_rows=1))):
            with self.subTest(height=height, **names):
                stream = t85.encode(ROWS, 416, 160, announced_height=height, **names)
                self.assertEqual(self.decoded(stream), (PBM, 160))

    def test_broken(self):
        late = t85.encode(ROWS, 416, 160, announced_height=200, stripe_rows=20)
        for stream in (STREAM[:500], STREAM[:20], STREAM[:-1], late[:500], late[:20], STREAM[:400] + b"\xff\x04", STREAM[:19]):
            with self.subTest(length=len(stream)):
                with self.assertRaises(t85.Error) as caught:
                    t85.decode(stream)
                error, written = self.fault(t85.decode_file, stream)
                self.assertEqual((error.number, written), (caught.exception.number, caught.exception.partial))
                if len(stream) > 19:
                    self.assertEqual(error.partial.count * 52 + len(b"P4\n416 160\n"), len(written))

    def test_broken_heights(self):
        # Numbers of docs/EXAMPLES.md.
        front = head(1, 9, 1, 0, 0x20)
        streams = {
            47: (front + b"\xff\x05\0\0\0\x02\xc0\xff\x02\xff\x05", 15, b"P4\n1 2\n\x80"),
            48: (front + b"\xc0\xff\x02" * 2 + b"\xff\x05\0\0\0\x01\xff\x02", 14, b"P4\n1 9\n\x80\x80"),
            50: (front + b"\xc0\xff\x02" * 2 + b"\xff\x05\0\0\0\0\xff\x02", 14, b"P4\n1 9\n\x80\x80"),
        }
        for number, (stream, fault, image) in streams.items():
            with self.subTest(number=number):
                error, written = self.fault(t85.decode_file, stream)
                self.assertEqual((error.number, written), (fault, image))

    def test_turned(self):
        # Mutated and cut streams give the results of decode.
        dice = random.Random(7)
        late = t85.encode(ROWS, 416, 160, announced_height=200, stripe_rows=20, most_offset=127)
        for _ in range(600):
            stream = bytearray(dice.choice((STREAM, late)))
            for _ in range(dice.randrange(4)):
                stream[dice.randrange(8, len(stream))] ^= 1 << dice.randrange(8)
            stream = bytes(stream[: dice.choice((len(stream), dice.randrange(len(stream) + 1)))])
            names = dict(max_rows=dice.choice((None, 160, 1000)), max_bytes=1 << 16)
            try:
                wanted = 0, t85.decode(stream, **names)
            except t85.Error as error:
                wanted = error.number, error.partial
            image = io.BytesIO()
            try:
                t85.decode_file(io.BytesIO(stream) if dice.random() < 0.5 else Dribble(stream, 999), image, **names)
                found = 0, image.getvalue()
            except t85.Error as error:
                found = error.number, image.getvalue()
            # An image that announces too many bytes is rejected, whether or not its rows arrive.
            if found[0] != 18:
                self.assertEqual(found, wanted)
            else:
                self.assertEqual(found[1], b"")

    def test_limits(self):
        late = t85.encode(ROWS, 416, 160, announced_height=1 << 31)
        for stream in (STREAM, late):
            self.assertEqual(self.decoded(stream, max_rows=160), (PBM, 160))
            self.assertEqual(self.fault(t85.decode_file, stream, max_rows=159)[0].number, 24)
            self.assertEqual(self.decoded(stream, max_bytes=len(ROWS)), (PBM, 160))
            for most in (0, 1, len(ROWS) - 1):
                error, written = self.fault(t85.decode_file, stream, max_bytes=most)
                self.assertEqual((error.number, written), (18, b""))
                self.assertIn(f"max_bytes is {most}: give a greater max_bytes", str(error))
        error, written = self.fault(t85.decode_file, STREAM, max_rows=159)
        self.assertEqual((error.number, written), (24, b""))
        self.assertEqual(self.decoded(STREAM, max_rows=160, max_bytes=None), (PBM, 160))
        with self.assertRaises(OverflowError):
            t85.decode_file(io.BytesIO(STREAM), io.BytesIO(), max_rows=-1)

    def test_names(self):
        # An existing file is unchanged until the new one is complete; a target that is not a regular file is written in
        # place.
        name = self.path("there", b"kept")
        with self.assertRaises(t85.Error):
            t85.decode_file(self.path("from", STREAM[:500]), name)
        with open(name, "rb") as file:
            self.assertEqual(file.read(), b"kept")
        t85.encode_file(self.path("from", PBM), self.path("from"), most_offset=127)
        with open(self.path("from"), "rb") as file:
            self.assertEqual(file.read(), STREAM)
        self.assertEqual(sorted(os.listdir(self.folder)), ["from", "there"])
        t85.decode_file(self.path("from"), os.devnull)
        with self.assertRaises(FileNotFoundError):
            t85.decode_file(self.path("none"), self.path("to"))

    def piped(self, call, first, rest, most, **names):
        """Returns the output of a process, of which `most` bytes arrive before the rest of the source is written."""
        (from_source, to_call), (from_call, to_target) = os.pipe(), os.pipe()
        thread = threading.Thread(target=self.closing, args=(call, from_source, to_target), kwargs=names)
        thread.start()
        with os.fdopen(from_call, "rb") as target, os.fdopen(to_call, "wb", buffering=0) as source:
            source.write(first)
            # If they do not arrive, the source ends.
            timer = threading.Timer(60, source.close)
            timer.start()
            found = target.read(most)
            timer.cancel()
            source.write(rest)
            source.close()
            found += target.read()
        thread.join()
        return found

    def closing(self, call, source, target, **names):
        with os.fdopen(source, "rb") as file, os.fdopen(target, "wb", buffering=0) as output:
            call(file, output, **names)

    def test_pipes(self):
        # Certain bytes are written before more input arrives: the first of the page's two stripes, and its rows.
        first = list(itertools.islice(t85.parts(STREAM), 2))[1]
        end = first.offset + first.length
        cut = len(PBM) - 32 * 52
        self.assertEqual(self.piped(t85.encode_file, PBM[:cut], PBM[cut:], end, most_offset=127), STREAM)
        self.assertEqual(self.piped(t85.decode_file, STREAM[:end], STREAM[end:], cut), PBM)

    def poured(self, call, source, **names):
        """Returns the output of a process with this standard input, through a pipe, and the kilobytes that it took."""
        environment = {**os.environ, "PYTHONPATH": HERE}
        command = [sys.executable, "-c", POURED, call, repr(names)]
        ran = subprocess.run(command, env=environment, input=source, capture_output=True, timeout=300)
        self.assertEqual(ran.returncode, 0, ran.stderr)
        return ran.stdout, int(ran.stderr)

    # 54 MB of rows, through pipes, with a height in the header and a late one.
    MANY = 1 << 18
    HEIGHTS = ({}, dict(announced_height=1 << 19))

    def many_rows(self):
        return (bytes(100) + bytes(range(116))) * self.MANY

    def test_memory_to_encode(self):
        rows = self.many_rows()
        for names in self.HEIGHTS:
            stream, taken = self.poured("encode_file", b"P4\n1728 %d\n" % self.MANY + rows, **names)
            self.assertLess(taken, 4000)
            self.assertTrue(stream == t85.encode(rows, 1728, self.MANY, **names))

    def test_memory_to_decode(self):
        rows = self.many_rows()
        for names in self.HEIGHTS:
            image, taken = self.poured("decode_file", t85.encode(rows, 1728, self.MANY, **names))
            self.assertLess(taken, 4000)
            self.assertTrue(image == b"P4\n1728 %d\n" % self.MANY + rows)
