"""Tests of the module t85, with the page in examples/ and examples that docs/EXAMPLES.md works by hand.

    T85_LIBRARY=bin/libt85.so.1 python3 -m unittest discover bindings/python
"""
import mmap
import os
import pickle
import random
import subprocess
import sys
import threading
import tracemalloc
import unittest
from unittest import mock

import t85
from samples import HERE, PBM, ROWS, STREAM, head


class Whole(unittest.TestCase):
    def test_page(self):
        self.assertEqual(t85.encode(ROWS, 416, 160, most_offset=127), STREAM)
        self.assertEqual(t85.decode(STREAM), PBM)
        self.assertEqual(t85.decode_rows(STREAM), t85.Rows(416, 160, 52, ROWS))
        self.assertEqual(t85.header(STREAM), t85.Header(416, 160, 128, 127, 8))
        self.assertEqual(t85.info(STREAM), t85.Summary(416, 160, 128, 127, 8, 160, 2, 0, 0))

    def test_worked(self):
        # Numbers of docs/EXAMPLES.md.
        images = {
            20: (head(8, 1, 128, 0, 0) + b"\xf0\xff\x02", b"P4\n8 1\n\xff"),
            22: (head(2, 1, 128, 0, 0) + b"\xff\x02", b"P4\n2 1\n\x40"),
            24: (head(2, 3, 128, 0, 0x40) + b"\xf8\xff\x02", b"P4\n2 3\n\xc0\xc0\xc0"),
            30: (head(8, 2, 128, 0, 0) + b"\xf0\xff\x02", b"P4\n8 2\n\xff\x32"),
        }
        for number, (stream, image) in images.items():
            with self.subTest(number=number):
                self.assertEqual(t85.decode(stream), image)
        summary = t85.info(head(8, 1, 128, 0, 8) + b"\xff\x07\0\0\0\x02hi\xff\x02")
        self.assertEqual((summary.entities, summary.moves, summary.comments), (1, 0, 1))

    def test_options(self):
        for two_lines in (False, True):
            for typical in (False, True):
                for reset in (False, True):
                    options = dict(two_lines=two_lines, typical=typical, reset=reset, stripe_rows=7, most_offset=20)
                    stream = t85.encode(ROWS, 416, 160, comment=b"hi", **options)
                    self.assertEqual(t85.header(stream).options, 0x40 * two_lines + 8 * typical)
                    self.assertEqual(t85.info(stream).comments, 1)
                    self.assertEqual(t85.info(stream).entities, 23)
                    self.assertEqual(t85.decode(stream), PBM)

    def test_late_height(self):
        stream = t85.encode(ROWS, 416, 160, announced_height=2200)
        self.assertEqual((t85.header(stream).height, t85.info(stream).image_height), (2200, 160))
        self.assertEqual(t85.header(stream).options, 0x28)
        self.assertEqual(t85.decode(stream), PBM)
        self.assertEqual(t85.decode_rows(stream).count, 160)
        self.assertEqual(t85.header(t85.encode(ROWS, 416, 160, variable_height=True)).options, 0x28)

    def test_strides(self):
        wide = b"".join(ROWS[y * 52 : y * 52 + 52] + b"gap" for y in range(160))
        self.assertEqual(t85.encode(wide, 416, 160, stride=55, most_offset=127), STREAM)
        found = t85.decode_rows(STREAM, stride=55)
        self.assertEqual(found.data, wide.replace(b"gap", b"\0\0\0")[:-3])

    def test_into(self):
        rows = bytearray(b"\xa5" * (len(ROWS) + 3))
        self.assertEqual(t85.decode_into(STREAM, rows), 160)
        self.assertEqual(rows, ROWS + b"\xa5" * 3)
        for stream, room, number in ((STREAM, len(ROWS) - 1, 18), (STREAM[:500], len(ROWS), 9)):
            rows = bytearray(b"\xa5" * room)
            with self.assertRaises(t85.Error) as caught:
                t85.decode_into(stream, rows)
            found = caught.exception.partial
            self.assertEqual((caught.exception.number, found.data), (number, b""))
            self.assertTrue(0 < found.count < 160)
            self.assertEqual(rows[: 52 * found.count], ROWS[: 52 * found.count])
            self.assertEqual(rows[52 * found.count :], b"\xa5" * (room - 52 * found.count))
        for wrong in (ROWS, "text"):
            with self.assertRaises(TypeError):
                t85.decode_into(STREAM, wrong)
        rows = bytearray(len(ROWS))
        t85.decode_into(STREAM, rows)
        rows.append(0)

    def test_large(self):
        noise = (bytes(range(256)) * 1000)[: 200 * 1000]
        self.assertEqual(t85.decode(t85.encode(noise, 1600, 1000)), b"P4\n1600 1000\n" + noise)
        self.assertEqual(len(t85.encode(b"\0" * 8, 8, 8, comment=b"x" * 200000)) > 200000, True)

    def test_version(self):
        self.assertEqual(t85.version(), (1, 0, 0))


class Counted:
    """Replaces the library, and counts the calls of each function."""

    def __init__(self, library):
        self.library, self.counts = library, {}

    def __getattr__(self, name):
        def call(*words):
            self.counts[name] = self.counts.get(name, 0) + 1
            return getattr(self.library, name)(*words)

        return call


class Once(unittest.TestCase):
    """Each image is encoded by one call of the library, and decoded by one."""

    SIZE = 1728, 2200

    def setUp(self):
        self.counted = Counted(t85._LIBRARY)
        patch = mock.patch.object(t85, "_LIBRARY", self.counted)
        patch.start()
        self.addCleanup(patch.stop)

    def counting(self, name, call, *words, **names):
        """Returns the result of a call of the module, which calls the library's function of this name once."""
        self.counted.counts = {}
        try:
            return call(*words, **names)
        except t85.Error as error:
            return error.partial
        finally:
            self.assertEqual(self.counted.counts.get(name), 1, name)

    def both_ways(self, rows, width, height, **names):
        stream = self.counting("t85_encode", t85.encode, rows, width, height, **names)
        image = self.counting("t85_decode", t85.decode, stream)
        self.assertTrue(image == b"P4\n%d %d\n" % (width, height) + rows)
        self.assertTrue(self.counting("t85_decode_rows", t85.decode_rows, stream).data == rows)
        return stream

    def test_pages(self):
        width, height = self.SIZE
        text = b"".join(ROWS[y % 160 * 52 :][:52] * 4 + bytes(8) for y in range(height))
        noise = random.Random(1).randbytes(216 * height)
        for name, rows in {"text": text, "noise": noise, "white": bytes(216 * height)}.items():
            for names in ({}, dict(most_offset=127, two_lines=True, stripe_rows=1), dict(announced_height=1 << 20)):
                with self.subTest(page=name, **names):
                    stream = self.both_ways(rows, width, height, **names)
                    for count in (20, len(stream) // 2, len(stream) - 1):
                        self.counting("t85_decode", t85.decode, stream[:count])
                        self.counting("t85_decode_rows", t85.decode_rows, stream[:count])

    def test_small(self):
        for width in (1, 3, 8, 9, 64):
            row, noise = (width + 7) // 8, random.Random(width)
            rows = b"".join(
                (noise.getrandbits(width) << 8 * row - width).to_bytes(row, "big") for _ in range(2000)
            )
            for stripe_rows in (1, 2, 128):
                with self.subTest(width=width, stripe_rows=stripe_rows):
                    self.both_ways(rows, width, 2000, stripe_rows=stripe_rows, reset=True, most_offset=127)

    def test_comment(self):
        self.both_ways(bytes(8), 8, 8, comment=b"x" * 200000)

    def test_little_rows(self):
        # Missing rows need no buffer.
        self.counting("t85_encode", t85.encode, b"", 1 << 20, (1 << 32) - 1, stripe_rows=1)

    def test_room_grows(self):
        noise = random.Random(1).randbytes(216 * 100)
        stream = t85.encode(noise, 1728, 100)
        with mock.patch.object(t85, "_likely_room", return_value=16):
            self.assertTrue(t85.encode(noise, 1728, 100) == stream)
        self.assertGreater(self.counted.counts["t85_encode"], 5)
        with self.assertRaises(t85.Error) as whole:
            t85.decode(stream[:-1])
        with mock.patch.object(t85, "_FIRST_ROOM", 16), self.assertRaises(t85.Error) as grown:
            t85.decode(stream[:-1])
        self.assertEqual((grown.exception.number, grown.exception.partial), (9, whole.exception.partial))


# Decodes a stream with 64 MiB beyond the memory of Python and the module, and prints the result.
LIMITED = """
import resource, sys, t85

with open("/proc/self/statm") as file:
    pages = int(file.read().split()[0])
most = pages * resource.getpagesize() + (64 << 20)
resource.setrlimit(resource.RLIMIT_AS, (most, most))
stream = bytes.fromhex(sys.argv[1])
for call in (t85.decode, t85.decode_rows):
    try:
        call(stream)
        print("decoded")
    except t85.Error as error:
        print(error)
"""


class Hostile(unittest.TestCase):
    """Streams of a few bytes that contain, or announce, very large images."""

    TALL = (1 << 32) - 1

    def limited(self, stream):
        """Returns the results of decode and decode_rows for a stream, in a process with little memory."""
        environment = {**os.environ, "PYTHONPATH": HERE}
        command = [sys.executable, "-c", LIMITED, stream.hex()]
        ran = subprocess.run(command, env=environment, capture_output=True, text=True, timeout=300)
        self.assertEqual((ran.stderr, ran.returncode), ("", 0))
        return ran.stdout.splitlines()

    def test_truncated(self):
        for width in (1, 1728, 1 << 20):
            for options in (0, 0x08, 0x48, 0x28):
                with self.subTest(width=width, options=options):
                    stream = head(width, self.TALL, 128, 0, options)
                    self.assertEqual(self.limited(stream), ["input ends too early (9)"] * 2)

    def test_whole(self):
        for width in (1, 1728, 1 << 20):
            with self.subTest(width=width):
                stream = head(width, self.TALL, self.TALL, 0, 8) + b"\xff\x02"
                bytes_needed = (width + 7) // 8 * self.TALL
                text = f"rows take {bytes_needed} bytes, and max_bytes is 1073741824: "
                text += "give a greater max_bytes, or max_bytes=None for no limit (18)"
                self.assertEqual(self.limited(stream), [text] * 2)

    def test_memory_grows_with_rows(self):
        # A header that announces the greatest number of rows, before the truncated code of a few.
        stream = head(416, self.TALL, self.TALL, 127, 8) + STREAM[20:-200]
        for first in (1 << 10, 1 << 23):
            with self.subTest(first=first), mock.patch.object(t85, "_FIRST_ROOM", first):
                tracemalloc.start()
                try:
                    with self.assertRaises(t85.Error) as caught:
                        t85.decode_rows(stream)
                    taken = tracemalloc.get_traced_memory()[1]
                finally:
                    tracemalloc.stop()
                rows = caught.exception.partial
                self.assertGreater(rows.count, 10)
                self.assertLess(taken, first + 3 * len(rows.data) + 20000)


class Limits(unittest.TestCase):
    def refused(self, call, *words, **names):
        with self.assertRaises(t85.Error) as caught:
            call(*words, **names)
        self.assertEqual((caught.exception.number, caught.exception.partial), (18, b""))
        for said in (f"max_bytes is {names['max_bytes']}: give a greater max_bytes", "max_bytes=None for no limit"):
            self.assertIn(said, str(caught.exception))

    def test_whole(self):
        self.assertEqual(t85.MAX_BYTES, 1 << 30)
        late = t85.encode(ROWS, 416, 160, announced_height=1 << 31)
        for stream in (STREAM, late):
            for most in (len(ROWS), None):
                self.assertEqual(t85.decode(stream, max_bytes=most), PBM)
                self.assertEqual(t85.decode_rows(stream, max_bytes=most).data, ROWS)
            for most in (0, 1, len(ROWS) - 1):
                self.refused(t85.decode, stream, max_bytes=most)
                self.refused(t85.decode_rows, stream, max_bytes=most)
        spread = 159 * 55 + 52
        self.assertEqual(len(t85.decode_rows(STREAM, stride=55, max_bytes=spread).data), spread)
        self.refused(t85.decode_rows, STREAM, stride=55, max_bytes=spread - 1)
        self.refused(t85.decode_rows, STREAM, stride=1 << 62, max_bytes=1 << 30)

    def test_broken(self):
        broken = STREAM[:500]
        with self.assertRaises(t85.Error) as caught:
            t85.decode_rows(broken)
        rows = caught.exception.partial
        self.assertTrue(0 < rows.count < 160)
        for call in (t85.decode, t85.decode_rows):
            with self.assertRaises(t85.Error) as again:
                call(broken, max_bytes=len(rows.data))
            self.assertEqual(again.exception.number, 9)
            self.refused(call, broken, max_bytes=len(rows.data) - 1)

    def test_other_faults_first(self):
        for call, names, number in (
            (t85.decode, dict(max_rows=159), 24),
            (t85.decode_rows, dict(max_rows=159), 24),
            (t85.decode_rows, dict(stride=51), 51),
        ):
            with self.assertRaises(t85.Error) as caught:
                call(STREAM, max_bytes=0, **names)
            self.assertEqual(caught.exception.number, number)
        with self.assertRaises(OverflowError):
            t85.decode(STREAM, max_bytes=-1)


class Buffers(unittest.TestCase):
    def test_kinds(self):
        with mmap.mmap(-1, len(STREAM)) as mapped:
            mapped[:] = STREAM
            spread = memoryview(b"".join(bytes([byte, 0]) for byte in STREAM))[::2]
            for stream in (bytearray(STREAM), memoryview(STREAM), memoryview(bytearray(STREAM)), spread, mapped):
                self.assertEqual(t85.decode(stream), PBM)
                self.assertEqual(t85.info(stream).entities, 2)

    def test_given_back(self):
        stream, rows = bytearray(STREAM), bytearray(ROWS)
        t85.decode(stream)
        t85.encode(rows, 416, 160)
        stream.append(0)
        rows.append(0)

    def test_empty(self):
        for nothing in (b"", bytearray(), memoryview(b""), memoryview(bytearray())):
            with self.assertRaises(t85.Error) as caught:
                t85.info(nothing)
            self.assertEqual(caught.exception.number, 1)
            self.assertEqual(t85.info(t85.encode(ROWS, 416, 160, comment=nothing)).comments, 1)

    def test_no_buffer(self):
        for wrong in ("text", 7, None):
            with self.assertRaises(TypeError):
                t85.decode(wrong)

    def test_threads(self):
        found = []
        threads = [threading.Thread(target=lambda: found.append(t85.decode(STREAM))) for _ in range(8)]
        for thread in threads:
            thread.start()
        for thread in threads:
            thread.join()
        self.assertEqual(found, [PBM] * 8)


class Faults(unittest.TestCase):
    def fault(self, call, *words, **names):
        with self.assertRaises(t85.Error) as caught:
            call(*words, **names)
        return caught.exception

    def test_cut(self):
        for call in (t85.header, t85.info, t85.decode, t85.decode_rows):
            error = self.fault(call, STREAM[:19])
            self.assertEqual((error.number, error.text), (1, "header is shorter than 20 bytes"))
        for count in (20, 21, 100, 500, len(STREAM) - 1):
            error = self.fault(t85.decode, STREAM[:count])
            self.assertEqual((error.number, error.text), (9, "input ends too early"))
            self.assertTrue(PBM.startswith(error.partial) and error.partial.startswith(b"P4\n416 160\n"))
            rows = self.fault(t85.decode_rows, STREAM[:count]).partial
            self.assertEqual(error.partial, b"P4\n416 160\n" + rows.data)
            self.assertEqual(len(rows.data), 52 * rows.count)

    def test_worked(self):
        # Numbers of docs/EXAMPLES.md.
        faults = {
            32: (head(8, 2, 128, 0, 0) + b"\xf0\0\0", b"\xff", 9),
            34: (head(8, 2, 128, 0, 0) + b"\xf0\0\0\xff\x04", b"\xff", 11),
            35: (head(8, 2, 128, 0, 0) + b"\xf0\0\0\xff\x05", b"\xff", 10),
            37: (head(8, 1, 128, 3, 0) + b"\xff\x06\0\0\0\0\x04\0\xf0\xff\x02", b"", 12),
            38: (head(1, 1, 128, 0, 0) + b"\xff\x05\0\0\0\x01\xc0\xff\x02", b"", 14),
        }
        for number, (stream, rows, fault) in faults.items():
            with self.subTest(number=number):
                error = self.fault(t85.decode_rows, stream)
                self.assertEqual((error.number, error.partial.data), (fault, rows))
        for number, stream in {12: b"\1\1\2\1" + b"\0" * 16, 14: head((1 << 20) + 1, 1, 128, 0, 0)}.items():
            self.assertEqual(self.fault(t85.info, stream).number, {12: 2, 14: 6}[number])

    def test_most_rows(self):
        self.assertEqual(t85.decode(STREAM, max_rows=160), PBM)
        self.assertEqual(self.fault(t85.decode, STREAM, max_rows=159).number, 24)
        self.assertEqual(self.fault(t85.decode_rows, STREAM, max_rows=0).number, 24)
        tall = head(1 << 20, (1 << 32) - 1, 128, 0, 8) + b"\xff\x02"
        self.assertEqual(self.fault(t85.decode, tall, max_rows=100000).number, 24)

    def test_tall(self):
        # An error that is found before the buffer that the header implies is allocated.
        self.assertEqual(self.fault(t85.decode, head(1 << 20, (1 << 32) - 1, 128, 0, 8)).number, 9)

    def test_encoder(self):
        numbers = {
            33: dict(width=0), 34: dict(width=(1 << 20) + 1, stride=1 << 20), 21: dict(stripe_rows=0),
            22: dict(most_offset=128), 23: dict(announced_height=159), 51: dict(stride=51), 36: dict(rows=ROWS[:-1]),
        }
        for number, changed in numbers.items():
            with self.subTest(number=number):
                error = self.fault(t85.encode, **{**dict(rows=ROWS, width=416, height=160), **changed})
                self.assertEqual(error.number, number)
                self.assertEqual(error.partial != b"", number == 36)
        self.assertEqual(self.fault(t85.decode_rows, STREAM, stride=51).number, 51)

    def test_numbers_out_of_range(self):
        for names in (dict(stripe_rows=-1), dict(most_offset=1 << 32), dict(announced_height=-1), dict(stride=-1)):
            with self.assertRaises(OverflowError):
                t85.encode(ROWS, 416, 160, **names)
        with self.assertRaises(OverflowError):
            t85.encode(ROWS, 1 << 32, 160)
        with self.assertRaises(OverflowError):
            t85.decode(STREAM, max_rows=-1)

    def test_error(self):
        error = self.fault(t85.decode, STREAM[:500])
        self.assertIsInstance(error, ValueError)
        self.assertEqual(str(error), "input ends too early (9)")
        again = pickle.loads(pickle.dumps(error))
        self.assertEqual((again.number, again.text, again.partial), (error.number, error.text, error.partial))
        error = self.fault(t85.decode, STREAM, max_bytes=0)
        self.assertEqual(str(pickle.loads(pickle.dumps(error))), str(error))


if __name__ == "__main__":
    unittest.main()
