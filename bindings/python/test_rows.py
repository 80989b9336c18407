"""Tests rows that come one at a time, and buffers that another thread changes during a call.

    T85_LIBRARY=bin/libt85.so.1 python3 -m unittest discover bindings/python
"""
import copy
import itertools
import os
import pickle
import subprocess
import sys
import threading
import unittest

import t85
from samples import ROWS, STREAM, head
from test_many import HERE

# 22 bytes that denote 2^32 - 1 white rows.
TALL = head(8, (1 << 32) - 1, (1 << 32) - 1, 0, 8) + b"\xff\x02"


class OneAtATime(unittest.TestCase):
    def test_page(self):
        for size in (1, 40, 1 << 20):
            decoder, found = t85.Decoder(), []
            for at in range(0, len(STREAM), size):
                found += decoder.rows(STREAM[at : at + size])
            found += decoder.last_rows()
            self.assertEqual((b"".join(found), decoder.is_done, decoder.height), (ROWS, True, 160))

    def test_tall(self):
        # Whatever the number of rows, only one of them is in memory.
        script = (
            "import itertools, resource, sys, t85\n"
            "resource.setrlimit(resource.RLIMIT_AS, (1 << 28, 1 << 28))\n"
            "decoder = t85.Decoder()\n"
            "rows = decoder.rows(bytes.fromhex(sys.argv[1]))\n"
            "assert list(itertools.islice(rows, 200000)) == [b'\\0'] * 200000\n"
            "for call in (decoder.feed, decoder.rows):\n"
            "    try:\n"
            "        call(b'')\n"
            "    except RuntimeError:\n"
            "        continue\n"
            "    raise AssertionError\n"
            "try:\n"
            "    t85.Decoder(max_bytes=1 << 20).feed(bytes.fromhex(sys.argv[1]))\n"
            "except t85.Error as error:\n"
            "    assert (error.number, error.partial.count) == (18, (1 << 20) // 49), error\n"
        )
        ended = subprocess.run([sys.executable, "-c", script, TALL.hex()], env={**os.environ, "PYTHONPATH": HERE},
                               capture_output=True, text=True)
        self.assertEqual((ended.returncode, ended.stderr), (0, ""))

    def test_taken_first(self):
        # Until the rows of a call are taken, other calls are errors, and change nothing.
        decoder = t85.Decoder()
        rows = decoder.rows(STREAM)
        for call in (lambda: decoder.feed(b""), decoder.end, lambda: decoder.rows(b""), decoder.last_rows):
            self.assertRaises(RuntimeError, call)
        first = next(rows)
        self.assertRaises(RuntimeError, decoder.end)
        self.assertEqual(first + b"".join(rows), ROWS)
        self.assertEqual(decoder.end(), [])

    def test_broken(self):
        stream = head(8, 2, 128, 0, 0) + b"\xf0\0\0"
        decoder, found = t85.Decoder(), []
        with self.assertRaises(t85.Error) as raised:
            for row in decoder.rows(stream + b"\xff\x04"):
                found.append(row)
        self.assertEqual((found, raised.exception.number, raised.exception.partial.count), ([b"\xff"], 11, 0))
        with self.assertRaises(t85.Error) as raised:
            list(decoder.last_rows())
        self.assertEqual(raised.exception.number, 11)

    def test_lists(self):
        # A row of 52 bytes counts as 100.
        whole = len(ROWS) // 52 * 100
        for most, number in ((whole, 0), (whole - 1, 18), (0, 18), (None, 0)):
            decoder = t85.Decoder(max_bytes=most)
            if not number:
                self.assertEqual(b"".join(decoder.feed(STREAM)), ROWS)
                continue
            with self.assertRaises(t85.Error) as raised:
                decoder.feed(STREAM)
            partial = raised.exception.partial
            self.assertEqual((raised.exception.number, partial.data), (18, ROWS[: most // 100 * 52]))
            self.assertRaises(RuntimeError, decoder.end)


class Changed(unittest.TestCase):
    """Another thread makes a buffer longer and shorter while calls read it."""

    def resized(self, data, call):
        ended = threading.Event()

        def resize():
            for count in itertools.cycle((1, 1 << 12, 20, len(STREAM))):
                try:
                    if len(data) > count:
                        del data[count:]
                    else:
                        data.extend(STREAM[len(data) : count] + bytes(max(count - len(STREAM), 0)))
                except BufferError:
                    pass
                if ended.is_set():
                    return

        thread = threading.Thread(target=resize)
        interval = sys.getswitchinterval()
        sys.setswitchinterval(1e-6)
        thread.start()
        try:
            for _ in range(2000):
                try:
                    call(data)
                except (t85.Error, BufferError):
                    pass
        finally:
            ended.set()
            thread.join()
            sys.setswitchinterval(interval)

    def test_calls(self):
        calls = (
            t85.info, t85.header, t85.stream_length, lambda data: list(t85.parts(data)), lambda data: t85.decode(data, max_bytes=1 << 20),
            lambda data: t85.encode(data, 8, 20), lambda data: t85.encode(b"\0", 8, 1, comment=data),
            lambda data: t85.Decoder().feed(data),
        )
        for call in calls:
            self.resized(bytearray(STREAM), call)

    def test_one_view(self):
        # While the library reads a buffer, its length cannot change.
        data = bytearray(STREAM)
        lent, length = t85._lent(data)
        self.assertRaises(BufferError, data.clear)
        self.assertEqual((bytes(lent), length), (STREAM, len(STREAM)))
        del lent
        data.clear()


class Kept(unittest.TestCase):
    def test_broken_part(self):
        with self.assertRaises(t85.BrokenPart) as raised:
            list(t85.parts(STREAM[:-3]))
        error = raised.exception
        for again in (pickle.loads(pickle.dumps(error)), copy.copy(error), copy.deepcopy(error)):
            self.assertIs(type(again), t85.BrokenPart)
            self.assertEqual((again.number, again.offset, again.stripe, str(again)), (error.number, error.offset, error.stripe, str(error)))

    def test_rows_encoded(self):
        rows = t85.decode_rows(STREAM)
        self.assertEqual(t85.encode(rows, 416, 160, most_offset=127), STREAM)
        apart = t85.decode_rows(STREAM, stride=60)
        self.assertEqual(t85.encode(apart, 416, 160, most_offset=127), STREAM)
        self.assertEqual(t85.encode(apart, 416, 160, most_offset=127, best_offset=True), t85.encode(ROWS, 416, 160, most_offset=127, best_offset=True))
        self.assertRaises(ValueError, t85.encode, rows, 408, 160)
        with self.assertRaises(t85.Error) as raised:
            t85.encode(rows, 416, 161)
        self.assertEqual(raised.exception.number, 36)


if __name__ == "__main__":
    unittest.main()
