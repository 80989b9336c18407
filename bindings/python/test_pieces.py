"""Tests of streams that arrive in pieces, and of images whose rows arrive one by one."""
import asyncio
import io
import itertools
import random
import unittest

import t85
from samples import LATE, ROWS, STREAM, WORKED, head, of_page


def in_pieces(stream, size):
    """Decodes a stream in pieces; returns the rows and the decoder."""
    decoder, rows = t85.Decoder(), []
    for at in range(0, len(stream), size):
        rows += decoder.feed(stream[at : at + size])
    return rows + decoder.end(), decoder


class Pieces(unittest.TestCase):
    def test_page(self):
        for size in (1, 40, 1500, 1 << 20):
            rows, decoder = in_pieces(STREAM, size)
            self.assertEqual(b"".join(rows), ROWS)
            self.assertEqual((decoder.height, decoder.is_done, decoder.header), (160, True, t85.header(STREAM)))

    def test_rows_as_they_come(self):
        with t85.Decoder() as decoder:
            self.assertEqual((decoder.feed(b""), decoder.header, decoder.height), ([], None, 0))
            self.assertEqual(decoder.feed(head(8, 2, 128, 0, 0) + b"\xf0"), [])
            self.assertEqual(decoder.header, t85.Header(8, 2, 128, 0, 0))
            self.assertEqual(decoder.feed(b"\0\0"), [b"\xff"])
            self.assertEqual(decoder.feed(b"\0"), [b"\x32"])
            self.assertFalse(decoder.is_done)
            self.assertEqual(decoder.feed(b"\xff\x02more"), [])
            self.assertEqual((decoder.is_done, decoder.unused), (True, b"more"))

    def test_late_height(self):
        stream = head(1, 9, 1, 0, 0x20) + b"\xc0\xff\x02\xff\x05\0\0\0\x02\xc0\xff\x02"
        rows, decoder = in_pieces(stream, 1)
        self.assertEqual((rows, decoder.height, decoder.certain), ([b"\x80", b"\x80"], 2, 2))
        # The header announces nine rows, of which an image has at least one. Then a height of two arrives.
        decoder = t85.Decoder()
        self.assertEqual(decoder.certain, 0)
        decoder.feed(stream[:23])
        self.assertEqual((decoder.height, decoder.certain), (9, 1))
        decoder.feed(stream[23:29])
        self.assertEqual((decoder.height, decoder.certain), (2, 2))

    def test_broken(self):
        stream = head(8, 2, 128, 0, 0) + b"\xf0\0\0"
        with self.assertRaises(t85.Error) as raised:
            in_pieces(stream + b"\xff\x04", 100)
        self.assertEqual((raised.exception.number, raised.exception.partial), (11, t85.Rows(8, 1, 1, b"\xff")))
        decoder = t85.Decoder()
        self.assertEqual(decoder.feed(stream), [b"\xff"])
        with self.assertRaises(t85.Error) as raised:
            decoder.end()
        self.assertEqual((raised.exception.number, raised.exception.partial.count), (9, 0))
        # Of two rows, one was returned; both belong to the image.
        self.assertEqual((decoder.height, decoder.certain), (2, 2))
        with self.assertRaises(t85.Error) as raised:
            t85.Decoder(max_rows=159).feed(STREAM)
        self.assertEqual(raised.exception.number, 24)

    def test_limit(self):
        # The header announces 2^32 - 1 rows. Two arrive, and then the height.
        stream = head(1, 0xFFFFFFFF, 1, 0, 0x20) + b"\xc0\xff\x02\xc0\xff\x02\xff\x05\0\0\0\x02\xff\x02"
        for size in range(1, len(stream) + 1):
            for limit in range(4):
                with self.subTest(size=size, limit=limit):
                    decoder, rows, number = t85.Decoder(max_rows=limit), [], 0
                    try:
                        for at in range(0, len(stream), size):
                            rows.extend(decoder.rows(stream[at : at + size]))
                        rows.extend(decoder.last_rows())
                    except t85.Error as error:
                        number = error.number
                    self.assertEqual((rows, number), ([b"\x80"] * min(limit, 2), 24 if limit < 2 else 0))

    def test_asyncio(self):
        # The example of docs/PYTHON.md.
        names = {"t85": t85}
        exec(of_page("    async def show_page"), names)

        async def pour():
            reader, shown = asyncio.StreamReader(), []
            page = asyncio.ensure_future(names["show_page"](reader, shown.append))
            for at in range(0, len(STREAM), 100):
                reader.feed_data(STREAM[at : at + 100])
                await asyncio.sleep(0)
            reader.feed_eof()
            return await page, shown

        height, shown = asyncio.run(pour())
        self.assertEqual((height, b"".join(row for rows in shown for row in rows)), (160, ROWS))
        self.assertGreater(sum(map(bool, shown)), 4)

    def test_parts(self):
        stream = head(1, 9, 1, 0, 0x20) + b"\xc0\xff\x02\xff\x05\0\0\0\x02\xc0\xff\x02"
        parts = [("header", 0, 20, 0), ("data entity", 20, 3, 0), ("new height", 23, 6, 1), ("data entity", 29, 3, 1)]
        self.assertEqual(list(t85.parts(stream + STREAM)), [t85.Part(*part) for part in parts])
        self.assertEqual(t85.stream_length(stream + STREAM), 32)
        with self.assertRaises(t85.BrokenPart) as raised:
            list(t85.parts(stream[:28]))
        self.assertEqual((raised.exception.number, raised.exception.offset, raised.exception.stripe), (9, 23, 1))


def row_by_row(rows, width, height, **names):
    """Encodes rows one by one, and returns the pieces of the stream."""
    encoder = t85.Encoder(width, height, **names)
    return [*map(encoder.row, rows), encoder.end()]


class RowByRow(unittest.TestCase):
    def refused(self, number, call, *words):
        with self.assertRaises(t85.Error) as caught:
            call(*words)
        self.assertEqual((caught.exception.number, caught.exception.partial), (number, b""))

    def test_worked(self):
        for number, (rows, width, names, stream) in WORKED.items():
            with self.subTest(number=number):
                self.assertEqual(b"".join(row_by_row(rows, width, len(rows), **names)), stream)
        for rows, names, stream in LATE:
            with self.subTest(**names):
                # The height is the greatest number of rows.
                for most in range(len(rows), names["announced_height"] + 1):
                    self.assertEqual(b"".join(row_by_row(rows, 1, most, **names)), stream)

    def test_page(self):
        rows = [ROWS[at : at + 52] for at in range(0, len(ROWS), 52)]
        self.assertEqual(b"".join(row_by_row(rows, 416, 160, most_offset=127)), STREAM)
        with t85.Encoder(416, 200, announced_height=200, stripe_rows=20, comment=bytearray(b"said")) as encoder:
            pieces = []
            for count, row in enumerate(rows):
                self.assertEqual((encoder.rows_left, encoder.is_done), (200 - count, False))
                pieces.append(encoder.row(memoryview(bytearray(row + b"more"))))
            self.assertTrue(pieces[0].startswith(head(416, 200, 20, 0, 0x28) + b"\xff\x07\0\0\0\x04said"))
            pieces.append(encoder.end())
            self.assertEqual((encoder.rows_left, encoder.is_done), (0, True))
        whole = t85.encode(ROWS, 416, 160, announced_height=200, stripe_rows=20, comment=b"said")
        self.assertEqual(b"".join(pieces), whole)

    def test_as_whole(self):
        noise = random.Random(2)
        for width, height, stripe_rows in ((1, 40, 1), (9, 33, 4), (300, 20, 7), (5000, 6, 128)):
            length = (width + 7) // 8
            rows = [noise.randbytes(length) if noise.random() < 0.7 else bytes(length) for _ in range(height)]
            for two_lines, typical, reset in itertools.product((False, True), repeat=3):
                names = dict(two_lines=two_lines, typical=typical, reset=reset, stripe_rows=stripe_rows, most_offset=127)
                with self.subTest(width=width, **names):
                    whole = t85.encode(b"".join(rows), width, height, **names)
                    self.assertEqual(b"".join(row_by_row(rows, width, height, **names)), whole)

    def test_two_at_once(self):
        encoders = [t85.Encoder(416, 160, most_offset=127) for _ in range(2)]
        found = [b"", b""]
        for at in range(0, len(ROWS), 52):
            for number, encoder in enumerate(encoders):
                found[number] += encoder.row(ROWS[at : at + 52])
        self.assertEqual([part + encoder.end() for part, encoder in zip(found, encoders)], [STREAM] * 2)

    def test_misused(self):
        encoder = t85.Encoder(9, 2)
        self.refused(36, encoder.end)
        first = encoder.row(b"\xa5\0")
        for short in (b"", b"\xff"):
            self.refused(55, encoder.row, short)
        self.refused(36, encoder.end)
        self.assertFalse(encoder.is_done)
        found = first + encoder.row(b"\x5a\x80")
        self.refused(54, encoder.row, b"\0\0")
        # A rejected call changes nothing.
        self.assertEqual(found + encoder.end(), t85.encode(b"\xa5\0\x5a\x80", 9, 2))
        self.refused(54, encoder.end)
        self.refused(54, encoder.row, b"\0\0")
        self.assertTrue(encoder.is_done)
        late = t85.Encoder(9, 2, announced_height=2)
        self.refused(36, late.end)
        with late:
            pass
        self.refused(19, late.row, b"\0\0")

    def test_offsets(self):
        # Two black rows in stripes of one row. The rule moves the adaptive pixel to 3 before the second.
        moved = b"\xff\x06\0\0\0\0\x03\0\xf8\xff\x02"
        streams = {
            (None, None): b"\xf0\xff\x02" + moved,
            (None, 3): b"\xf0\xff\x02" + moved,
            (None, 0): b"\xf0\xff\x02\xf4\xff\x02",
            (3, None): moved + b"\xf8\xff\x02",
        }
        for offsets, code in streams.items():
            with self.subTest(offsets=offsets):
                encoder = t85.Encoder(8, 2, typical=False, stripe_rows=1, most_offset=3)
                found = b""
                for offset in offsets:
                    if offset is not None:
                        encoder.offset(offset)
                    for wrong in (1, 2, 4, 255):
                        self.refused(22, encoder.offset, wrong)
                    found += encoder.row(b"\xff")
                self.refused(54, encoder.offset, 0)
                self.assertEqual(found + encoder.end(), head(8, 2, 1, 3, 0) + code)
                self.refused(54, encoder.offset, 0)
        encoder = t85.Encoder(8, 3, stripe_rows=2, most_offset=127)
        encoder.row(b"\xff")
        self.refused(56, encoder.offset, 0)
        encoder.row(b"\xff")
        encoder.offset(127)
        for wrong in (-1, 256):
            with self.assertRaises(OverflowError):
                encoder.offset(wrong)

    def test_best_offset(self):
        # A move costs 8 bytes, so the best offset for a black row is the nominal one.
        encoder = t85.Encoder(8, 3, typical=False, stripe_rows=1, most_offset=3)
        self.assertEqual(encoder.best_offset(b"\xff\xff"), 0)
        self.refused(36, encoder.best_offset, b"")
        with self.assertRaises(TypeError):
            encoder.best_offset("text")
        found = encoder.row(b"\xff")
        encoder.offset(encoder.best_offset(b"\xff"))
        found += encoder.row(b"\xff")
        self.assertEqual(found, head(8, 3, 1, 3, 0) + b"\xf0\xff\x02\xf4\xff\x02")
        encoder.row(b"\xff")
        self.refused(54, encoder.best_offset, b"\xff")
        encoder = t85.Encoder(8, 4, stripe_rows=2, most_offset=127)
        self.refused(36, encoder.best_offset, b"\xff")
        encoder.row(b"\xff")
        self.refused(56, encoder.best_offset, b"\xff\xff")
        self.assertEqual(t85.Encoder(8, 4, stripe_rows=2, announced_height=4).best_offset(b"\xff"), 0)

    def test_choice(self):
        # A black pixel in each four: 2,049 pixels are counted, which all equal the pixel 4 to their left.
        row = b"\x88" * 257
        choice = t85.Choice(2055, most_offset=4)
        choice.row(row)
        for wrong in (2, 5, 255):
            self.refused(22, choice.offset, wrong)
        for wrong in (-1, 256):
            with self.assertRaises(OverflowError):
                choice.offset(wrong)
        self.assertEqual(choice.offset(0), 4)
        # The next stripe has only a typical row.
        choice.row(row, bytearray(row))
        self.assertEqual(choice.offset(4), 4)
        self.refused(55, choice.row, row[1:])
        self.refused(55, choice.row, row, b"\0")
        with self.assertRaises(TypeError):
            choice.row("text")
        reset = t85.Choice(2055, most_offset=4, reset=True)
        self.assertEqual(reset.offset(4), 0)
        plain = t85.Choice(2054, most_offset=4, typical=False)
        for above in (b"", row):
            plain.row(row, above)
        self.assertEqual(plain.offset(0), 4)
        self.assertEqual(t85.Choice(2054, most_offset=4).offset(0), 0)
        self.refused(22, t85.Choice(8, most_offset=4, two_lines=True).offset, 4)
        for number, wrong in ((33, {"width": 0}), (34, {"width": (1 << 20) + 1}), (22, {"width": 8, "most_offset": 128})):
            self.refused(number, lambda wrong=wrong: t85.Choice(**wrong))

    def test_choice_encoded(self):
        for stripe_rows, reset in ((20, False), (20, True), (7, False)):
            names = {"most_offset": 127, "reset": reset}
            choice, encoder = t85.Choice(416, **names), t85.Encoder(416, 160, stripe_rows=stripe_rows, **names)
            offset, stream = 0, b""
            for y in range(160):
                at = 52 * y
                if y and y % stripe_rows == 0:
                    offset = choice.offset(offset)
                    encoder.offset(offset)
                top = y % stripe_rows == 0 if reset else y == 0
                choice.row(ROWS[at : at + 52], b"" if top else ROWS[at - 52 : at])
                stream += encoder.row(ROWS[at : at + 52])
            self.assertEqual(t85.decode_rows(stream + encoder.end()).data, ROWS)

    def test_best_encoded(self):
        rows = [ROWS[at : at + 52] for at in range(0, len(ROWS), 52)]
        for names in ({}, dict(two_lines=True), dict(reset=True, stripe_rows=20), dict(announced_height=200, comment=b"said")):
            with self.subTest(**names):
                best = t85.encode(ROWS, 416, 160, most_offset=127, best_offset=True, **names)
                self.assertEqual(t85.decode_rows(best).data, ROWS)
                self.assertLessEqual(len(best), len(t85.encode(ROWS, 416, 160, **names)))
                wide = b"".join(row + b"gap" for row in rows)
                again = t85.encode(wide, 416, 160, stride=55, most_offset=127, best_offset=True, **names)
                self.assertEqual(again, best)
        with self.assertRaises(t85.Error) as caught:
            t85.encode(ROWS[: 52 * 50 + 9], 416, 160, stripe_rows=20, most_offset=127, best_offset=True)
        whole = t85.encode(ROWS, 416, 160, stripe_rows=20, most_offset=127, best_offset=True)
        self.assertEqual(caught.exception.number, 36)
        self.assertTrue(whole.startswith(caught.exception.partial))
        self.assertEqual(caught.exception.partial.count(b"\xff\x02"), 2)
        for wrong in (dict(stride=1), dict(stripe_rows=0), dict(most_offset=128)):
            with self.assertRaises(t85.Error):
                t85.encode(ROWS, 416, 160, best_offset=True, **wrong)

    def test_refused(self):
        numbers = {
            33: dict(width=0), 34: dict(width=(1 << 20) + 1), 21: dict(stripe_rows=0), 22: dict(most_offset=128),
            23: dict(announced_height=159),
        }
        for number, changed in numbers.items():
            with self.subTest(number=number):
                self.refused(number, lambda: t85.Encoder(**{**dict(width=416, height=160), **changed}))
        self.refused(33, t85.Encoder, 416, 0)
        for words, names in (((-1, 1), {}), ((1, 1 << 32), {}), ((1, 1), dict(stripe_rows=-1))):
            with self.assertRaises(OverflowError):
                t85.Encoder(*words, **names)
        for wrong in ("text", 7, None):
            with self.assertRaises(TypeError):
                t85.Encoder(8, 1).row(wrong)

    def test_given_back(self):
        row, said = bytearray(52), bytearray(b"said")
        encoder = t85.Encoder(416, 2, comment=said)
        encoder.row(row)
        row.append(0)
        said.append(0)

    def test_scanner(self):
        # The example of docs/PYTHON.md.
        names = {"t85": t85}
        exec(of_page("    def scan("), names)
        sent = io.BytesIO()
        lines = (ROWS[at : at + 52] for at in range(0, len(ROWS), 52))
        self.assertEqual(names["scan"](lines, 416, sent.write), 160)
        self.assertEqual(sent.getvalue(), t85.encode(ROWS, 416, 160, announced_height=20000, most_offset=127))
