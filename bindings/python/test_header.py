"""Tests of the calls that read or change a header, abort a stream, or consume the end of one."""
import mmap
import unittest

import t85
from samples import head

# Two stripes of one black pixel, of nine rows that the header announces; and the height behind them, with its empty entity.
FRONT = head(1, 9, 1, 0, 0x20) + b"\xc0\xff\x02\xc0\xff\x02"
BEHIND = b"\xff\x05\0\0\0\x02\xff\x02"


class Headers(unittest.TestCase):
    def refused(self, number, call, *words, **names):
        with self.assertRaises(t85.Error) as caught:
            call(*words, **names)
        self.assertEqual(caught.exception.number, number)

    def test_raw_header(self):
        fields = t85.raw_header(bytes(range(20)))
        self.assertEqual((fields.width, fields.height, fields.stripe_rows), (0x04050607, 0x08090A0B, 0x0C0D0E0F))
        self.assertEqual((fields.first_layer, fields.last_layer, fields.planes, fields.fill), (0, 1, 2, 3))
        self.assertEqual((fields.most_offset, fields.most_vertical_offset), (0x10, 0x11))
        self.assertEqual((fields.order, fields.options), (0x12, 0x13))
        self.assertEqual(t85.raw_header(bytearray(range(30))), fields)
        for short in (b"", bytes(range(19))):
            self.refused(1, t85.raw_header, short)
        with self.assertRaises(TypeError):
            t85.raw_header("text")

    def test_unused_fields(self):
        stream = bytearray(head(8, 1, 1, 0, 8) + b"\xff\x02")
        t85.set_unused_fields(stream, my=5, order=15, options=0xFB)
        self.assertEqual(stream, head(8, 1, 1, 0, 8)[:17] + b"\x05\x0f\x18\xff\x02")
        self.assertEqual(t85.decode_rows(stream).data, b"\0")
        before = bytes(stream)
        self.refused(2, t85.set_unused_fields, stream, my=1, order=16, options=0)
        for names in ({"my": 256}, {"order": -1}, {"options": 256}):
            with self.assertRaises(OverflowError):
                t85.set_unused_fields(stream, **{"my": 0, "order": 0, "options": 0, **names})
        self.assertEqual(stream, before)
        table = bytearray(head(8, 1, 1, 0, 2) + b"\xff\x02")
        self.refused(8, t85.set_unused_fields, table, my=0, order=0, options=4)
        self.refused(1, t85.set_unused_fields, bytearray(19), my=0, order=0, options=0)
        self.refused(1, t85.set_unused_fields, bytearray(), my=0, order=0, options=0)
        with self.assertRaises((TypeError, BufferError)):
            t85.set_unused_fields(before, my=0, order=0, options=0)

    def test_height(self):
        stream = bytearray(FRONT + BEHIND)
        t85.set_height(stream)
        self.assertEqual(stream, head(1, 2, 1, 0, 0x20) + (FRONT + BEHIND)[20:])
        self.assertEqual(t85.decode_rows(stream).data, b"\x80\x80")
        short = bytearray(FRONT)
        t85.set_height(short)
        self.assertEqual(short, FRONT)
        with mmap.mmap(-1, 19) as mapped:
            self.refused(1, t85.set_height, mapped)

    def test_abort(self):
        encoder = t85.Encoder(8, 2)
        self.assertEqual(encoder.abort(), head(8, 2, 128, 0, 8) + b"\xff\x04")
        self.assertFalse(encoder.is_done)
        for call in (encoder.abort, encoder.end, lambda: encoder.row(b"\0")):
            self.refused(54, call)
        encoder = t85.Encoder(8, 2, stripe_rows=1)
        stream = encoder.row(b"\0") + encoder.abort()
        self.assertEqual(stream[-2:], b"\xff\x04")
        with self.assertRaises(t85.Error) as caught:
            t85.decode_rows(stream)
        self.assertEqual((caught.exception.number, caught.exception.partial.data), (11, b"\0"))
        encoder = t85.Encoder(8, 1)
        whole = encoder.row(b"\0") + encoder.end()
        self.refused(54, encoder.abort)
        self.assertEqual(t85.decode_rows(whole).data, b"\0")

    def test_rest(self):
        decoder = t85.Decoder()
        self.refused(53, decoder.rest, BEHIND)
        # The height behind the two stripes ends the image. The empty stripe data entity is not consumed.
        rows = decoder.feed(FRONT + BEHIND + b"more")
        self.assertEqual((rows, decoder.is_done, decoder.unused), ([b"\x80", b"\x80"], True, b"\xff\x02more"))
        self.assertTrue(decoder.rest(decoder.unused))
        self.assertEqual((decoder.unused, decoder.height), (b"more", 2))
        self.assertTrue(decoder.rest(b"more"))
        self.assertEqual(decoder.unused, b"more")

    def test_rest_in_pieces(self):
        decoder = t85.Decoder()
        decoder.feed(FRONT + BEHIND[:6])
        self.assertTrue(decoder.is_done)
        self.assertEqual(decoder.unused, b"")
        self.assertFalse(decoder.rest(b""))
        # A byte FF may begin something else, so it is left.
        self.assertFalse(decoder.rest(b"\xff"))
        self.assertEqual(decoder.unused, b"\xff")
        self.assertTrue(decoder.rest(b"\xff\x02more"))
        self.assertEqual(decoder.unused, b"more")
        decoder = t85.Decoder()
        decoder.feed(FRONT + BEHIND[:6])
        self.assertTrue(decoder.rest(b"\xff\x04"))
        self.assertEqual(decoder.unused, b"\xff\x04")

    def test_rest_of_broken(self):
        decoder = t85.Decoder()
        self.refused(11, decoder.feed, head(8, 1, 1, 0, 0) + b"\xff\x04")
        self.refused(11, decoder.rest, b"\xff\x02")


if __name__ == "__main__":
    unittest.main()
