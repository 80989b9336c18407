"""Tests what happens to files that exist before the command for many files writes.

    T85_LIBRARY=bin/libt85.so.1 python3 -m unittest discover bindings/python
"""
import json
import os
import stat
import subprocess
import sys
import time
import unittest

from samples import PBM, STREAM
from test_many import HERE, Folder, read

import t85
from t85 import many

try:
    import PIL.Image as pillow
except ImportError:
    pillow = None


class Outputs(Folder):
    def mode(self, name):
        return stat.S_IMODE(os.stat(name).st_mode)

    def test_input_as_output(self):
        # An output that is an input, by whatever name, is refused before anything is opened.
        name = self.keep("x.jbg", PBM)
        os.link(name, self.path("y.pbm"))
        os.symlink(name, self.path("z.jbg"))
        os.mkdir(self.path("folder"))
        os.link(name, self.path("folder/a.jbg"))
        other = self.keep("z.pbm", PBM)
        for words in (["-o", self.folder, name], [name, self.path("y.pbm")], [other], ["-o", self.path("folder"), self.keep("a.pbm", PBM), name]):
            with self.subTest(words=words):
                if words == [other]:
                    words = [other, name]
                _, messages = self.ran("encode", "--again", *words, status=2)
                self.assertIn("is the input", messages)
                self.assertEqual(read(name), PBM)

    def test_input_as_output_of_a_job(self):
        name = self.keep("x.jbg", PBM)
        os.link(name, self.path("y.jbg"))
        outcome = many.Job("encode", again=True)(self.keep("y.pbm", PBM))
        self.assertEqual(outcome.state, many.DONE)
        os.unlink(self.path("y.jbg"))
        os.link(self.path("y.pbm"), self.path("y.jbg"))
        outcome = many.Job("encode", again=True)(self.path("y.pbm"))
        self.assertIn("replace its input", outcome.text)
        self.assertEqual((read(name), read(self.path("y.pbm"))), (PBM, PBM))

    def test_newer_output_of_another(self):
        # A newer file that is not made of the input is another's. It is replaced only on request.
        stream, page = self.keep("q.jbg", STREAM), self.keep("q.pbm", b"P4\n8 1\n\xff")
        _, messages = self.ran("decode", stream, status=1)
        self.assertIn("q.pbm exists", messages)
        self.assertEqual(read(page), b"P4\n8 1\n\xff")
        self.assertEqual(self.counts("decode", "--again", stream), (1, 0, 0))
        self.assertEqual(read(page), PBM)
        other = self.keep("q.jbg", t85.encode(b"\0", 8, 1))
        self.assertEqual(self.counts("encode", page, status=1), (0, 0, 1))
        self.assertEqual(read(other), t85.encode(b"\0", 8, 1))

    def test_older_output(self):
        page = self.keep("q.pbm", b"P4\n8 1\n\xff")
        time.sleep(0.01)
        self.assertEqual(self.counts("decode", self.keep("q.jbg", STREAM)), (1, 0, 0))
        self.assertEqual(read(page), PBM)

    def test_mode(self):
        page, stream = self.keep("a.pbm", PBM), self.path("a.jbg")
        for mode in (0o600, 0o640, 0o444, 0o755):
            self.keep("a.jbg", b"old")
            os.chmod(stream, mode)
            self.assertEqual(self.counts("encode", "--again", page), (1, 0, 0))
            self.assertEqual((self.mode(stream), t85.decode(read(stream))), (mode, PBM))
            os.chmod(stream, 0o600)

    @unittest.skipUnless(os.geteuid() == 0, "only root can change owners")
    def test_owner(self):
        page, stream = self.keep("a.pbm", PBM), self.keep("a.jbg", b"old")
        os.chown(stream, 1, 2)
        self.ran("encode", "--again", page)
        there = os.stat(stream)
        self.assertEqual((there.st_uid, there.st_gid, t85.decode(read(stream))), (1, 2, PBM))

    def test_links(self):
        # A symbolic link stays, and its target is replaced. A hard link is cut.
        page, target = self.keep("a.pbm", PBM), self.keep("there", b"old")
        os.symlink("there", self.path("a.jbg"))
        os.link(target, self.path("hard"))
        self.ran("encode", "--again", page)
        self.assertTrue(os.path.islink(self.path("a.jbg")))
        self.assertEqual((t85.decode(read(target)), read(self.path("hard"))), (PBM, b"old"))

    def test_special_output(self):
        # A pipe or a folder as output fails, and does not block.
        page = self.keep("a.pbm", PBM)
        os.mkfifo(self.path("a.jbg"))
        for words in ([], ["--again"]):
            _, messages = self.ran("encode", *words, page, status=1)
            self.assertIn("not a regular file", messages)
        os.mkdir(self.path("b.jbg"))
        _, messages = self.ran("encode", self.keep("b.pbm", PBM), status=1)
        self.assertIn("not a regular file", messages)

    def test_long_names(self):
        for length in (200, 231, 232, 240, 251):
            name = self.keep("x" * (length - 4) + ".pbm", PBM)
            self.assertEqual(self.counts("encode", name), (1, 0, 0))
            self.assertEqual(t85.decode(read(name[:-4] + ".jbg")), PBM)
        # The name is cut between bytes, which need not be between characters.
        name = self.keep("ä" * 120 + ".pbm", PBM)
        self.assertEqual(self.counts("encode", name), (1, 0, 0))

    def test_trees(self):
        os.makedirs(self.path("a/b"))
        names = [self.keep(name, PBM) for name in ("a/1.pbm", "a/b/1.pbm", "1.pbm")]
        self.assertIn("would both be written", self.ran("encode", "-o", self.path("out"), *names, status=2)[1])
        self.assertEqual(self.counts("encode", "-R", "-o", self.path("out"), *names), (3, 0, 0))
        for name in names:
            self.assertEqual(t85.decode(read(self.path("out") + name[:-4] + ".jbg")), PBM)
        self.assertEqual(self.counts("encode", "-R", "-o", self.path("out"), *names), (0, 3, 0))
        # No name leaves the folder.
        outcome = many.Job("encode", folder=self.path("out"), tree=True)(self.path("a/../1.pbm"))
        self.assertIn("..", outcome.text)
        self.ran("encode", "-R", names[0], status=2)

    def test_folder_of_a_job(self):
        outcome = many.Job("encode", folder=self.path("new/folder"))(self.keep("a.pbm", PBM))
        self.assertEqual((outcome.state, t85.decode(read(self.path("new/folder/a.jbg")))), (many.DONE, PBM))

    def test_full_output(self):
        name = self.keep("a.jbg", STREAM)
        words = [sys.executable, "-m", "t85", "info", "-q", name]
        environment = {**os.environ, "PYTHONPATH": HERE}
        with open("/dev/full", "wb") as full:
            ended = subprocess.run(words, env=environment, stdout=full, stderr=subprocess.PIPE, text=True)
        self.assertEqual((ended.returncode, ended.stderr), (1, "standard output: No space left on device\n"))
        reader, writer = os.pipe()
        os.close(reader)
        ended = subprocess.run(words, env=environment, stdout=writer, stderr=subprocess.PIPE, text=True)
        os.close(writer)
        self.assertEqual((ended.returncode, ended.stderr), (1, ""))

    def test_partial(self):
        # The rows that a broken stream determines become an image of that height.
        name, cut = self.keep("cut.jbg", STREAM[:500]), self.path("cut.pbm")
        self.assertEqual(self.counts("decode", name, status=1), (0, 0, 1))
        self.assertFalse(os.path.exists(cut))
        with self.assertRaises(t85.Error) as raised:
            t85.decode_rows(STREAM[:500])
        rows = raised.exception.partial
        self.assertTrue(0 < rows.count < 160)
        for words in ([], [], ["--again"]):
            _, messages = self.ran("decode", "--partial", *words, name, status=1)
            self.assertIn(f"input ends too early; {rows.count} rows were written\n", messages)
            self.assertEqual(read(cut), b"P4\n416 %d\n" % rows.count + PBM[11 : 11 + 52 * rows.count])
        # The option changes nothing for a whole stream, and no image is written for a stream without a row.
        self.assertEqual(self.counts("decode", "--partial", self.keep("a.jbg", STREAM)), (1, 0, 0))
        self.assertEqual(read(self.path("a.pbm")), PBM)
        for data in (STREAM[:20], STREAM[:10], b""):
            self.ran("decode", "--partial", self.keep("b.jbg", data), status=1)
            self.assertFalse(os.path.exists(self.path("b.pbm")))

    def test_stopped_is_reported(self):
        told = json.loads(self.ran("check", "-q", "--json", "-", self.keep("a.jbg", STREAM))[0])
        self.assertIs(told["stopped"], False)


@unittest.skipUnless(pillow, "Pillow is not installed")
class Pictures(Folder):
    def test_default_names(self):
        # Without a name, the picture is a new file, whose name is printed.
        stream, source = self.keep("scan.jbg", STREAM), self.keep("scan.png", b"the source")
        for number in (1, 2):
            self.assertEqual(self.ran("show", stream)[0], self.path(f"scan-{number}.png") + "\n")
            with pillow.open(self.path(f"scan-{number}.png")) as picture:
                self.assertEqual(picture.format, "PNG")
        self.assertEqual(read(source), b"the source")

    def test_stream_as_picture(self):
        stream = self.keep("scan.jbg", STREAM)
        os.link(stream, self.path("scan.png"))
        for name in (stream, self.path("scan.png")):
            self.ran("show", stream, name, status=2)
        self.assertEqual(read(stream), STREAM)


if __name__ == "__main__":
    unittest.main()
