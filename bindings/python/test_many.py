"""Tests the command for many files: written, skipped and failed files, with the page in examples/ and examples of
docs/PBM.md.

    T85_LIBRARY=bin/libt85.so.1 python3 -m unittest discover bindings/python
"""
import contextlib
import io
import json
import os
import random
import signal
import subprocess
import sys
import tempfile
import time
import unittest
from unittest import mock

import t85
from t85 import __main__ as command
from t85 import _files, many
from t85._pbm import read_page

HERE = os.path.dirname(os.path.abspath(__file__))
EXAMPLES = os.path.join(HERE, "../../examples")


def read(path):
    with open(path, "rb") as file:
        return file.read()


PBM, STREAM = read(os.path.join(EXAMPLES, "letter.pbm")), read(os.path.join(EXAMPLES, "letter.jbg"))
# Rows of docs/PBM.md, and of its table of inputs.
PAGES = {
    b"P4\n#x\n3 2\n\xff\xff": (3, 2, b"\xff\xff"),
    b"P4 008 01#c\n\x55": (8, 1, b"\x55"),
    b"P1\n3 2\n1 1 1\n111\n": (3, 2, b"\xe0\xe0"),
    b"P1 1 1 1": (1, 1, b"\x80"),
    b"P1 1 1#1\n0": (1, 1, b"\0"),
}
# Inputs of the same table, each with the number of its error, and pages whose rows are missing.
NO_PAGES = {
    31: [b"Q", b"P5", b"P4x"],
    32: [b"P4 x", b"P4 1x", b"P4 -1 1 ", b"P4 1048577x", b"P4 8 1x\xff"],
    33: [b"P4\n0 1\n", b"P4 1 0 ", b"P4 0#"],
    34: [b"P4\n1048577 1\n", b"P4 1048577#"],
    35: [b"P4 1 4294967296 ", b"P4 1 4294967296000#"],
    36: [b"", b"P", b"P4", b"P4 1", b"P1 1 11", b"P4 1048577", b"P4#", b"P4\n8 1\n", b"P1\n8 1\n1111111"],
    38: [b"P1\n1 1\n#", b"P1 1 1 2"],
}


class Folder(unittest.TestCase):
    def setUp(self):
        folder = tempfile.TemporaryDirectory()
        self.addCleanup(folder.cleanup)
        self.folder = folder.name

    def path(self, name):
        return os.path.join(self.folder, name)

    def keep(self, name, data):
        with open(self.path(name), "wb") as file:
            file.write(data)
        return self.path(name)

    def ran(self, *words, status=0):
        """Returns the command's standard output and standard error."""
        output, messages = io.StringIO(), io.StringIO()
        with contextlib.redirect_stdout(output), contextlib.redirect_stderr(messages):
            try:
                found = command.main([*words])
            except SystemExit as ended:
                found = ended.code
        self.assertEqual(found, status, messages.getvalue())
        return output.getvalue(), messages.getvalue()

    def counts(self, *words, status=0):
        """Returns how many files were done, skipped and failed."""
        told = json.loads(self.ran(*words, "--json", "-", status=status)[0])
        return told["done"], told["skipped"], told["failed"]


class Pages(Folder):
    def test_pages(self):
        for data, (width, height, rows) in PAGES.items():
            with self.subTest(data=data):
                page = read_page(data)
                self.assertEqual((page.width, page.height, page.rows.tobytes()), (width, height, rows))

    def test_refused(self):
        for number, texts in NO_PAGES.items():
            for data in texts:
                with self.subTest(data=data):
                    name = self.keep("page.pbm", data)
                    outcome = many.Job("encode")(name)
                    self.assertEqual((outcome.state, outcome.number), (many.FAILED, number))
                    self.assertEqual(os.listdir(self.folder), ["page.pbm"])


class Commands(Folder):
    def pages(self, count):
        """Pages of many sizes, and their names."""
        bits, names = random.Random(4), []
        for number in range(count):
            width, height = bits.randrange(1, 80), bits.randrange(1, 80)
            row = (width + 7) // 8
            # Bits after the last pixel are written as 0.
            mask = ((1 << width) - 1) << (8 * row - width)
            rows = b"".join((bits.getrandbits(8 * row) & mask).to_bytes(row, "big") for _ in range(height))
            names.append(self.keep(f"{number}.pbm", b"P4\n%d %d\n" % (width, height) + rows))
        return names

    def test_both_ways(self):
        names = self.pages(100)
        for jobs in ("1", "3"):
            streams, pages = self.path("streams" + jobs), self.path("pages" + jobs)
            self.assertEqual(self.counts("encode", "-j", jobs, "-o", streams, "-m", "127", *names), (100, 0, 0))
            made = [os.path.join(streams, f"{number}.jbg") for number in range(100)]
            self.assertEqual(self.counts("check", "-j", jobs, *made), (100, 0, 0))
            self.assertEqual(self.counts("decode", "-j", jobs, "-o", pages, *made), (100, 0, 0))
            for name in names:
                self.assertEqual(read(os.path.join(pages, os.path.basename(name))), read(name))
            self.assertEqual((len(os.listdir(streams)), len(os.listdir(pages))), (100, 100))

    def test_letter(self):
        name = self.keep("letter.pbm", PBM)
        self.ran("encode", "-m", "127", name)
        self.assertEqual(read(self.path("letter.jbg")), STREAM)
        said, _ = self.ran("info", self.path("letter.jbg"))
        self.assertEqual(said, f"416 160 128 127 8 160 2 0 0 {self.path('letter.jbg')}\n")
        words = ["-s", "9", "--two-lines", "--no-typical", "-r", "-C", "said", "--again"]
        self.ran("encode", *words, name)
        found = t85.info(read(self.path("letter.jbg")))
        self.assertEqual((found.stripe_rows, found.options, found.entities, found.comments), (9, 0x40, 18, 1))

    def test_skipped(self):
        name = self.keep("letter.pbm", PBM)
        self.assertEqual(self.counts("encode", name), (1, 0, 0))
        stream = self.path("letter.jbg")
        self.assertEqual(self.counts("encode", name), (0, 1, 0))
        self.assertEqual(self.counts("encode", "--again", name), (1, 0, 0))
        # An output that is truncated or of another size is written again if it is older, and otherwise another's file.
        whole = read(stream)
        for other in (whole[:-1], b"", t85.encode(b"\0", 8, 1)):
            self.keep("letter.jbg", other)
            self.assertEqual(self.counts("encode", name, status=1), (0, 0, 1))
            self.assertEqual(read(stream), other)
            os.utime(stream, (0, 0))
            self.assertEqual(self.counts("encode", name), (1, 0, 0))
            self.assertEqual(read(stream), whole)
        os.utime(name, ns=(time.time_ns(), os.stat(stream).st_mtime_ns + 1))
        self.assertEqual(self.counts("encode", name), (1, 0, 0))

    def test_skipped_images(self):
        stream, image = self.keep("letter.jbg", STREAM), self.path("letter.pbm")
        self.assertEqual(self.counts("decode", stream), (1, 0, 0))
        self.assertEqual(self.counts("decode", stream), (0, 1, 0))
        for other in (PBM[:-1], PBM + b"\0", b"P4\n417 160\n" + PBM[11:], b""):
            self.keep("letter.pbm", other)
            self.assertEqual(self.counts("decode", stream, status=1), (0, 0, 1))
            self.assertEqual(read(image), other)
            os.utime(image, (0, 0))
            self.assertEqual(self.counts("decode", stream), (1, 0, 0))
            self.assertEqual(read(image), PBM)

    def test_others_go_on(self):
        names = [self.keep(f"{number}.jbg", STREAM) for number in range(20)]
        names[5:5] = [self.keep("cut.jbg", STREAM[:500]), self.path("none.jbg"), self.keep("empty.jbg", b""), self.folder]
        for jobs in ("1", "4"):
            said, messages = self.ran("decode", "--again", "--json", "-", "-j", jobs, *names, status=1)
            told = json.loads(said)
            self.assertEqual((told["done"], told["failed"]), (20, 4))
            faults = [(os.path.basename(file["name"]), file["number"], file["text"]) for file in told["files"]]
            self.assertEqual(faults[:3], [
                ("cut.jbg", 9, "input ends too early"),
                ("none.jbg", 0, "No such file or directory"),
                ("empty.jbg", 1, "header is shorter than 20 bytes"),
            ])
            self.assertIn(f"{self.path('cut.jbg')}: input ends too early\n", messages)
            self.assertFalse(os.path.exists(self.path("cut.pbm")))
            for number in range(20):
                self.assertEqual(read(self.path(f"{number}.pbm")), PBM)

    def test_check(self):
        _, messages = self.ran("check", self.keep("cut.jbg", STREAM[:500]), self.keep("a.jbg", STREAM), status=1)
        with self.assertRaises(t85.Error) as caught:
            t85.decode_rows(STREAM[:500])
        rows = caught.exception.partial.count
        self.assertIn(f"cut.jbg: input ends too early; {rows} rows can be recovered\n", messages)
        self.assertEqual(sorted(os.listdir(self.folder)), ["a.jbg", "cut.jbg"])

    def test_limit(self):
        tall = self.keep("tall.jbg", bytes.fromhex("0000010000100000ffffffffffffffff00000008ff02"))
        _, messages = self.ran("decode", tall, status=1)
        self.assertIn("and max_bytes is 1073741824", messages)

    def test_write_fails(self):
        names = [self.keep(f"{number}.pbm", PBM) for number in range(3)]
        with mock.patch.object(_files.os, "replace", side_effect=OSError(28, "No space left on device")):
            self.assertEqual(self.counts("encode", *names, status=1), (0, 0, 3))
        self.assertEqual(len(os.listdir(self.folder)), 3)

    def test_names(self):
        names = [self.keep(name, PBM) for name in ("one page.pbm", "two.PBM", "three.1", "-.pbm")]
        listed = self.keep("list", "\n".join([*names, names[0], ""]).encode())
        self.assertEqual(self.counts("encode", "--names", listed, names[1]), (4, 0, 0))
        for made in ("one page.jbg", "two.jbg", "three.1.jbg", "-.jbg"):
            self.assertTrue(os.path.exists(self.path(made)), made)
        self.assertEqual(self.counts("check", "--names", self.keep("none", b"")), (0, 0, 0))

    def test_names_that_are_no_text(self):
        name = os.fsencode(self.folder) + b"/\xff.jbg"
        with open(name, "wb") as file:
            file.write(STREAM)
        words = [sys.executable, "-m", "t85", "info", "-q", name]
        environment = {**os.environ, "PYTHONPATH": HERE, "LC_ALL": "C.UTF-8"}
        ran = subprocess.run(words, env=environment, capture_output=True)
        self.assertEqual((ran.stdout, ran.stderr), (b"416 160 128 127 8 160 2 0 0 " + name + b"\n", b""))

    def test_reader_ends(self):
        names = [self.keep(f"{number}.jbg", STREAM) for number in range(3000)]
        words = [sys.executable, "-m", "t85", "info", "-q", "--names", self.keep("list", "\n".join(names).encode())]
        environment = {**os.environ, "PYTHONPATH": HERE}
        running = subprocess.Popen(words, env=environment, stdout=subprocess.PIPE, stderr=subprocess.PIPE)
        running.stdout.readline()
        running.stdout.close()
        self.assertEqual((running.stderr.read(), running.wait()), (b"", 1))
        running.stderr.close()

    def test_refused(self):
        name = self.keep("a.pbm", PBM)
        os.mkdir(self.path("other"))
        other = self.keep("other/a.pbm", PBM)
        for words in (["encode"], ["encode", "-j", "0", name], ["lost", name], [], ["encode", "-o", self.folder, name, other],
                      ["check", "--names", self.path("none")], ["encode", "-o", name, name]):
            self.ran(*words, status=2)
        # An output that would be its own input.
        self.ran("encode", self.keep("b.jbg", PBM), status=2)
        self.assertEqual(read(self.path("b.jbg")), PBM)

    def test_options_refused(self):
        name = self.keep("a.pbm", PBM)
        for words in (["-s", "0"], ["-m", "128"], ["-s", "-1"]):
            _, messages = self.ran("encode", *words, name, status=1)
            self.assertIn("a.pbm: ", messages)

    def test_table(self):
        name = self.keep("a.jbg", STREAM)
        _, messages = self.ran("check", name)
        self.assertRegex(messages, rf"(?s)done +1\n.*failed +0\nbytes read +{len(STREAM)}\n")
        self.assertEqual(self.ran("check", "-q", name), ("", ""))
        self.assertIn(": Is a directory\n", self.ran("check", "--json", self.folder, name, status=1)[1])
        self.ran("info", "--json", self.path("told.json"), name)
        told = json.loads(read(self.path("told.json")))
        self.assertEqual(told["files"][0]["summary"]["image_height"], 160)

    def test_progress(self):
        # A terminal shows a progress bar, with tqdm or without it.
        names = [self.keep(f"{number}.jbg", STREAM) for number in range(30)] + [self.path("none.jbg")]
        for module in ({}, {"tqdm": None}):
            messages = io.StringIO()
            messages.isatty = lambda: True
            with mock.patch.dict(sys.modules, module), contextlib.redirect_stderr(messages):
                self.assertEqual(command.main(["check", *names]), 1)
            self.assertIn("31", messages.getvalue())
            self.assertIn("none.jbg: No such file or directory\n", messages.getvalue())


def heed_interrupts():
    """A shell that runs the tests in the background makes them ignore interrupts."""
    signal.signal(signal.SIGINT, signal.SIG_DFL)


class Stopped(Folder):
    """Interrupts a run in the middle, and lets another complete it."""

    BEFORE, ALL = 304, 1000

    def started(self, pipes, *words):
        """Returns a run that blocks at pipes, after 304 files and before some 700 others; and the names."""
        names = [self.keep(f"{number}.jbg", STREAM) for number in range(self.ALL)]
        for number in range(self.BEFORE, self.BEFORE + 8 * pipes, 8):
            os.unlink(names[number])
            os.mkfifo(names[number])
        words = [sys.executable, "-m", "t85", "decode", *words, "--names", self.keep("list", "\n".join(names).encode())]
        running = subprocess.Popen(words, env={**os.environ, "PYTHONPATH": HERE}, stderr=subprocess.PIPE, text=True,
                                   preexec_fn=heed_interrupts)
        while len(self.made()) < self.BEFORE and running.poll() is None:
            time.sleep(0.01)
        return running, names

    def made(self):
        return [name for name in os.listdir(self.folder) if name.endswith(".pbm")]

    def left(self):
        return [name for name in os.listdir(self.folder) if name.endswith(".part")]

    def test_killed(self):
        running, names = self.started(1, "--quiet")
        running.kill()
        running.communicate()
        self.assertEqual(running.returncode, -signal.SIGKILL)
        self.assertEqual((len(self.made()), self.left()), (self.BEFORE, []))
        for name in self.made():
            self.assertEqual(read(self.path(name)), PBM)
        os.unlink(names[self.BEFORE])
        self.keep(f"{self.BEFORE}.jbg", STREAM)
        # A file that was being written has another name, and is ignored.
        self.keep(".999.pbm.0123456789ab.part", PBM[:100])
        self.assertEqual(self.counts("decode", *names), (self.ALL - self.BEFORE, self.BEFORE, 0))
        for name in names:
            self.assertEqual(read(name[:-3] + "pbm"), PBM)

    def test_interrupted(self):
        running, names = self.started(2, "-j", "2", "--json", self.path("told.json"))
        running.send_signal(signal.SIGINT)
        time.sleep(0.5)
        for number in (self.BEFORE, self.BEFORE + 8):
            with open(names[number], "wb") as pipe:
                pipe.write(STREAM)
        messages = running.communicate()[1]
        self.assertEqual(running.returncode, 130, messages)
        self.assertRegex(messages, r"(?m)^done +[\d,]+$")
        self.assertNotIn("Traceback", messages)
        self.assertIs(json.loads(read(self.path("told.json")))["stopped"], True)
        # Files in progress were finished, and no others were begun.
        self.assertEqual((len(self.made()), self.left()), (self.BEFORE + 16, []))
        for name in self.made():
            self.assertEqual(read(self.path(name)), PBM)


if __name__ == "__main__":
    unittest.main()
