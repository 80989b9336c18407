"""Tests which files a name reaches, and how names are printed.

    T85_LIBRARY=bin/libt85.so.1 python3 -m unittest discover bindings/python
"""
import contextlib
import io
import os
import pickle
import subprocess
import sys
import tempfile
import unittest
from unittest import mock

import t85
from samples import STREAM
from t85 import __main__ as command
from t85 import _files, many
from t85._text import printable, quoted

try:
    import fsspec
except ImportError:
    fsspec = None

WEB = "http" + "://"
HERE = os.path.dirname(os.path.abspath(__file__))


def ran(*words, standard=""):
    """Returns the command's status, standard output and standard error."""
    output, messages = io.StringIO(), io.StringIO()
    with contextlib.redirect_stdout(output), contextlib.redirect_stderr(messages):
        with mock.patch.object(command, "_listed", lambda path: iter(standard.splitlines())):
            try:
                status = command.main([*words])
            except SystemExit as ended:
                status = ended.code
    return status, output.getvalue(), messages.getvalue()


class Stores(unittest.TestCase):
    """A name with :// is that of a remote store, which has to be allowed."""

    NAMES = [
        "reference://x.pbm::" + WEB + "refs.json",
        "file:///etc/passwd",
        WEB + "x.jbg",
        "simplecache::file:///etc/passwd",
        "local://x",
        "://",
        "s3://a::b",
    ]

    def opened(self):
        """Fails the test if a file or a store is opened."""
        stack = contextlib.ExitStack()
        stack.enter_context(mock.patch.object(_files, "open", side_effect=AssertionError, create=True))
        stack.enter_context(mock.patch.object(_files.importlib, "import_module", side_effect=AssertionError))
        return stack

    def test_refused(self):
        for name in self.NAMES:
            for job in (many.Job("info"), many.Job("encode", stores={"memory"}), many.Job("decode", folder="/tmp")):
                with self.subTest(name=name, job=job), self.opened():
                    outcome = job(name)
                    self.assertEqual((outcome.state, outcome.number), (many.FAILED, 0))
                    self.assertIn("--store", outcome.text)

    def test_lists(self):
        with self.opened():
            status, output, messages = ran("info", "-q", "--names", "-", standard="\n".join(self.NAMES))
        self.assertEqual((status, output), (1, ""))
        self.assertEqual(messages.count("--store"), len(self.NAMES))

    def test_zero_byte(self):
        for words in (["info"], ["encode"], ["decode", "-o", "."], ["check"]):
            status, output, messages = ran(*words, "-q", "--names", "-", standard="a\0b.jbg\n\0")
            self.assertEqual((status, output, messages.count("the name contains a NUL byte")), (1, "", 2), messages)

    def test_show(self):
        with self.opened():
            status, _, messages = ran("show", "file:///etc/passwd")
        self.assertEqual(status, 1)
        self.assertIn("--store", messages)

    def test_wrapping_protocols(self):
        for name in ("reference", "simplecache", "filecache", "zip", "dir", "", "a b"):
            with self.subTest(name=name):
                self.assertEqual(ran("info", "--store", name, "x.jbg")[0], 2)
                self.assertRaises(ValueError, many.Job, "info", stores={name})

    def test_folder(self):
        # The output folder is a name like the others.
        with self.opened():
            self.assertIn("--store", many.Job("encode", folder="memory://a")(__file__).text)

    @unittest.skipUnless(fsspec, "fsspec is not installed")
    def test_allowed(self):
        fsspec.filesystem("memory").pipe_file("/a.jbg", STREAM)
        job = pickle.loads(pickle.dumps(many.Job("info", stores=["memory"])))
        self.assertEqual(job("memory://a.jbg").summary, t85.info(STREAM))
        self.assertEqual(ran("check", "-q", "--store", "memory", "memory://a.jbg"), (0, "", ""))
        self.assertIn("::", many.Job("info", stores={"memory"})("memory://a.jbg::memory://b").text)


class Quotes(unittest.TestCase):
    # What `ls --quoting-style=shell-escape` of GNU coreutils prints; it prints one '' more where a name begins with $''.
    NAMES = {
        "page-1.jbg": "page-1.jbg",
        "a/b_c:d@e%f+g,h.jbg": "a/b_c:d@e%f+g,h.jbg",
        "Größe": "Größe",
        "": "''",
        "one page": "'one page'",
        "it's": "'it'\\''s'",
        "$(x)": "'$(x)'",
        "a\nb": "'a'$'\\n''b'",
        "\x1b]0;x\x07": "$'\\033'']0;x'$'\\a'",
        "\udcff": "$'\\377'",
        "\u202e": "$'\\342\\200\\256'",
    }

    def test_quoted(self):
        for name, text in self.NAMES.items():
            with self.subTest(name=name):
                self.assertEqual(quoted(name), text)
                self.assertTrue(printable(name).isprintable())

    def test_shell(self):
        # A shell that knows $'' reads the name again.
        for name in [*self.NAMES, "-n", "~", "a\\b", "`x`", "\t\r\v\f\b"]:
            with self.subTest(name=name):
                words = ["bash", "-c", f"printf %s {quoted(name)}"]
                said = subprocess.run(words, capture_output=True, env={"LC_ALL": "C.UTF-8", "PATH": os.environ["PATH"]})
                self.assertEqual(said.stdout, os.fsencode(name))

    def test_messages(self):
        name = "none\x1b[2J\n.jbg"
        for words in (["info", name], ["show", name], ["encode", "--names", name], ["encode", "-o", __file__ + "/\n", __file__]):
            with self.subTest(words=words):
                output, messages = io.StringIO(), io.StringIO()
                with contextlib.redirect_stdout(output), contextlib.redirect_stderr(messages):
                    with contextlib.suppress(SystemExit):
                        command.main(words)
                self.assertTrue(messages.getvalue().replace("\n", "").isprintable(), messages.getvalue())
                self.assertTrue("$'" in messages.getvalue() or "\\n" in messages.getvalue(), messages.getvalue())

    def test_table(self):
        # As ls does, the table of `info` quotes names for a terminal, and only there.
        with tempfile.TemporaryDirectory() as folder:
            name = os.path.join(folder, "a\nb.jbg")
            with open(name, "wb") as file:
                file.write(STREAM)
            for terminal, shown in ((True, quoted(name)), (False, name)):
                output = io.StringIO()
                output.isatty = lambda: terminal
                with contextlib.redirect_stdout(output), contextlib.redirect_stderr(io.StringIO()):
                    self.assertEqual(command.main(["info", "-q", name]), 0)
                self.assertEqual(output.getvalue(), f"416 160 128 127 8 160 2 0 0 {shown}\n")


class Modules(unittest.TestCase):
    def ran(self, folder, *words):
        environment = {**os.environ, "PYTHONPATH": HERE, "PYTHONDONTWRITEBYTECODE": "1"}
        return subprocess.run([sys.executable, *words], cwd=folder, env=environment, capture_output=True, text=True)

    def test_current_folder(self):
        # No optional module is imported from the current folder.
        with tempfile.TemporaryDirectory() as folder:
            for name in ("tqdm", "PIL", "fsspec", "numpy", "distributed"):
                with open(os.path.join(folder, name + ".py"), "w", encoding="utf-8") as file:
                    file.write(f"open('imported {name}', 'w')\n")
            self.ran(folder, "-m", "t85", "show", "none.jbg")
            self.ran(folder, "-m", "t85", "info", "--store", "memory", "memory://none.jbg")
            found = [name for name in os.listdir(folder) if name.startswith("imported")]
            self.assertEqual(found, [])

    def test_no_library(self):
        environment = {**os.environ, "PYTHONPATH": HERE, "T85_LIBRARY": "/nowhere/libt85.so.1"}
        ended = subprocess.run([sys.executable, "-m", "t85", "info", "x"], env=environment, capture_output=True, text=True)
        self.assertEqual(ended.returncode, 1)
        self.assertEqual(len(ended.stderr.splitlines()), 1, ended.stderr)
        self.assertIn("T85_LIBRARY", ended.stderr)
        self.assertIn("ldconfig", ended.stderr)

    def test_version(self):
        ended = self.ran(HERE, "-m", "t85", "--version")
        self.assertEqual((ended.returncode, ended.stdout), (0, "t85 %d.%d.%d\n" % t85.version()))


if __name__ == "__main__":
    unittest.main()
