"""Checks the types of the module t85 with mypy: in the module itself, and in a program that uses it.

    T85_LIBRARY=bin/libt85.so.1 python3 -m unittest discover bindings/python
"""
import os
import shutil
import subprocess
import sys
import tempfile
import unittest

import t85

HERE = os.path.dirname(os.path.abspath(__file__))
STRICT = ["--strict", "--config-file=", "--cache-dir=" + os.devnull]

USER = """
import io
import mmap
import pathlib
import sys
import t85
from t85 import many

stream: bytes = t85.encode(b"", 8, 0, comment=bytearray(b"said"), stride=1, best_offset=True)
image: bytes = t85.decode(memoryview(stream), max_rows=9, max_bytes=None)
rows: t85.Rows = t85.decode_rows(mmap.mmap(-1, 100), max_bytes=2 * t85.MAX_BYTES)
width: int = t85.header(stream).width + t85.info(stream).image_height + rows.count
page: t85.Rows = t85.pack([[0, 1], [1, 1]], black=False)
again: t85.Rows = t85.from_image(t85.to_image(page))
count: int = t85.decode_into(stream, bytearray(100), stride=9)
bits = t85.unpack(page, black=True), t85.to_array(page)
job = many.Job("encode", folder="streams", options={"most_offset": 127})
states: list[str] = [outcome.state for outcome in many.run(job, ["a.pbm"], workers=2)]
with t85.Encoder(8, 2, announced_height=2, comment=b"said") as encoder:
    encoder.offset(encoder.best_offset(bytearray(2)))
    pieces: list[bytes] = [encoder.row(bytearray(1)), encoder.end()]
    left: int = encoder.rows_left
choice = t85.Choice(8, most_offset=127)
choice.row(bytearray(1), memoryview(b""))
offset: int = choice.offset(0)
t85.set_unused_fields(bytearray(stream), my=0, order=0, options=0)
t85.set_height(mmap.mmap(-1, 100))
fields: tuple[t85.RawHeader, int] = t85.raw_header(stream), t85.raw_header(stream).fill
ended: bool = t85.Decoder().rest(t85.Encoder(8, 2).abort())
length: int = t85.encode_file(pathlib.Path("a.pbm"), sys.stdout.buffer, most_offset=127)
height: int = t85.decode_file(open("a.jbg", "rb"), "a.pbm", max_rows=9) + t85.decode_file(sys.stdin.buffer, io.BytesIO())
try:
    t85.decode(image)
except t85.Error as error:
    said: tuple[int, str] = error.number, error.text
"""
WRONG = {
    "width: str = t85.header(b'').width": "assignment",
    "t85.decode('text')": "arg-type",
    "t85.encode(b'', 8)": "call-arg",
    "t85.header(b'').image_height": "attr-defined",
    "t85.set_height(b'')": "arg-type",
    "t85.Rows(8, 1, 1, b'').count = 2": "misc",
    "t85.pack([[0, 1]])": "call-arg",
    "t85.from_image(b'')": "arg-type",
    "t85.decode_into(b'', b'')": "arg-type",
    "t85.Encoder(8)": "call-arg",
    "t85.Encoder(8, 1).row('text')": "arg-type",
    "t85.encode_file('a', 'b', stride=1)": "call-arg",
    "t85.decode_file(open('a'), 'b')": "arg-type",
    "t85.decode_file('a', 7)": "arg-type",
}


def has_mypy(interpreter):
    return subprocess.run([*interpreter, "-m", "mypy", "--version"], capture_output=True).returncode == 0


def found_interpreter():
    """The words that run an interpreter with mypy: this one, or else the one that the command `mypy` names, if any."""
    if has_mypy([sys.executable]):
        return [sys.executable]
    program = shutil.which("mypy")
    if program:
        with open(program, "rb") as file:
            line = file.readline().decode("utf-8", "replace")
        named = line[2:].split() if line.startswith("#!") and "python" in line else []
        if named and has_mypy(named):
            return named
    return []


PYTHON = found_interpreter()


class Package(unittest.TestCase):
    def test_names(self):
        # The module as one file has the same interface as a package.
        self.assertTrue(os.path.isfile(os.path.join(os.path.dirname(t85.__file__), "py.typed")))
        names = ["Error", "Header", "Rows", "Summary", "decode", "decode_rows", "encode", "header", "info", "version"]
        self.assertLessEqual(set(names), set(t85.__all__))
        for name in [*t85.__all__, "Buffer"]:
            self.assertTrue(hasattr(t85, name), name)


@unittest.skipUnless(PYTHON, "mypy is not installed")
class Types(unittest.TestCase):
    def setUp(self):
        folder = tempfile.TemporaryDirectory()
        self.addCleanup(folder.cleanup)
        self.folder = folder.name

    def checked(self, *words):
        """Returns the output of mypy, and its status."""
        environment = {name: value for name, value in os.environ.items() if name != "MYPYPATH"}
        command = [*PYTHON, "-m", "mypy", *STRICT, *words]
        ran = subprocess.run(command, cwd=self.folder, env=environment, capture_output=True, text=True)
        self.assertEqual(ran.stderr, "")
        return ran.stdout, ran.returncode

    def test_module(self):
        said, status = self.checked(os.path.join(HERE, "t85"))
        self.assertEqual(status, 0, said)

    def test_user(self):
        # A program finds the types of the installed package.
        place = os.path.join(self.folder, "place")
        subprocess.run([*PYTHON, "-m", "venv", "--without-pip", place], check=True)
        python = os.path.join(place, "bin", "python")
        line = "import sysconfig; print(sysconfig.get_path('purelib'))"
        packages = subprocess.run([python, "-c", line], check=True, capture_output=True, text=True).stdout.strip()
        shutil.copytree(os.path.join(HERE, "t85"), os.path.join(packages, "t85"))
        program = os.path.join(self.folder, "user.py")
        with open(program, "w") as file:
            file.write(USER)
        said, status = self.checked("--python-executable", python, program)
        self.assertEqual(status, 0, said)
        with open(program, "w") as file:
            file.write("import t85\n" + "\n".join(WRONG) + "\n")
        said, status = self.checked("--python-executable", python, program)
        self.assertEqual(status, 1, said)
        for number, (line, kind) in enumerate(WRONG.items(), 2):
            self.assertRegex(said, rf"user\.py:{number}: error: .*\[{kind}\]", line)


if __name__ == "__main__":
    unittest.main()
