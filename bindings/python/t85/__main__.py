"""Processes many files with one command, python3 -m t85 encode|decode|info|check FILE.., or draws one, with python3 -m
t85 show FILE.

Exit status: 0 if every file was done or skipped, 1 if one failed, 2 if the command line was rejected, and 130 if the
command was interrupted from the keyboard.
"""
from __future__ import annotations

import sys

if __name__ == "__main__" and not getattr(sys.flags, "safe_path", False):
    # `python3 -m` puts the current folder first, from which an optional module would be imported. This one has been found.
    del sys.path[0]

import argparse
import dataclasses
import importlib
import io
import itertools
import json
import os
import time
from typing import Any, Dict, Iterator, List, Optional, Sequence

from . import MAX_BYTES, Error, version
from ._clash import clash
from ._files import identity, is_store_name, protocols
from ._text import printable, quoted
from .many import FAILED, Job, Outcome, Total, run


class Progress:
    """Shows progress on standard error, if that is a terminal: with tqdm, or else as one line."""

    def __init__(self, total: int, quiet: bool) -> None:
        self._shown = not quiet and sys.stderr.isatty()
        self._total, self._count, self._next = total, 0, 0.0
        self._bar: Any = None
        if self._shown:
            try:
                self._bar = importlib.import_module("tqdm").tqdm(total=total, unit="file", file=sys.stderr)
            except ImportError:
                pass

    def step(self) -> None:
        self._count += 1
        if self._bar is not None:
            self._bar.update()
        elif self._shown and (self._count == self._total or time.monotonic() >= self._next):
            self._next = time.monotonic() + 0.2
            print(f"\r{self._count} of {self._total}", end="", file=sys.stderr, flush=True)

    def say(self, line: str) -> None:
        """Prints a line above the bar."""
        if self._bar is not None:
            self._bar.clear()
        elif self._shown:
            print("\r\033[K", end="", file=sys.stderr)
        print(printable(line), file=sys.stderr)

    def close(self) -> None:
        if self._bar is not None:
            self._bar.close()
        elif self._shown and self._count:
            print(file=sys.stderr)


def _parser() -> argparse.ArgumentParser:
    parser = argparse.ArgumentParser(prog="python3 -m t85", description=__doc__.partition("\n")[0])
    parser.add_argument("--version", action="version", version="t85 {}.{}.{}".format(*version()))
    commands = parser.add_subparsers(dest="command", required=True, metavar="COMMAND")
    about = {
        "encode": "PBM images into streams, as .jbg",
        "decode": "streams into PBM images, as .pbm",
        "info": "the nine numbers of each stream, as jbgtopbm85 --info has them, and its name",
        "check": "decode each stream, and write nothing",
    }
    for name, text in about.items():
        command = commands.add_parser(name, help=text, description=text)
        command.add_argument("files", nargs="*", metavar="FILE")
        command.add_argument("--names", metavar="LIST", help="a file with more names, one a line; - is standard input")
        command.add_argument("-j", "--jobs", type=_count, default=1, metavar="N", help="threads (1)")
        command.add_argument("--json", metavar="FILE", help="the summary as JSON into this file; - is standard output")
        command.add_argument("-q", "--quiet", action="store_true", help="no progress and no table")
        if name in ("encode", "decode"):
            command.add_argument("-o", "--folder", metavar="FOLDER", help="where the outputs go (beside their inputs)")
            command.add_argument("-R", "--relative", action="store_true", help="keep the inputs' folders below FOLDER")
            command.add_argument("--again", action="store_true", help="skip no file, and replace any output")
        if name == "decode":
            text = "of a broken stream, write the rows that can be recovered, as an image of that height"
            command.add_argument("--partial", action="store_true", help=text)
        if name in ("decode", "check"):
            command.add_argument("--max-bytes", type=int, default=MAX_BYTES, metavar="N", help="refuse larger images (1 GiB)")
    _add_options(commands.choices["encode"])
    show = commands.add_parser("show", help="a picture of a stream: its page, stripes, moves, bytes and damage")
    show.add_argument("file", metavar="FILE")
    show.add_argument("output", nargs="?", metavar="PICTURE", help="a PNG (a new file with the name and .png)")
    for command in commands.choices.values():
        text = "accept names PROTOCOL://.. of this remote store, through fsspec; may be repeated"
        command.add_argument("--store", action="append", default=[], type=_protocol, metavar="PROTOCOL", help=text)
    return parser


def _protocol(name: str) -> str:
    try:
        protocols([name])
    except ValueError as error:
        raise argparse.ArgumentTypeError(str(error)) from error
    return name


def _add_options(command: argparse.ArgumentParser) -> None:
    command.add_argument("-s", "--stripe-rows", type=int, default=128, metavar="N", help="rows of a stripe (128)")
    command.add_argument("-m", "--most-offset", type=int, default=0, metavar="N", help="greatest offset (0)")
    command.add_argument("--best", dest="best_offset", action="store_true", help="the best offset for each stripe; slower")
    command.add_argument("--two-lines", action="store_true", help="the template of two lines")
    command.add_argument("--no-typical", dest="typical", action="store_false", help="no typical prediction")
    command.add_argument("-r", "--reset", action="store_true", help="each stripe begins afresh")
    command.add_argument("-C", "--comment", type=os.fsencode, metavar="TEXT", help="a comment in each stream")


def _count(text: str) -> int:
    number = int(text)
    if number < 1:
        raise argparse.ArgumentTypeError("is less than 1")
    return number


def _job(words: argparse.Namespace) -> Job:
    names = ("stripe_rows", "most_offset", "best_offset", "two_lines", "typical", "reset", "comment")
    options = {name: getattr(words, name) for name in names if hasattr(words, name)}
    given = {name: getattr(words, name) for name in ("folder", "again", "max_bytes", "partial") if hasattr(words, name)}
    return Job(words.command, options=options, stores=words.store, tree=getattr(words, "relative", False), **given)


def _listed(path: str) -> Iterator[str]:
    with open(0 if path == "-" else path, encoding="utf-8", errors="surrogateescape", closefd=path != "-") as file:
        for line in file:
            if line.strip("\r\n"):
                yield line.rstrip("\r\n")


def _names(parser: argparse.ArgumentParser, words: argparse.Namespace) -> List[str]:
    """Returns each name once, in the order of the command line and of the list."""
    try:
        more = list(_listed(words.names)) if words.names else []
    except OSError as error:
        parser.error(f"{quoted(words.names)}: {error.strerror}")
    names = list(dict.fromkeys([*words.files, *more]))
    if not names and not words.names:
        parser.error("no file is named")
    return names


def _report(outcome: Outcome) -> Dict[str, Any]:
    return {field: value for field, value in dataclasses.asdict(outcome).items() if value or field == "number"}


def _write_json(path: str, total: Total, kept: List[Outcome], stopped: bool) -> bool:
    """Writes the summary, and returns whether that succeeded."""
    summary = {**dataclasses.asdict(total), "stopped": stopped, "files": [_report(outcome) for outcome in kept]}
    text = json.dumps(summary, indent=2) + "\n"
    if path == "-":
        sys.stdout.write(text)
        return True
    try:
        with open(path, "w", encoding="utf-8") as file:
            file.write(text)
    except OSError as error:
        print(f"{quoted(path)}: {error.strerror}", file=sys.stderr)
        return False
    return True


def _shown(name: str) -> str:
    """Returns a name as `ls` prints it: quoted on a terminal, and otherwise as it is."""
    return quoted(name) if sys.stdout.isatty() else name


def _work(job: Job, names: Sequence[str], words: argparse.Namespace) -> int:
    total, kept, begin = Total(job.command), [], time.monotonic()
    progress, stopped = Progress(len(names), words.quiet), True
    try:
        for outcome in run(job, names, words.jobs):
            total.add(outcome)
            if words.json and (outcome.state == FAILED or outcome.summary):
                kept.append(outcome)
            if outcome.state == FAILED:
                progress.say(f"{quoted(outcome.name)}: {outcome.text}")
            elif job.command == "info" and outcome.summary and words.json != "-":
                print(*dataclasses.astuple(outcome.summary), _shown(outcome.name))
            progress.step()
        stopped = False
    finally:
        progress.close()
        total.seconds = time.monotonic() - begin
        if not words.quiet:
            print(*total.lines(), sep="\n", file=sys.stderr)
        is_reported = not words.json or _write_json(words.json, total, kept, stopped)
    return 0 if is_reported and not total.failed else 1


def _show(words: argparse.Namespace) -> int:
    from .show import draw_file

    if words.output and identity(words.output) is not None and identity(words.output) == identity(words.file):
        print(f"{quoted(words.output)}: the picture would replace the stream", file=sys.stderr)
        return 2
    try:
        picture = draw_file(words.file, words.store)
        if words.output:
            picture.save(words.output, "PNG")
        else:
            print(_shown(_save_new(picture, os.path.splitext(words.file)[0])))
    except (Error, OSError, ImportError) as error:
        print(printable(f"{quoted(words.file)}: {getattr(error, 'strerror', None) or error}"), file=sys.stderr)
        return 1
    return 0


def _save_new(picture: Any, stem: str) -> str:
    """Saves a picture under a name that no file has, STEM.png or STEM-1.png and so on, and returns the name."""
    for number in itertools.count():
        name = f"{stem}-{number}.png" if number else f"{stem}.png"
        try:
            with open(name, "xb") as file:
                picture.save(file, "PNG")
        except FileExistsError:
            continue
        return name
    raise AssertionError("numbers do not end")


def main(arguments: Optional[Sequence[str]] = None) -> int:
    parser = _parser()
    words = parser.parse_args(arguments)
    try:
        status = _show(words) if words.command == "show" else _run(parser, words)
        sys.stdout.flush()
        return status
    except KeyboardInterrupt:
        return 130
    except OSError as error:
        # The output cannot be written. At its exit, Python would try once more.
        os.dup2(os.open(os.devnull, os.O_WRONLY), 1)
        if not isinstance(error, BrokenPipeError):
            print(f"standard output: {error.strerror}", file=sys.stderr)
        return 1


def _run(parser: argparse.ArgumentParser, words: argparse.Namespace) -> int:
    job, names = _job(words), _names(parser, words)
    conflict = clash(job, names)
    if conflict:
        parser.error(conflict)
    if job.tree and job.folder is None:
        parser.error("--relative needs --folder")
    if job.folder is not None and not is_store_name(job.folder):
        try:
            os.makedirs(job.folder, exist_ok=True)
        except OSError as error:
            parser.error(f"{quoted(job.folder)}: {error.strerror}")
    if isinstance(sys.stdout, io.TextIOWrapper):
        # A name may contain bytes that are not text.
        sys.stdout.reconfigure(errors="surrogateescape")
    return _work(job, names, words)


if __name__ == "__main__":
    sys.exit(main())
