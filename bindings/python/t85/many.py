"""Processes many files in one process: encodes, decodes, describes or checks each. An error in one stops no other.

    >>> job = Job("encode", folder="streams", options={"most_offset": 127})
    >>> for outcome in run(job, ["a.pbm", "b.pbm"], workers=4):
    ...     print(outcome.name, outcome.state)
    a.pbm done
    b.pbm done

The library's functions run in threads in parallel. An output is written under another name in its own folder,
`.NAME.HEX.part`, and renamed when it is complete. An output that exists, is complete and is no older than its input is
skipped, so a run that was interrupted can be repeated and does only the rest. An output that is no older than its input, but
is not its image or stream, is somebody else's file: it is an error for that input, unless `again` is set.

A name is that of a local file. A name with `://` is accepted only if `stores` lists its protocol, and is then read and written
through fsspec, if that is installed.

Each image of a PBM with several is encoded into a file of its own: NAME-1.jbg, NAME-2.jbg and so on. The images of several streams
in a file are written one behind the other into one file.

A job is a function of one name that can be pickled, so anything that maps functions over lists can run it: t85.dask runs it
on the workers of Dask.
"""
from __future__ import annotations

import errno
import functools
import os
from collections import deque
from concurrent.futures import ThreadPoolExecutor
from dataclasses import dataclass, field
from typing import Any, Callable, Collection, Dict, Iterator, List, Mapping, Optional, Sequence

from . import MAX_BYTES, Error, Rows, Summary, decode, decode_rows, encode, info
from ._conversion import _refuse_large
from ._files import Files, identity, is_special, is_store_name, protocols
from ._pages import Streams, heads, in_image, infos, numbered, pages_of, rows_of, streams_of
from ._pbm import Page, head_of
from ._text import quoted

DONE, SKIPPED, FAILED = "done", "skipped", "failed"
# The suffixes of input names, and those of the outputs of a command.
_ENDINGS = (".pbm", ".jbg", ".jbig")
_ENDING = {"encode": ".jbg", "decode": ".pbm"}
_BATCH = 8


@dataclass(frozen=True)
class Outcome:
    """The result for one file: its bytes, its facts, or the number and the text of its error (0 for a system error)."""

    name: str
    state: str
    read: int = 0
    written: int = 0
    number: int = 0
    text: str = ""
    summary: Optional[Summary] = None


@dataclass(frozen=True)
class Job:
    """What to do with each file: the command, the output folder, and encoder options under the names of encode.

    folder    where the outputs are placed; without it, beside their inputs. It is created if it is missing
    tree      place each output in the folder under the whole name of its input, as `rsync -R` does, not under its last part
    again     skip no file, and replace any output
    stores    the protocols of remote stores that names may have, such as {"s3"}; none by default
    partial   for a broken stream, write an image of the rows that can be recovered, as high as their number; the outcome
              is a failure nevertheless
    """

    command: str
    folder: Optional[str] = None
    again: bool = False
    max_bytes: Optional[int] = MAX_BYTES
    options: Mapping[str, Any] = field(default_factory=dict)
    stores: Collection[str] = ()
    tree: bool = False
    partial: bool = False
    files: Files = field(init=False, repr=False, compare=False)

    def __post_init__(self) -> None:
        stores = protocols(self.stores)
        object.__setattr__(self, "stores", stores)
        object.__setattr__(self, "files", Files(stores))

    def __call__(self, name: str) -> Outcome:
        try:
            return _COMMANDS[self.command](self, name)
        except Error as error:
            return Outcome(name, FAILED, number=error.number, text=error.text)
        except OSError as error:
            return Outcome(name, FAILED, text=error.strerror or str(error))
        except Exception as error:
            return Outcome(name, FAILED, text=f"{type(error).__name__}: {error}")

    def output(self, name: str) -> Optional[str]:
        """The name of a file's output: its own with another suffix, in the output folder if there is one."""
        ending = _ENDING.get(self.command)
        if ending is None:
            return None
        stem, old = os.path.splitext(name)
        made = (stem if old.lower() in _ENDINGS else name) + ending
        if self.folder is None:
            return made
        return os.path.join(self.folder, made.lstrip("/") if self.tree else os.path.basename(made))


def _encode(job: Job, name: str) -> Outcome:
    """Encodes each image into a file of its own. Nothing is written unless all can be encoded."""
    output, data = _target(job, name), job.files.read(name)
    pages, made = pages_of(data), {}
    for before, page in enumerate(pages):
        place = numbered(output, before + 1, len(pages))
        if place != output:
            _refuse_input(name, place)
        if not _is_finished(job, name, place, functools.partial(_is_stream, job, place, page)):
            try:
                made[place] = encode(page.rows, page.width, page.height, **job.options)
            except Error as error:
                raise in_image(error, before)
    for place, stream in made.items():
        _write(job, place, stream)
    if not made:
        return Outcome(name, SKIPPED)
    return Outcome(name, DONE, len(data), sum(map(len, made.values())))


def _decode(job: Job, name: str) -> Outcome:
    """Decodes each stream of a file, and writes the images one behind the other."""
    output, data = _target(job, name), job.files.read(name)
    streams = streams_of(data)
    if streams.error is not None:
        if not job.partial:
            raise streams.error
        return _recover(job, name, output, streams, streams.error)
    summaries = infos(streams)
    if _is_finished(job, name, output, lambda: _has_images(job, output, summaries)):
        return Outcome(name, SKIPPED)
    image = _images(job, streams)
    _write(job, output, image)
    return Outcome(name, DONE, len(data), len(image))


def _images(job: Job, streams: Streams) -> bytes:
    _refuse_large(sum(rows_of(infos(streams))), job.max_bytes)
    return b"".join(decode(stream, max_bytes=job.max_bytes) for stream in streams.whole)


def _recover(job: Job, name: str, output: str, streams: Streams, broken: Error) -> Outcome:
    """Writes the images before a broken stream, and one of its rows that can be recovered, if there are any."""
    rows = _recovered(job, streams)
    if not streams.whole and not rows.count:
        raise broken
    image = _images(job, streams)
    if rows.count:
        _refuse_large(len(image) + len(rows.data), job.max_bytes)
        image += head_of(rows.width, rows.count) + rows.data
    if not _is_finished(job, name, output, lambda: job.files.read(output) == image):
        _write(job, output, image)
    text = f"{broken.text}; {rows.count} rows were written"
    return Outcome(name, FAILED, streams.length, len(image), broken.number, text)


def _recovered(job: Job, streams: Streams) -> Rows:
    """Returns the rows of the broken stream that can be recovered."""
    assert streams.broken is not None
    try:
        return decode_rows(streams.broken, max_bytes=job.max_bytes)
    except Error as error:
        return error.partial if isinstance(error.partial, Rows) else Rows(0, 0, 0, b"")


def _info(job: Job, name: str) -> Outcome:
    stream = job.files.read(name)
    return Outcome(name, DONE, len(stream), summary=info(stream))


def _check(job: Job, name: str) -> Outcome:
    """Decodes each stream of a file. The outcome has the facts of the first one."""
    data = job.files.read(name)
    streams = streams_of(data)
    for stream in streams.whole:
        decode_rows(stream, max_bytes=job.max_bytes)
    if streams.error is not None:
        count = _recovered(job, streams).count
        rows = f"; {count} rows can be recovered" if count else ""
        return Outcome(name, FAILED, len(data), number=streams.error.number, text=streams.error.text + rows)
    return Outcome(name, DONE, len(data), summary=info(streams.whole[0]))


_COMMANDS: Dict[str, Callable[[Job, str], Outcome]] = {
    "encode": _encode,
    "decode": _decode,
    "info": _info,
    "check": _check,
}


def _target(job: Job, name: str) -> str:
    """Returns the name of an output, which is not its input's, nor outside the folder."""
    output = job.output(name)
    assert output is not None
    job.files.refuse(name)
    job.files.refuse(output)
    if job.folder is not None and job.tree and os.pardir in name.split("/"):
        raise OSError(errno.EINVAL, "the name contains .., which would leave the folder")
    _refuse_input(name, output)
    return output


def _refuse_input(name: str, output: str) -> None:
    there = identity(output)
    if output == name or there is not None and there == identity(name):
        raise OSError(errno.EINVAL, "the output would replace its input")


def _is_finished(job: Job, name: str, output: str, is_whole: Callable[[], bool]) -> bool:
    """Whether an output need not be written. OSError rejects one that is no older than its input, and is another file.

    A store may show a part of a file while it is written, so there an output that is not whole is replaced.
    """
    if job.again or is_special(output) or not job.files.is_current(output, name):
        return False
    if is_whole():
        return True
    if is_store_name(output):
        return False
    raise OSError(errno.EEXIST, f"{quoted(output)} exists, is newer, and is not made of this file: --again replaces it")


def _write(job: Job, output: str, data: bytes) -> None:
    """Writes an output, and creates its folder."""
    if job.folder is not None and not is_store_name(output):
        os.makedirs(os.path.dirname(output) or os.curdir, exist_ok=True)
    job.files.write(output, data)


def _is_stream(job: Job, output: str, page: Page) -> bool:
    """Whether a file is a complete stream of an image of this size."""
    try:
        summary = info(job.files.read(output))
    except Error:
        return False
    return (summary.width, summary.image_height) == (page.width, page.height)


def _has_images(job: Job, output: str, summaries: Sequence[Summary]) -> bool:
    """Whether a file has raw PBM images of these sizes one behind the other, by their headers and its length."""
    begin = 0
    for head, rows in zip(heads(summaries), rows_of(summaries)):
        if job.files.part(output, begin, len(head)) != head:
            return False
        begin += len(head) + rows
    return job.files.size(output) == begin


def run(job: Job, names: Sequence[str], workers: int = 1) -> Iterator[Outcome]:
    """Yields the outcome for each file, in the order of the names, using this many threads."""

    def several(first: int) -> List[Outcome]:
        return [job(name) for name in names[first : first + _BATCH]]

    with ThreadPoolExecutor(workers) as pool:
        tasks = deque(pool.submit(several, first) for first in range(0, len(names), _BATCH))
        try:
            while tasks:
                yield from tasks.popleft().result()
        finally:
            for task in tasks:
                task.cancel()


@dataclass
class Total:
    """The totals over all files of a job."""

    command: str
    seconds: float = 0.0
    done: int = 0
    skipped: int = 0
    failed: int = 0
    bytes_read: int = 0
    bytes_written: int = 0

    def add(self, outcome: Outcome) -> None:
        setattr(self, outcome.state, getattr(self, outcome.state) + 1)
        self.bytes_read += outcome.read
        self.bytes_written += outcome.written

    def lines(self) -> Iterator[str]:
        """A table for a terminal."""
        files = self.done + self.skipped + self.failed
        a_second = files / self.seconds if self.seconds else 0.0
        for label, number in [("files", files), ("done", self.done), ("skipped", self.skipped), ("failed", self.failed)]:
            yield f"{label:14}{number:>16,}"
        yield f"{'bytes read':14}{self.bytes_read:>16,}"
        yield f"{'bytes written':14}{self.bytes_written:>16,}"
        yield f"{'seconds':14}{self.seconds:>16.2f}"
        yield f"{'files a second':14}{a_second:>16,.0f}"
