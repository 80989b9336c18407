"""Whether the outputs of a job would replace its inputs, or one another."""
from __future__ import annotations

import os
import re
from typing import Dict, Iterator, Optional, Sequence, Tuple

from . import Error
from ._files import identity, is_store_name
from ._pages import numbered, pages_of
from ._text import quoted
from .many import Job

_NUMBERED = re.compile(r"(.*)-[1-9][0-9]*(\.[^./]*)", re.S)


def clash(job: Job, names: Sequence[str]) -> Optional[str]:
    """Returns why the outputs of a job cannot be written: two would be the same file, or one would be an input.

    A file is read here only if the number behind its name is all that keeps its outputs from those of another.
    """
    seen: Dict[str, str] = {}
    inputs = {identity(name): name for name in names}
    for name, output in _outputs(job, names):
        place = _place(output)
        if seen.setdefault(place, name) != name:
            return f"{quoted(seen[place])} and {quoted(name)} would both be written as {quoted(output)}"
        there = identity(output)
        if there is not None and there in inputs:
            return f"{quoted(output)}, the output of {quoted(name)}, is the input {quoted(inputs[there])}"
    return None


def _place(name: str) -> str:
    """Returns a name that only this file has, as far as links can be followed."""
    return name if is_store_name(name) or "\0" in name else os.path.realpath(name)


def _outputs(job: Job, names: Sequence[str]) -> Iterator[Tuple[str, str]]:
    """Yields each input with its output, and then the outputs of a file with several images that may be another's."""
    firsts: Dict[str, Tuple[str, str]] = {}
    for name in names:
        output = job.output(name)
        if output is None:
            return
        yield name, output
        firsts[_place(output)] = name, output
    if job.command != "encode":
        return
    bases = {_base(place) for place in [*firsts, *map(_place, names)]}
    for place, (name, output) in firsts.items():
        if place in bases:
            count = _count(job, name)
            yield from ((name, numbered(output, number, count)) for number in range(1, count + 1) if count > 1)


def _base(place: str) -> Optional[str]:
    """Returns the name without the number behind it, if it has one."""
    found = _NUMBERED.fullmatch(place)
    return f"{found[1]}{found[2]}" if found else None


def _count(job: Job, name: str) -> int:
    """Returns the number of images in a file; 0 if it cannot be read, which will fail later."""
    try:
        return len(pages_of(job.files.read(name)))
    except (Error, OSError):
        return 0
