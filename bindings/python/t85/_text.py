"""Names of files in messages and tables."""
from __future__ import annotations

import itertools
import os

# A name of these characters, of letters and of digits needs no quotes in a shell.
_BARE = frozenset("%+,-./:@_")
_ESCAPES = {"\a": "\\a", "\b": "\\b", "\t": "\\t", "\n": "\\n", "\v": "\\v", "\f": "\\f", "\r": "\\r"}


def quoted(name: str) -> str:
    """Returns a file's name as `ls` prints it on a terminal: quoted if a shell needs that, control characters escaped."""
    if name and all(char in _BARE or char.isalnum() for char in name):
        return name
    groups = [(shown, "".join(group)) for shown, group in itertools.groupby(name, str.isprintable)]
    return "".join(_literal(text) if shown else f"$'{_escaped(text)}'" for shown, text in groups) or "''"


def printable(text: str) -> str:
    """Returns a text without characters that a terminal would act on."""
    return "".join(char if char.isprintable() else _escaped(char) for char in text)


def _literal(text: str) -> str:
    return "'" + text.replace("'", "'\\''") + "'"


def _escaped(text: str) -> str:
    return "".join(_ESCAPES.get(char) or "".join(f"\\{byte:03o}" for byte in os.fsencode(char)) for char in text)
