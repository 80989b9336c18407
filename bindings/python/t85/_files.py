"""Reads whole files, and writes files under a temporary name until they are complete.

A name is that of a local file. A name with `://` is accepted only if its protocol is listed: it is then read and written
through fsspec.
"""
from __future__ import annotations

import contextlib
import errno
import importlib
import io
import os
import stat
from dataclasses import dataclass
from typing import Any, FrozenSet, Iterable, Iterator, Optional, Tuple

# Protocols of fsspec that open other files, whose names may come from a name or from a file's contents.
WRAPPING = frozenset(
    ("blockcache", "cached", "dask", "dir", "filecache", "generic", "libarchive", "reference", "simplecache", "tar", "zip")
)
_MOST_NAME = 255


def is_store_name(name: str) -> bool:
    return "://" in name


def protocols(names: Iterable[str]) -> FrozenSet[str]:
    """Returns the protocols of remote stores. ValueError rejects one that wraps others, or is no protocol's name."""
    found = frozenset(names)
    for name in found:
        if name in WRAPPING:
            raise ValueError(f"{name} is not a store: it opens files of other stores")
        if not name.replace("+", "").replace("-", "").replace(".", "").isalnum():
            raise ValueError("a store is given by its protocol, such as s3")
    return found


@dataclass(frozen=True)
class Files:
    """The files that names may reach: local ones, and those of the stores whose protocols are listed."""

    stores: FrozenSet[str] = frozenset()

    def refuse(self, name: str) -> None:
        """Raises OSError if a name is that of a store whose protocol is not listed, or of a file in another one, or of none."""
        if "\0" in name:
            raise OSError(errno.EINVAL, "the name contains a NUL byte")
        if not is_store_name(name):
            return
        if "::" in name:
            raise OSError(errno.EINVAL, "the name of a store's file contains ::, which --store does not allow")
        if name.partition("://")[0] not in self.stores:
            raise OSError(errno.EINVAL, "the name has ://, and --store does not list its protocol")

    def _located(self, name: str) -> Tuple[Any, str]:
        """Returns the file system of fsspec for a name, and the name in it."""
        self.refuse(name)
        system, path = importlib.import_module("fsspec.core").url_to_fs(name)
        return system, path

    def read(self, name: str) -> bytes:
        self.refuse(name)
        if is_store_name(name):
            system, path = self._located(name)
            return bytes(system.cat_file(path))
        with open(name, "rb", buffering=0) as file:
            data = file.read()
        return data or b""

    def size(self, name: str) -> int:
        if is_store_name(name):
            system, path = self._located(name)
            return int(system.size(path))
        return os.stat(name).st_size

    def part(self, name: str, begin: int, count: int) -> bytes:
        """Returns the bytes of a file from a place on, at most `count`."""
        if is_store_name(name):
            system, path = self._located(name)
            return bytes(system.cat_file(path, start=begin, end=begin + count))
        with open(name, "rb", buffering=0) as file:
            file.seek(begin)
            return file.read(count) or b""

    def is_current(self, output: str, name: str) -> bool:
        """Whether the output exists, and is no older than its input."""
        if is_store_name(output) or is_store_name(name):
            return self._is_current_remote(output, name)
        try:
            return os.stat(output).st_mtime_ns >= os.stat(name).st_mtime_ns
        except FileNotFoundError:
            return False

    def _is_current_remote(self, output: str, name: str) -> bool:
        if not self._exists(output):
            return False
        try:
            return self._modified(output) >= self._modified(name)
        except NotImplementedError:
            # The store does not say when a file was modified.
            return True

    def _exists(self, name: str) -> bool:
        if not is_store_name(name):
            return os.path.exists(name)
        system, path = self._located(name)
        return bool(system.exists(path))

    def _modified(self, name: str) -> float:
        """Returns when a file was modified, in seconds."""
        if not is_store_name(name):
            return os.stat(name).st_mtime
        system, path = self._located(name)
        return float(system.modified(path).timestamp())

    def write(self, name: str, data: bytes) -> None:
        """Writes a file that appears only when it is complete: under a temporary name in its folder, which is then renamed.

        A file system of fsspec receives all bytes at once: an object store shows no partial object.
        """
        if is_store_name(name):
            system, path = self._located(name)
            system.pipe_file(path, data)
            return
        if is_special(name):
            raise OSError(errno.EINVAL, "the output exists, and is not a regular file")
        with writing(name) as file:
            rest = memoryview(data)
            while rest:
                rest = rest[file.write(rest) :]


def is_special(name: str) -> bool:
    """Whether a file exists that is not a regular one, such as a pipe or a terminal."""
    try:
        return not stat.S_ISREG(os.stat(name).st_mode)
    except FileNotFoundError:
        return False


def identity(name: str) -> Optional[Tuple[int, int]]:
    """Returns the device and the inode of a local file; None if there is no such file."""
    if is_store_name(name):
        return None
    try:
        there = os.stat(name)
    except (OSError, ValueError):
        return None
    return there.st_dev, there.st_ino


def _temporary(name: str) -> str:
    """Returns a name in the same folder that no file has: .NAME.HEX.part, of a long name only the beginning."""
    folder, base = os.path.split(name)
    ending = f".{os.urandom(6).hex()}.part"
    front = os.fsencode(base)[: _MOST_NAME - 1 - len(ending)]
    return os.path.join(folder, "." + os.fsdecode(front) + ending)


@contextlib.contextmanager
def writing(name: str) -> Iterator[io.FileIO]:
    """Opens a file under a temporary name in its folder; it is renamed when it is complete, and otherwise removed.

    An existing file passes on its mode and, if the process may set them, its owner and group; behind a symbolic link, the
    file that it names is replaced. An existing target that is not a regular file, such as a pipe or a terminal, is written
    in place.
    """
    if is_special(name):
        with open(name, "wb", buffering=0) as special:
            yield special
        return
    place = os.path.realpath(name)
    other = _temporary(place)
    number = os.open(other, os.O_WRONLY | os.O_CREAT | os.O_EXCL | os.O_CLOEXEC, 0o666)
    try:
        with open(number, "wb", buffering=0) as file:
            with contextlib.suppress(FileNotFoundError):
                _pass_on(os.stat(place), number)
            yield file
        os.replace(other, place)
    except BaseException:
        os.unlink(other)
        raise


def _pass_on(old: os.stat_result, number: int) -> None:
    """Gives an open file the owner, the group and the mode of another, as far as the process may."""
    mode = stat.S_IMODE(old.st_mode) & 0o777
    # Until the owner is set, nobody else may read the file.
    os.fchmod(number, mode & 0o700)
    with contextlib.suppress(PermissionError):
        os.fchown(number, old.st_uid, old.st_gid)
    os.fchmod(number, mode)
