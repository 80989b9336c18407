"""Writes a crate, with its manifest and, for the C library, the functions as C calls them."""
from __future__ import annotations

import os
import re

from plain import tables
from plain.rewrite import STD_ONLY, Plain
from plain.source import Rejected


class Crate:
    def __init__(self, top: str, name: str, version: str) -> None:
        self.name, self.version = name, version
        self.source = os.path.join(top, "crates", name, "src")
        self.macros: set[str] = set()
        self.needs_newer = False
        self.paths = sorted(os.path.join(folder, file) for folder, _, files in os.walk(self.source) for file in files)
        for path in self.paths:
            if not path.endswith(".rt"):
                raise Rejected(f"{path}:1: not a .rt file")
            with open(path, encoding="utf-8") as file:
                self.macros |= set(re.findall(r"macro_rules! (\w+)", file.read()))

    def write(self, out: str) -> None:
        exports = []
        for path in self.paths:
            file = Plain(path, self.name, self.macros)
            text = file.plain()
            exports += file.exports
            self.needs_newer |= any(name.startswith("newer::") for name in file.imports)
            part = os.path.relpath(path, self.source)
            if part in ("lib.rt", "main.rt"):
                text = self.with_root_lines(text)
            _write(os.path.join(out, self.name, "src", part[: -len(".rt")] + ".rs"), text)
        if exports:
            _write(os.path.join(out, self.name, "src", "c_abi.rs"), c_abi(exports))
        _write(os.path.join(out, self.name, "Cargo.toml"), self.manifest())

    def with_root_lines(self, text: str) -> str:
        found = re.match(r"(?://![^\n]*\n)*", text)
        head = found.end() if found else 0
        lines = tables.ROOT_LINES
        if self.name in tables.STD_FEATURES:
            lines = '#![cfg_attr(not(any(feature = "std", test)), no_std)]\n' + lines
        elif self.name in tables.WITHOUT_STD:
            lines = "#![no_std]\n" + lines
        text = text[:head] + lines + text[head:]
        for module in tables.STD_MODULES.get(self.name, []):
            text, count = re.subn(rf"(?m)^((?:pub )?mod|pub use) {module}\b", rf"{STD_ONLY}\g<0>", text)
            if count != 2:
                raise Rejected(f"{self.source}/lib.rt:1: `{module}` is not one module with one export")
        if self.name in tables.STD_EXPORTS:
            text = self.with_std_exports(text, *tables.STD_EXPORTS[self.name])
        if self.name == "libt85":
            text = re.sub(r"(?m)^mod ", "mod c_abi;\nmod ", text, count=1) + tables.PANIC_LINES
        return text

    def with_std_exports(self, text: str, module: str, names: list[str]) -> str:
        """Moves the names that need std out of the list of a module's exports."""
        found = re.search(rf"(?m)^pub use {module}::\{{([^}}]*)\}};\n", text)
        exported = re.findall(r"\w+", found[1]) if found else []
        if not found or not set(names) <= set(exported):
            raise Rejected(f"{self.source}/lib.rt:1: `{module}` is not exported as a list with {names}")
        lists = [[name for name in exported if name not in names], names]
        lines = [f"pub use {module}::{{{', '.join(each)}}};\n" for each in lists]
        return text[: found.start()] + lines[0] + STD_ONLY + lines[1] + text[found.end() :]

    def manifest(self) -> str:
        lines = ["[package]", f'name = "{self.name}"', f'version = "{self.version}"', 'edition = "2021"']
        lines += ['rust-version = "1.63"', f'description = "{tables.ABOUT[self.name]}"', 'readme = "../README.md"', "publish = false"]
        if self.name == "libt85":
            # A Rust caller's crate has the same library name, so no rlib is made here.
            lines += ["", "[lib]", 'name = "t85"', 'crate-type = ["staticlib", "cdylib"]', "doc = false"]
        features = tables.STD_FEATURES.get(self.name)
        if features is not None:
            lines += ["", "[features]", 'default = ["std"]', f"std = {_list(features)}"]
        wanted = tables.CRATES[self.name] + ["newer"] * self.needs_newer
        only_tests = ["kit"] if self.name == "libt85" else []
        lines += ["", "[dependencies]", *(self.dependency(name) for name in wanted if name not in only_tests)]
        if only_tests:
            lines += ["", "[dev-dependencies]", *(self.dependency(name) for name in only_tests)]
        return "\n".join(lines) + "\n"

    def dependency(self, name: str) -> str:
        line = tables.DEPENDENCIES.get(name, f'{name} = {{ path = "../{name}" }}')
        if self.name not in tables.STD_FEATURES:
            return line
        if name in tables.STD_FEATURES:
            return line.replace(" }", ", default-features = false }")
        if name in tables.STD_DEPENDENCIES and self.name != "libt85":
            return line.replace(" }", ", optional = true }") if "{" in line else f'{name} = {{ version = "1", optional = true }}'
        return line


def _list(names: list[str]) -> str:
    return "[" + ", ".join(f'"{name}"' for name in names) + "]"


def _write(path: str, text: str) -> None:
    os.makedirs(os.path.dirname(path), exist_ok=True)
    with open(path, "w", encoding="utf-8") as file:
        file.write(text)


HELPERS = """//! The functions as C calls them: a slice is a pointer and a length. `t85.h` says what a caller must ensure.

use crate::*;
use core::slice::{from_raw_parts, from_raw_parts_mut};

/// The pointer may be null if the length is 0.
unsafe fn slice_of<'a>(first: *const u8, len: usize) -> &'a [u8] {
    if len == 0 {
        &[]
    } else {
        from_raw_parts(first, len)
    }
}

/// The pointer may be null if the length is 0.
unsafe fn slice_of_mut<'a>(first: *mut u8, len: usize) -> &'a mut [u8] {
    if len == 0 {
        &mut []
    } else {
        from_raw_parts_mut(first, len)
    }
}
"""


def c_abi(exports: list[tuple[str, list[tuple[str, str]], str]]) -> str:
    """Returns the functions as C calls them."""
    lines = [HELPERS]
    for name, parameters, result in exports:
        declared, passed = [], []
        for parameter, kind in parameters:
            if kind in ("&[u8]", "&mut [u8]"):
                pointer, helper = ("*const u8", "slice_of") if kind == "&[u8]" else ("*mut u8", "slice_of_mut")
                declared += [f"{parameter}: {pointer}", f"{parameter}_count: usize"]
                passed.append(f"{helper}({parameter}, {parameter}_count)")
            else:
                declared.append(f"{parameter}: {kind}")
                passed.append(parameter)
        lines += ["#[no_mangle]", f"pub unsafe extern \"C\" fn {name}({', '.join(declared)}) -> {result} {{"]
        lines += [f"    crate::{name}({', '.join(passed)})", "}", ""]
    return "\n".join(lines[:-1]) + "\n"
