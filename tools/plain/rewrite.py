"""Writes a file of Rattle as plain Rust: what `erase` leaves, with the forms of the tables."""
from __future__ import annotations

import re

from plain import tables
from plain.erase import Erased
from plain.source import CLOSED_BY, ITEM

PARAMETER = r"(\w+): (u8|u32|u64|usize|&(?:mut )?(?:\[u8\]|\w+))"
STD_ONLY = '#[cfg(feature = "std")]\n'


class Plain(Erased):
    """`exports` has the functions for C; `modules` the names in `mod` items."""

    def __init__(self, path: str, crate: str, macros: set[str]) -> None:
        super().__init__(path)
        self.crate, self.macros = crate, macros
        self.exports: list[tuple[str, list[tuple[str, str]], str]] = []
        self.imports: set[str] = set()

    @property
    def is_test(self) -> bool:
        return self.crate in tables.OF_TESTS

    @property
    def has_feature(self) -> bool:
        return self.crate in tables.STD_FEATURES

    def attribute(self, i: int) -> int:
        j = self.next(i)
        is_inner = self.is_at(j, "!")
        j = self.next(j) if is_inner else j
        if not self.is_at(j, "["):
            return self.next(i)
        end = self.close(j)
        text = "".join(self.tokens[j + 1 : end])
        name = text.split("(")[0]
        if name == "tactic":
            self.erase(i, end)
        elif name == "derive":
            self.derive(i, end, text[7:-1])
        elif name == "error" and self.has_feature:
            self.erase(i, end)
            self.out[i] = f'#[cfg_attr(feature = "std", {text})]'
        elif text == "unsafe(no_mangle)":
            self.export(i, end)
        elif text == "test":
            self.runtime(self.next(end))
        elif is_inner or not (text in tables.KEPT_ATTRIBUTES or name == "error"):
            self.reject(i, f"an attribute `{text}`")
        return end + 1

    def derive(self, i: int, end: int, listed: str) -> None:
        traits = [word.strip() for word in listed.split(",")]
        for trait in traits:
            if trait not in tables.DERIVES | {"Drop"}:
                self.reject(i, f"a derive of `{trait}`")
        lines = []
        if "Error" in traits and self.has_feature:
            traits.remove("Error")
            lines = ['#[cfg_attr(feature = "std", derive(Error))]']
        left = [trait for trait in traits if trait != "Drop"]
        if left:
            lines.insert(0, f"#[derive({', '.join(left)})]")
        self.erase(i, end)
        if lines:
            self.out[i] = "\n".join(lines)

    def export(self, i: int, end: int) -> None:
        """A function for C becomes one for Rust; `c_abi.rs` calls it with a slice for each pointer and length."""
        j = self.next(end)
        if not self.is_at(j, "pub", "extern", '"C"', "fn"):
            self.reject(j, 'an export that is no `pub extern "C" fn`')
        word = self.next(j)
        self.erase(i, end)
        name = self.next(self.next(self.next(word)))
        self.erase(word, self.next(self.next(word)) - 1, "")
        opened = self.next(name)
        closed = self.close(opened)
        parameters = []
        for part in re.split(r",\s*", "".join(self.tokens[opened + 1 : closed]).strip().rstrip(",")):
            found = re.fullmatch(PARAMETER, part)
            if found:
                parameters.append((found[1], found[2]))
            elif part:
                self.reject(opened, f"a parameter `{part}` of a function for C")
        after = self.next(closed)
        if not self.is_at(after, "-", ">"):
            self.reject(after, "a function for C without a result")
        result = self.tokens[self.next(self.next(after))]
        if result not in ("u8", "u32", "u64", "usize"):
            self.reject(after, f"a result `{result}` of a function for C")
        self.exports.append((self.tokens[name], parameters, result))

    def runtime(self, i: int) -> None:
        """A test or a `main` makes its runtime itself, as its first variable."""
        if not self.is_at(i, "fn"):
            self.reject(i, "a test that is no `fn`")
        opened = self.next(self.next(i))
        closed = self.close(opened)
        text = "".join(self.tokens[opened + 1 : closed]).strip()
        if text not in ("", "rt: HostRuntime"):
            self.reject(opened, f"a test with the parameters `{text}`")
        body = closed
        while not self.is_at(body, "{"):
            if self.tokens[body] in ("requires", "ensures", "ghost"):
                self.reject(body, "a test or a `main` with a contract")
            body = self.next(body)
        blanks = re.search(r"( *)[^\n]*$", self.text[: self.places[i]])
        indent = "\n" + (blanks[1] if blanks else "") + "    "
        start = f"{{{indent}let rt = kit::HostRuntime::new();" if text else "{"
        self.erase(opened + 1, closed - 1, "")
        if "".join(self.tokens[closed + 1 : body]).strip() == "-> Result<(), Fail>":
            # Any error converts to `Fail`, so it cannot itself be an error that a test returns.
            self.erase(closed + 1, body - 1, "")
            start = f" {start}{indent}let test = || -> Result<(), Fail> {{"
            self.out[self.close(body)] = f"}};{indent}::std::assert!(test().is_ok());{indent[:-4]}}}"
        self.out[body] = start

    def std_path(self, i: int) -> int:
        """`std::module::..`, also in a `use`: an item of Rust or of `kit`."""
        if not self.is_at(i, "std", ":", ":"):
            self.reject(i, "`std` alone")
        j = self.next(self.next(self.next(i)))
        module, j = self.tokens[j], self.next(j)
        leaves = ["self"]
        if self.is_at(j, ":", ":"):
            j = self.next(self.next(j))
            if module == "os" and self.is_at(j, "fd", ":", ":"):
                j = self.next(self.next(self.next(j)))
            leaves = [self.tokens[j]]
            if self.is_at(j, "{"):
                leaves = [word.strip() for word in "".join(self.tokens[j + 1 : self.close(j)]).split(",") if word.strip()]
        if module == "marker" and leaves == ["Model"]:
            first = i
            while not self.is_at(first, "use"):
                first -= 1
            self.erase(first, self.next(j), ITEM)
            return self.next(j) + 1
        rust, kit = tables.OF_RUST.get(module, set()), tables.OF_KIT.get(module, set())
        if not all(leaf in kit | rust for leaf in leaves):
            self.reject(i, f"one of {', '.join(leaves)} of `std::{module}`, which no table lists")
        if not all(leaf in rust for leaf in leaves):
            self.out[i] = "kit"
        elif module in tables.OF_CORE:
            self.out[i] = "core"
        return j + 1 if leaves == ["size_of"] and self.is_size_check(i) else i + 1

    def is_size_check(self, i: int) -> bool:
        """Whether the line is a proof of a type's size."""
        line = self.text[self.text.rfind("\n", 0, self.places[i]) + 1 :].partition(";")[0]
        return re.fullmatch(tables.SIZE_CHECK, line) is not None

    def word(self, i: int) -> int:
        """Rewrites at a word, and returns the number of the token behind what was read."""
        text = self.tokens[i]
        if text in ("r", "br") and self.tokens[i + 1][0] in '"#':
            self.reject(i, "a raw string")
        if text == "ghost":
            return self.erase_ghost(i)
        if text in ("requires", "ensures"):
            return self.erase_clause(i)
        if text == "impl" and self.is_at(self.next(i), "Model", "for"):
            return self.erase_model(i)
        if text == "std":
            return self.std_path(i)
        if text == "impl" and self.is_at(self.next(i), "Drop", "for"):
            self.reject(i, "an `impl Drop`, which Rust has in another form")
        if text in ("unsafe", "extern", "Drop", "Model"):
            self.reject(i, f"`{text}`")
        if self.is_at(self.next(i), "!") and self.tokens[self.next(self.next(i))] in CLOSED_BY:
            return self.macro(i)
        if text in tables.REJECTED and not self.is_test:
            self.reject(i, f"`{text}`, which Rattle reads differently")
        if text == "fn" and self.is_at(self.next(i), "main"):
            self.runtime(i)
        if text == "let" and self.before(i) not in ("if", "while", "&"):
            self.reject_else(i)
        self.supply(i)
        return i + 1

    def supply(self, i: int) -> None:
        """Imports what Rust does not have, or has only since a later version."""
        text = self.tokens[i]
        if text in tables.PRELUDE:
            self.imports.add(f"kit::{text}")
        if text in tables.NEWER and self.tokens[i - 1] == ".":
            self.imports.add(f"newer::{tables.NEWER[text]}")
        if text == "use" and self.is_at(self.next(i), "thiserror") and self.has_feature:
            self.out[i] = STD_ONLY + text
        if not self.is_test:
            return
        if text in ("Vec", "String") and self.before(i) != "mod":
            self.imports.add(f"kit::grown::{text}")
        takes_some = not self.is_at(self.next(self.next(i)), ")") or self.before(i) == "fn"
        if text in tables.WITH_ALLOC and takes_some:
            self.imports.add(f"kit::grown::{tables.WITH_ALLOC[text]}")
            self.out[i] = f"{text}_in"

    def reject_else(self, i: int) -> None:
        """Rust has `let .. else` only since 1.65."""
        j = self.next(i)
        while self.tokens[j] != ";":
            if self.tokens[j] == "else" and self.before(j) != "}":
                self.reject(i, "a `let .. else`; write a `match`")
            if self.is_at(j, "{") and self.before(j) == "else":
                return
            j = self.next(self.close(j) if self.tokens[j] in CLOSED_BY else j)

    def macro(self, i: int) -> int:
        text = self.tokens[i]
        inside = self.next(self.next(self.next(i)))
        takes_handle = self.is_at(inside, "in") or self.is_at(self.next(inside), ";")
        if text in tables.WITH_HANDLE and takes_handle:
            is_grown = self.is_test and text in ("vec", "format")
            self.out[i] = f"kit::grown_{text}" if is_grown else f"kit::{text}"
        elif text == "prove" and self.is_size_check(i):
            self.out[i] = "assert"
        elif text in tables.RENAMED:
            self.out[i] = tables.RENAMED[text]
        elif self.tokens[i - 1] != "$" and text not in tables.SAME_MACROS | self.macros:
            self.reject(i, f"a macro `{text}`")
        return i + 1

    def plain(self) -> str:
        i = 0
        while i < len(self.tokens):
            kind = self.kinds[i]
            if i in self.out:
                i += 1
            elif kind == "sign" and self.tokens[i] == "#":
                i = self.attribute(i)
            elif kind == "word":
                i = self.word(i)
            elif kind == "foreign":
                self.reject(i, f"`{self.tokens[i]}` outside of a clause")
            elif self.tokens[i : i + 2] == ["/", "*"]:
                self.reject(i, "a block comment")
            else:
                i += 1
        text = self.written()
        if not self.imports:
            return text
        lines = "".join(f"use {name};\n" for name in sorted(self.imports))
        return re.sub(r"(?m)^(#\[cfg\(feature = \"std\"\)\]\n)?use ", lambda found: lines + found[0], text, count=1)
