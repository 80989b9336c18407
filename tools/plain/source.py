"""The tokens of a source file, and what replaces them."""
from __future__ import annotations

import re

TOKEN = re.compile(
    r"(?P<space>\s+)|(?P<comment>//[^\n]*)|(?P<string>b?\"(?:\\.|[^\"\\])*\")|(?P<char>b?'(?:\\.[^']*|[^'\\])')"
    r"|(?P<lifetime>'[A-Za-z_]\w*)|(?P<word>[A-Za-z_]\w*)|(?P<number>[0-9]\w*)|(?P<sign>[-+*/%^!&|=<>@.,;:#$?~(){}\[\]])",
    re.DOTALL,
)
# Placeholders for erased text, which `tidy` removes: an erased text; an item, which may have a comment above it; and text after
# which a body is joined to the line of its function.
GONE, ITEM, JOINED = "\0", "\1", "\2"
CLOSED_BY = {"(": ")", "[": "]", "{": "}"}


class Rejected(Exception):
    """A form that no table lists, with its file and line."""


class Source:
    """The tokens of a file by number; `out` has the replacements."""

    def __init__(self, path: str) -> None:
        self.path = path
        with open(path, encoding="utf-8") as file:
            self.text = file.read()
        self.kinds: list[str] = []
        self.tokens: list[str] = []
        self.places: list[int] = []
        self.out: dict[int, str] = {}
        at = 0
        while at < len(self.text):
            found = TOKEN.match(self.text, at)
            # A letter that Rust does not have belongs to a clause, with which it is erased.
            kind, token = (found.lastgroup or "", found.group()) if found else ("foreign", self.text[at])
            self.kinds.append(kind)
            self.tokens.append(token)
            self.places.append(at)
            at += len(token)

    def reject(self, i: int, why: str) -> None:
        line = self.text.count("\n", 0, self.places[min(i, len(self.places) - 1)]) + 1
        raise Rejected(f"{self.path}:{line}: {why}")

    def next(self, i: int) -> int:
        """Returns the number of the next token that is neither space nor comment."""
        i += 1
        while i < len(self.tokens) and self.kinds[i] in ("space", "comment"):
            i += 1
        return i

    def before(self, i: int) -> str:
        """Returns the token before, without space and comments."""
        i -= 1
        while self.kinds[i] in ("space", "comment"):
            i -= 1
        return self.tokens[i]

    def is_at(self, i: int, *wanted: str) -> bool:
        for text in wanted:
            if i >= len(self.tokens) or self.tokens[i] != text:
                return False
            i = self.next(i)
        return True

    def close(self, i: int) -> int:
        """Returns the number of the token that closes the bracket at `i`."""
        if self.tokens[i] not in CLOSED_BY:
            self.reject(i, f"`{self.tokens[i]}` where a bracket was expected")
        opening, closing, depth = self.tokens[i], CLOSED_BY[self.tokens[i]], 0
        for j in range(i, len(self.tokens)):
            if self.kinds[j] in ("sign", "foreign"):
                depth += (self.tokens[j] == opening) - (self.tokens[j] == closing)
                if depth == 0:
                    return j
        self.reject(i, "a bracket that is not closed")
        raise AssertionError

    def erase(self, first: int, last: int, mark: str = GONE) -> None:
        for i in range(first, last + 1):
            self.out[i] = mark if i == first else ""

    def written(self) -> str:
        return tidy("".join(self.out.get(i, token) for i, token in enumerate(self.tokens)))


def tidy(text: str) -> str:
    """Removes the lines that were erased, and the space before erased text."""
    lines = text.split("\n")
    left = [re.sub(f"[{GONE}{ITEM}]", "", line) for line in lines]
    for i, line in enumerate(lines):
        j = i - 1
        # A comment on an erased item stays, but as one that documents nothing below it.
        while ITEM in line and not left[i].strip() and lines[j].strip().startswith("///"):
            lines[j] = lines[j].replace("///", "//", 1)
            j -= 1
    text = "\n".join(line for line, rest in zip(lines, left) if line == rest or rest.strip())
    text = re.sub(f"[ \\t]*[{GONE}{ITEM}]", "", text)
    text = re.sub(f"(?m)(^ *//.*\\n *){JOINED}", r"\1", text)
    text = re.sub(rf"\s*{JOINED};", ";", text)
    text = re.sub(rf"\s*{JOINED}", " ", text)
    text = re.sub(r"\n{3,}", "\n\n", text)
    text = re.sub(r"\{\n\n+", "{\n", text)
    return re.sub(r"\n\n+( *\})", r"\n\1", text)
