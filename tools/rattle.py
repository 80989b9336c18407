"""Reads Rattle: the files of a crate, the clauses of its functions, and the definitions of its specifications."""
import glob
import os
import re

TOP = os.path.dirname(os.path.dirname(os.path.abspath(__file__)))
PROGRAMS = ["pbmtojbg85", "jbgtopbm85"]
# The crates of the product: no tests, no drivers.
CRATES = ["devices", "pbm_core", "qm_core", "raster_core", "t85_core", "program_core", *PROGRAMS, "libt85", "examples"]
ENDINGS = {"src": "rt", "specs": "antt", "proofs": "antt"}
TESTS = re.compile(r"/tests(?:/|\.rt$)")
FUNCTION = re.compile(r"^\s*(pub(?:\([a-z]+\))? )?(?:extern \"C\" )?fn (\w+)")
CLAUSE = re.compile(r"^\s*(?:pub )?(requires|ensures|ghost(?! use))\b")
DEFINITION = re.compile(r"^((?:(?:unfoldable|abbrev|pub) )*)(?:(record|data) )?([^\s:({]+)(?(2).*) : ")


def read(path):
    """Returns the text of a file of the repository."""
    with open(f"{TOP}/{path}", encoding="utf-8") as file:
        return file.read()


def files(crate, folder):
    """Returns the paths of the Rattle files in src, specs or proofs of a crate, or of all (*), without those of tests."""
    found = glob.glob(f"crates/{crate}/{folder}/**/*.{ENDINGS[folder]}", root_dir=TOP, recursive=True)
    return sorted(path for path in found if not TESTS.search(path))


def depth(text):
    return text.count("{") - text.count("}")


def is_text(line):
    """Whether a line is neither blank nor a comment."""
    return bool(line.strip()) and not line.strip().startswith(("//", "--"))


class Function:
    """A function's name, whether it is public, and its clauses: the kind of each, and its numbered lines."""

    def __init__(self, name, is_public):
        self.name, self.is_public, self.clauses = name, is_public, []

    @property
    def lines(self):
        return [line for _, lines in self.clauses for line in lines]

    @property
    def length(self):
        """The characters of its contract, without indentation."""
        return sum(len(line.strip()) + 1 for _, line in self.lines)


def functions(text):
    """Yields the functions of a source, and before them one without a name, which has the ghost facts of types."""
    current, inside = Function("", False), 0
    for number, line in enumerate(text.split("\n"), 1):
        head, clause = FUNCTION.match(line), CLAUSE.match(line)
        if head and not inside:
            yield current
            current = Function(head[2], bool(head[1]) and "(" not in head[1])
        elif clause and not inside:
            current.clauses.append((clause[1], []))
        if clause or inside:
            inside += depth(line)
            current.clauses[-1][1].append((number, line))
    yield current


class Definition:
    """A definition's name, its kind (record, data or nothing), whether it is public, and its lines, with its comment first."""

    def __init__(self, match, comment):
        self.name, self.kind, self.is_public = match[3], match[2] or "", "pub " in match[1]
        self.lines = comment

    @property
    def names(self):
        """Its own name, and those of its constructors."""
        return [self.name, *(name for line in self.lines for name in re.findall(r"^  ([A-Z]\w*) : ", line) if self.kind == "data")]

    @property
    def arguments(self):
        """The number of arguments that a use of it has to write, so without those in braces."""
        head = " ".join(line.strip() for line in self.head)
        if self.kind:
            return arguments_of(head.split(self.name, 1)[1].rsplit(" : Type", 1)[0] + " → Type")
        return arguments_of(head.split(" : ", 1)[1])

    @property
    def head(self):
        """The lines of its type: those that the first one, or an arrow, leaves open."""
        lines = [line for line in self.lines if is_text(line)]
        end = 1
        while not self.kind and lines[end - 1].endswith("→"):
            end += 1
        return lines[:end]


def definitions(text):
    """Returns the definitions of a module of specifications."""
    found, comment = [], []
    for line in text.split("\n"):
        head = DEFINITION.match(line)
        if line.startswith(("use ", "pub use ", "pub mod ")) or not line.strip():
            comment = []
        elif line.startswith("--"):
            comment.append(line)
        elif head:
            found.append(Definition(head, [*comment, line]))
            comment = []
        elif found:
            found[-1].lines.append(line)
    return found


def line_of(text, name):
    """Returns the number of the line that defines a name in a file, or None.

    That is a function or a type, a definition, or else a clause, a field, a goal's answer or a lemma of a section.
    """
    forms = [
        r"^\s*(?:pub(?:\([\w:]+\))? )?(?:extern \"C\" )?(?:fn|struct|trait|enum|const|static|impl) NAME\b",
        r"^(?:abbrev |unfoldable )?pub (?:record |data )?NAME\b",
        r"^ *(?:abbrev |pub |record |data )*NAME\b.* :|^\s*ensures NAME\b",
    ]
    for form in forms:
        found = re.search("(?m)" + form.replace("NAME", re.escape(name)), text)
        if found:
            return text.count("\n", 0, found.end()) + 1
    return None


def arguments_of(text):
    """Returns the number of arguments of a type: the names in each `(a b : A)`, and each unnamed type before an arrow."""
    count = 0
    for part in split(text)[:-1]:
        part = part.strip()
        while part.startswith("{") or re.match(r"\(([\w' ]+) : ", part):
            names, end = re.match(r"\(([\w' ]+) : ", part), group_end(part)
            count += len(names[1].split()) if names else 0
            part = part[end:].strip()
        count += bool(part)
    return count


def split(text):
    """Splits a type at the arrows outside of brackets."""
    parts, open_brackets = [""], 0
    for character in text:
        open_brackets += (character in "({") - (character in ")}")
        if character == "→" and open_brackets == 0:
            parts.append("")
        else:
            parts[-1] += character
    return parts


def group_end(text):
    """Returns the index behind the bracket that closes the first one of a text."""
    open_brackets = 0
    for end, character in enumerate(text, 1):
        open_brackets += (character in "({") - (character in ")}")
        if open_brackets == 0:
            return end
    return len(text)
