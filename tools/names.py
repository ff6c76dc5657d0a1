"""Whether the files and symbols that the documents name in backquotes are there.

A word in backquotes is looked for if it is one of these; any other (a URL, a path of a request or of another machine, a network, an
option) is left alone:

  path    begins with a lower-case letter and has a `/` (`tools/gate`, `node_core/src/node.rt`, `rounds/silent_peer`), or is the name of a
          source or a definition (`rows.rt`, `Run.antt`). It is looked for at the top, in `crates/` and in `cases/`; a name alone, and what
          stands in a folder that crates have (`specs/Run.antt`), in the crates that its line names, or else in all. NAME, CRATE and <..>
          stand for anything. What a build makes (in `build/` and in a folder `out`) is not looked for, nor what begins as in VALUES
  symbol  names joined by `::`. The first is a crate of ours or a type that one declares, and what follows is declared in it; or it is
          named by a `use` line of ours, so that it is the toolchain's, and the rest is not looked for
"""
import re
from pathlib import Path

TOP = Path(__file__).resolve().parent.parent
FENCED = re.compile(r"^```.*?^```[ \t]*$", re.S | re.M)
PATH = re.compile(r"[a-z][\w.*<>-]*(/[\w.*<>-]+)*/?")
SOURCE = re.compile(r"\w+\.(rt|antt)")
SYMBOL = re.compile(r"[A-Za-z]\w*(::[A-Za-z]\w*)+")
ANYTHING = re.compile(r"NAME|CRATE|<[^>]*>")
VALUES = ("application", "image", "text", "neighbour")      # media types, and the sources of the access log
OF_CRATES = ("src", "specs", "proofs", "must-fail", "more-edits")
ITEM = re.compile(r"^(?:pub(?:\(\w+\))? )?(?:const )?(fn|struct|enum|trait|const|static|type|mod|impl)\b([^{;]*)", re.M)
PART = re.compile(r"^    (?:pub(?:\(\w+\))? )?(?:const )?(?:fn|const|type) (\w+)", re.M)
FIELD = re.compile(r"^    (?:pub(?:\(\w+\))? )?(\w+)", re.M)
USE = re.compile(r"^(pub )?(?:ghost )?use ([^;]*);", re.M)


class Crate:
    """What a crate declares: the names at the outermost level of its files, by module, and the parts of its types."""

    def __init__(self, folder):
        self.modules, self.types, self.used, self.names = {}, {}, set(), set()
        for path in sorted(folder.glob("src/**/*.rt")):
            text = path.read_text()
            own = self.modules.setdefault(path.stem, set())
            for item in ITEM.finditer(text):
                own.update(self.take(item[1], item[2], text[item.end() : text.find("\n}", item.end())]))
            for public, names in USE.findall(text):
                (self.names if public else self.used).update(re.findall(r"\w+", names))
            self.names |= own

    def take(self, kind, head, body):
        """Takes an item with the parts of a type. Returns the names that it declares."""
        if kind == "impl":
            for name in re.findall(r"\b[A-Z]\w*", head):
                self.types.setdefault(name, set()).update(PART.findall(body))
            return []
        name = re.match(r"\s*(\w*)", head)[1]
        if kind in ("struct", "enum", "trait"):
            self.types.setdefault(name, set()).update((PART if kind == "trait" else FIELD).findall(body))
        return [name]

    def has(self, names):
        """Whether the last of these names is declared here, within those before it."""
        if len(names) == 1:
            return names[0] in self.names
        within = self.modules.get(names[0], set()) | self.types.get(names[0], set())
        return names[1] in within and (len(names) == 2 or self.has(names[1:]))


def is_symbol(crates, names):
    """Whether a symbol is there, which names joined by `::` are."""
    if names[0] in crates:
        return crates[names[0]].has(names[1:])
    owners = [it for it in crates.values() if names[0] in it.types]
    return any(it.has(names) for it in owners) or not owners and any(names[0] in it.used for it in crates.values())


def is_path(crates, path, named):
    """Whether there is a file or folder at a path, in a line that names these crates."""
    parts = [ANYTHING.sub("*", it) for it in path.rstrip("/").split("/")]
    parts = parts[: parts.index("out")] if "out" in parts else parts
    if not parts or parts[0] in ("build", *VALUES):
        return True
    pattern = "/".join(parts)
    below = ["", "crates/", "cases/", "crates/*/"]
    if SOURCE.fullmatch(pattern):
        below = [f"crates/{it}/{folder}/**/" for it in named or crates for folder in OF_CRATES]
    elif parts[0] in OF_CRATES and len(parts) > 1:
        below = [f"crates/{it}/" for it in named or crates]
    return any(any(TOP.glob(it + pattern)) for it in below)


def looked_for(crates, line):
    """Each path and symbol in backquotes in a line, and whether it is there."""
    words = [word for span in re.findall(r"`([^`]+)`", line) for word in span.split()]
    named = {part for word in words for part in re.split(r"\W+", word)} & crates.keys()
    for word in words:
        symbol = word.partition("(")[0]
        if SYMBOL.fullmatch(symbol):
            yield word, is_symbol(crates, symbol.split("::"))
        elif PATH.fullmatch(word) and "/" in word or SOURCE.fullmatch(word):
            yield word, is_path(crates, word, named)


def names_in(documents):
    """Each path and symbol in backquotes in these documents, but for their fenced blocks: the document, the line's number, the name, and
    whether it is there."""
    crates = {it.name: Crate(it) for it in (TOP / "crates").iterdir() if (it / "src").is_dir()}
    for document in documents:
        text = FENCED.sub(lambda block: "\n" * block[0].count("\n"), document.read_text())
        for number, line in enumerate(text.splitlines(), 1):
            for name, is_there in looked_for(crates, line):
                yield document, number, name, is_there
