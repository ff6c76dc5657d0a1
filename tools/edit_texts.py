"""The must-fail edits as texts: what each plants, in which function it stands, which of them one check tries together, and which rounds a gate
tries. Nothing here runs the prover.

Functions are found by how rt fmt lays out a file. One that is written in an `impl`, a trait or a module has that one's name before its own,
as the prover writes it: `Slots::force`, and `LoneClerk::pass` for `fn pass` of `impl Clerk for Lone`.
"""
import functools
import re
from pathlib import Path
from typing import NamedTuple

TOP = Path(__file__).resolve().parent.parent
FOLDERS = ("must-fail", "more-edits")
# how many edits one round has at most, each in a function of its own, and a gate of how many parts tries all rounds
MOST_TOGETHER, PARTS = 12, 6
OWNER = re.compile(r"( *)(?:pub(?:\([a-z ]+\))? )?(impl|trait|mod)\b(.*)")
BEGIN = re.compile(r"( *)(?:pub(?:\([a-z ]+\))? )?(?:const )?fn (\w+)")
CALLED = re.compile(r"\b(\w+)(?:::<[^()]*>)?\(")


class Edit:
    """A must-fail edit: its crate's folder, the function that it is to be refused in and the clause that has to refuse it, where it names them,
    and its changes, in order: the path of a file in its crate, the old text and the new one."""

    def __init__(self, path):
        self.path, self.crate = path, path.parent.parent
        self.function, self.clause, self.changes = None, None, []
        file = old = None
        for line in path.read_text().splitlines():
            word, _, text = line.partition(":")
            text = text.removeprefix(" ")
            if word == "only":
                self.function = text.strip()
            elif word == "by":
                self.clause = text.strip()
            elif word == "file":
                file = text.strip()
            elif word == "old":
                old = text
            elif word == "new" and file and old:
                self.changes.append((file, old, text))

    @property
    def name(self):
        return f"{self.crate.name}/{self.path.stem}"


def edits_in(folder):
    """The edits of a crate, by name."""
    found = [it for part in FOLDERS for it in (folder / part).glob("*.edit")]
    return [Edit(it) for it in sorted(found, key=lambda it: it.stem)]


def crates_with_edits(top=TOP):
    """The folders of the crates that have edits, by name."""
    return [it for it in sorted(top.glob("crates/*")) if edits_in(it)]


class Function(NamedTuple):
    """A function in a text: its name, with that of what it is written in, and where it begins and ends."""

    name: str
    begin: int
    end: int


def without_parameters(head):
    """A text without what stands in angle brackets."""
    shorter = re.sub(r"<[^<>]*>", "", head.replace("->", ""))
    return shorter if shorter == head else without_parameters(shorter)


def last_names(types):
    """The names of types that commas part, without their paths and parameters, written together."""
    return "".join(re.findall(r"(\w+)(?: *,|$)", without_parameters(types)))


def after_parameters(head):
    """The head of an `impl` behind its own parameters in angle brackets."""
    plain, depth = head.strip().replace("->", "  "), 0
    for at, letter in enumerate(plain):
        depth += {"<": 1, ">": -1}.get(letter, 0)
        if not depth:
            return plain[at + (letter == ">") :].strip()
    return ""


def owner_of(kind, head):
    """The name that an `impl`, a trait or a module gives to what is written in it: `Lone`, `LoneClerk`, or `FaultFromAllocError`."""
    if kind != "impl":
        return re.match(r"\s*(\w+)", head)[1]
    trait, found, own = re.split(r" where\b| ?{", after_parameters(head))[0].rpartition(" for ")
    name, _, types = trait.partition("<")
    return last_names(own) + (last_names(name) + last_names(types.removesuffix(">")) if found else "")


@functools.lru_cache(None)
def functions_in(text):
    """The functions of a file's text, in order."""
    found, owners, at, lines = [], [], 0, text.splitlines(True)
    for number, line in enumerate(lines):
        if owners and line.rstrip() == owners[-1][0] + "}":
            owners.pop()
        opened, begun = OWNER.match(line), BEGIN.match(line)
        if opened and not line.rstrip().endswith((";", "}")):
            owners.append((opened[1], owner_of(opened[2], opened[3])))
        elif begun:
            name = "::".join([*(it for _, it in owners), begun[2]])
            found.append(Function(name, at, at + sum(map(len, lines[number : last_line(lines, number, begun[1]) + 1]))))
        at += len(line)
    return found


def last_line(lines, first, indent):
    """The number of the last line of a function that begins in this one."""
    if lines[first].rstrip().endswith((";", "}")):
        return first
    return next((it for it in range(first + 1, len(lines)) if lines[it].rstrip() == indent + "}"), first)


def is_called(function, name):
    """Whether a function of this name is the one that `only:` names, `name`, `Type::name` or `module::name`."""
    return function == name or name.endswith("::" + function) or function.endswith("::" + name)


def function_named(function, text):
    """The function of a text that `only:` names, or None."""
    return next((it for it in functions_in(text) if is_called(function, it.name)), None)


def around(function, text):
    """A text without the function that `only:` names; None where it isn't there."""
    found = function_named(function, text)
    return text[: found.begin] + text[found.end :] if found else None


def function_at(text, place):
    """The innermost function around a place in a text, or None."""
    return next((it for it in reversed(functions_in(text)) if it.begin <= place < it.end), None)


@functools.lru_cache(None)
def source(path):
    return path.read_text()


def planted(edit, texts):
    """The texts of the files of a crate, by path, with an edit planted, and None; or None, and why it can't be planted. It goes into these
    texts, and else into those of the files themselves."""
    texts = dict(texts)
    for path, old, new in edit.changes:
        if path not in texts and not (edit.crate / path).is_file():
            return None, f"there is no file {path}"
        text = texts.get(path) or source(edit.crate / path)
        if text.count(old) != 1:
            return None, f"its text stands {text.count(old)} times in {path}: {old.strip()}"
        texts[path] = text.replace(old, new)
    return texts, None


@functools.lru_cache(None)
def place_of(edit):
    """The file and the function that an edit names, looked for in what it changes and then in all its crate; None where it isn't there."""
    files = [edit.crate / path for path, _, _ in edit.changes] + sorted(edit.crate.glob("src/**/*.rt"))
    for file in files if edit.function else []:
        found = function_named(edit.function, source(file)) if file.is_file() else None
        if found:
            return str(file.relative_to(edit.crate)), found.name
    return None


@functools.lru_cache(None)
def keeps_to_its_function(edit):
    """Whether an edit changes nothing else than the function that it names, so that one check can try others beside it."""
    texts, _ = planted(edit, {})
    befores = [(around(edit.function, source(edit.crate / path)), around(edit.function, text)) for path, text in (texts or {}).items()]
    return all(before is not None and before == after for before, after in befores)


@functools.lru_cache(None)
def calls(edit, other):
    """Whether the function of an edit calls that of another one, by its text and what is planted: what is called as that one is counts as it."""
    path, name = place_of(edit)
    text = source(edit.crate / path)
    found = next(it for it in functions_in(text) if it.name == name)
    body = text[found.begin : found.end].partition("\n")[2] + "".join(new for _, _, new in edit.changes)
    return place_of(other)[1].rpartition("::")[2] in CALLED.findall(body)


def keep_apart(edit, other):
    """Whether one check can't try both of these edits: they stand in one function, or one's calls the other's."""
    return place_of(edit) == place_of(other) or calls(edit, other) or calls(other, edit)


class Round:
    """Edits of one crate that one check tries, and the texts with them in."""

    def __init__(self, edits=()):
        self.edits, self.texts = [], {}
        for edit in edits:
            self.put(edit)

    def put(self, edit):
        """Puts an edit in. Returns whether it can be planted beside the others."""
        texts, why = planted(edit, self.texts)
        if not why:
            self.edits, self.texts = [*self.edits, edit], texts
        return not why

    def takes(self, edit):
        """Puts an edit in where there is room for it: it stands in another function than each of the others, neither calls the other, they
        change nothing else, and it can be planted beside them. Returns whether there was."""
        is_free = len(self.edits) < MOST_TOGETHER and all(map(keeps_to_its_function, [self.edits[0], edit]))
        return is_free and not any(keep_apart(it, edit) for it in self.edits) and self.put(edit)


def rounds_of(edits):
    """The edits of one crate that name a function in rounds, the same ones each time: each goes into the first round that takes it, those that
    have to be kept apart from the most others first."""
    known = [it for it in edits if place_of(it) and not planted(it, {})[1]]
    apart = {it: sum(keep_apart(it, other) for other in known) for it in known}
    rounds = []
    for edit in sorted(known, key=lambda it: (-apart[it], it.name)):
        if not any(it.takes(edit) for it in rounds):
            rounds.append(Round([edit]))
    return rounds


def part_of(revision):
    """Which part of the rounds a gate on this revision of the sources tries."""
    return int(revision, 16) % PARTS


def due(rounds, changed, revision):
    """Of all rounds those that a gate tries: those of the crates that changed, and of all others each PARTS-th, which one it begins with by the
    revision."""
    return [it for number, it in enumerate(rounds) if it.edits[0].crate.name in changed or number % PARTS == part_of(revision)]


def naming(crate, word):
    """The functions of a crate that name something, each with its file."""
    files = {str(it.relative_to(crate)): source(it) for it in sorted(crate.glob("src/**/*.rt"))}
    return [(path, it.name) for path, text in files.items() for it in functions_in(text) if re.search(rf"\b{word}\b", text[it.begin : it.end])]


def named_by(edit):
    """The functions that the line `only:` of an edit can name, each with its file: those in which its changes stand, or that name the constant
    that it changes."""
    found = []
    for path, old, _ in edit.changes:
        text = source(edit.crate / path)
        place = text.find(old)
        function = function_at(text, place)
        constant = re.match(r"(?:pub(?:\([a-z ]+\))? )?const (\w+)", text[text.rfind("\n", 0, place) + 1 :])
        found += [(path, function.name)] if function else naming(edit.crate, constant[1]) if constant else []
    return list(dict.fromkeys(found))


def shortest(crate, path, name):
    """The shortest name of a function that fits no other one of its crate: its own, with that of what it is written in, or with its module too."""
    every = [it.name for file in crate.glob("src/**/*.rt") for it in functions_in(source(file))]
    module = [it for it in Path(path).with_suffix("").parts[1:] if it not in ("lib", "main", "mod")]
    is_alone = sum(it == name or it.endswith("::" + name) for it in every) == 1
    return name if is_alone else "::".join([*module, name])
