"""What the prover says of must-fail edits, and the record of what it refused, tools/refused.txt.

The record has a line for each edit: its crate and name, the sum of the crate's sources, that of the edit, the day, and the function with
the goals that were not proved of it. The sum of a crate covers all files in its src/, specs/ and proofs/, without the lines that are
comments, and nothing of the crates below it; that of an edit covers the function that it names and its changes. Whether the clause that an
edit names is among the goals is looked for in the line. What was seen since goes to build/refused.txt, in the same form.
"""
import datetime
import functools
import hashlib
import re
import threading
from typing import NamedTuple

from edit_texts import TOP

RECORD, SEEN = TOP / "tools" / "refused.txt", TOP / "build" / "refused.txt"
# The crates whose edits have to be refused on the text as it is: the node, the log of its events, its queries, and HTTP's rules.
CLOSELY = ("node_words", "node_core", "plain_node", "node_book", "mio_queries", "http_rules")
NOT_REFUSED = "NOT REFUSED"
HEAD = """# Which must-fail edits were refused on which text, written by tools/edits --record: the edit, the sum of its crate's own src/, specs/ and
# proofs/ without comments, that of the function it names and its changes, the day, and the function with what was not proved of it.
"""
COMMENTS = ("//", "-- ")


class Verdict(NamedTuple):
    """What a check says of an edit: whether it was refused, what is printed, and what the record has of it, None where nothing is known."""

    is_refused: bool
    said: str
    told: str


class Refusal:
    """What a check says of a function that it refuses: the goals that are not proved, and the faults in its proof files."""

    def __init__(self, function, lines, line):
        place = "proofs/" + "/".join(line.split(": ")[0].split("::")[1:]) + "/"
        at = lines.index(line)
        first = max((it for it in range(at) if lines[it].startswith("fn ")), default=-1) + 1
        told = [it for it in lines if place in it and re.match(r"(note: |\S+:\d+:\d+: )", it)]
        self.function, self.line = function, line
        self.goals = [it for it in lines[first:at] if re.match(r"note: \S+:\d+:\d+: it is not proved that", it)]
        self.goals += [it for it in told if "must prove" in it]
        self.faults = [it for it in told if ": error" in it]

    def calls_another(self):
        """Whether the function calls one that is not proved."""
        return bool(re.search(r"it calls .*, which (is|are) not proved|a call of `\S+`, which has no proof", self.line))

    def at_clause(self, clause):
        """What tells that this clause does not hold, or None."""
        return next((it for it in self.goals if names(clause, it)), None)

    def why(self):
        """What is said first of what does not hold, or None."""
        return next(iter([*self.goals, *self.faults]), None)

    def how(self):
        """Where the refusal says little of the contract, why that is so."""
        if self.goals:
            return ""
        named = re.compile(r"has no field|is not in scope|has no `|was not admitted")
        if any(named.search(it) for it in self.faults):
            return " (only because a proof file names what the edit took away: change a value and keep the names)"
        return " (only because a proof that is written does not fit any more)"

    def told(self, clause):
        """What the record has: the function and the names of the goals, and the clause where it is another word of what is said."""
        named = (re.search(r"\(`([^`]+)`\)|error: `([^`]+)`|`([^`]+)` of proofs/", it) for it in self.goals or self.faults)
        found = [next(filter(None, it.groups())) for it in named if it]
        goals = " ".join(dict.fromkeys(found)) or short(self.why() or self.line)
        more = f" ({clause})" if clause and not names(clause, goals) else ""
        return f"{self.function}: {'' if self.goals else 'a written proof: '}{goals}{more}"


def names(clause, said):
    """Whether a clause is named in what is said, as a word of its own."""
    return bool(re.search(rf"(?<!\w){re.escape(clause)}(?!\w)", said))


def short(said):
    return said.removeprefix("note: ")[:300]


def said_of(function, lines):
    """The lines in which a check says of a function, or of a closure in it, whether it is proved."""
    modules, own = re.match(r"((?:[a-z_]\w*::)*)(\S+)", function).groups()
    paths = f"{re.escape(function)}|{modules}fn::{own}::\\S+"
    return [it for it in lines if re.match(rf"fn (\S+::)?({paths}): (proved|not proved|no proof|could not tell)", it)]


def verdict(function, clause, lines):
    """What a check says of an edit in this function that this clause has to refuse, if one is named. None where the function calls another that
    is not proved and nothing else is told of it, since that tells nothing of the edit."""
    said = said_of(function, lines)
    refused = [Refusal(function, lines, it) for it in said if ": proved" not in it]
    if not said:
        return Verdict(False, f"NOT TRIED: the prover says nothing of {function}", None)
    if not refused:
        return Verdict(False, f"{NOT_REFUSED}: the function is still proved", NOT_REFUSED)
    told = next((it for it in refused if it.goals), refused[-1])
    if not told.goals and told.calls_another():
        return None
    if not told.why():
        return Verdict(False, f"NOT TRIED: no clause is told that does not hold: {told.line}", None)
    if not clause:
        return Verdict(True, f"refused, as it must be{told.how()}: {short(told.why())}", told.told(None))
    at = next((it for it in refused if it.at_clause(clause)), None)
    if at:
        return Verdict(True, f"refused, as it must be: {short(at.at_clause(clause))}", at.told(clause))
    other = "something else alone" if told.goals else "a proof that is written and does not fit any more, alone"
    return Verdict(False, f"{NOT_REFUSED} by `{clause}`, but by {other}: {short(told.why())}", NOT_REFUSED)


def verdict_of_crate(is_refused, said):
    """What a check of a whole crate says of an edit that names no function, by the words of rt."""
    if "NOT TRIED" in said or "BAD EDIT" in said:
        return Verdict(False, said, None)
    return Verdict(is_refused, said, f"the crate: {said.partition('as it must be')[2].lstrip(': ')[:160]}" if is_refused else NOT_REFUSED)


def summed(texts):
    """The beginning of a SHA-256 sum of texts."""
    whole = hashlib.sha256()
    for text in texts:
        whole.update(f"{len(text.encode())}\n{text}".encode())
    return whole.hexdigest()[:12]


def without_comments(text):
    return "".join(line for line in text.splitlines(True) if not line.lstrip().startswith(COMMENTS))


@functools.lru_cache(None)
def sum_of_crate(folder):
    """The sum of a crate's own sources, definitions and proofs, without the lines that are comments."""
    files = sorted(it for part in ("src", "specs", "proofs") for it in folder.glob(f"{part}/**/*") if it.is_file())
    return summed(text for it in files for text in (str(it.relative_to(folder)), without_comments(it.read_text())))


def sums_of(edit):
    """The sum of an edit's crate, and that of what it plants where."""
    return sum_of_crate(edit.crate), summed(["\n".join([edit.function or "", *(it for change in edit.changes for it in change)])])


class Record:
    """What was refused, by the names of edits: the sums of the crate and of the edit, the day, and why."""

    def __init__(self, path):
        self.path, self.lines, self.adding = path, {}, threading.Lock()
        for line in path.read_text().splitlines() if path.is_file() else []:
            name, *words = line.split(" ", 4)
            if not line.startswith("#") and len(words) == 4:
                self.lines[name] = words

    def has(self, edit):
        """Whether an edit was refused on the text as it is, by the clause that has to refuse it if it names one."""
        words = self.lines.get(edit.name)
        fits = bool(words) and tuple(words[:2]) == sums_of(edit) and words[3] != NOT_REFUSED
        return fits and (not edit.clause or "a written proof: " not in words[3] and names(edit.clause, words[3].partition(": ")[2]))

    def changed(self, edits):
        """The names of the crates that the record has, and of which one of these edits was not refused on the text as it is."""
        known = {name.partition("/")[0] for name in self.lines}
        return sorted({it.crate.name for it in edits if it.crate.name in known and not self.has(it)})

    def add(self, edit, told):
        """Adds what was seen of an edit, at the end of the file."""
        with self.adding:
            self.lines[edit.name] = [*sums_of(edit), str(datetime.date.today()), told]
            self.path.parent.mkdir(parents=True, exist_ok=True)
            with open(self.path, "a") as file:
                file.write(" ".join([edit.name, *self.lines[edit.name]]) + "\n")

    def with_seen(self, seen, edits):
        """The lines for these edits: what was seen on the text as it is, or else what is recorded. What was seen not to be refused has none."""
        found = {}
        for edit in edits:
            words = seen.lines.get(edit.name)
            words = words if words and tuple(words[:2]) == sums_of(edit) else self.lines.get(edit.name)
            if words and words[3] != NOT_REFUSED:
                found[edit.name] = words
        return found

    def write(self, seen, edits):
        self.lines = self.with_seen(seen, edits)
        self.path.write_text(HEAD + "".join(" ".join([name, *words]) + "\n" for name, words in sorted(self.lines.items())))
