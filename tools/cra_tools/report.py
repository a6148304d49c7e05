"""Reads a report of `analyse` or of `prove` (docs/FORMATS.md, "The report")."""
import re
from dataclasses import dataclass, field
from fractions import Fraction

ASSERTION = re.compile(r"assertion (\d+) at (\d+):(\d+) (proved|unproved)")
REFUSED = re.compile(r"refused ([a-z ]+) at (\d+):(\d+)")


@dataclass
class Case:
    """A case of a summary: rows, and posts as (name, polynomial)."""

    rows: list = field(default_factory=list)
    posts: list = field(default_factory=list)


@dataclass
class Summary:
    name: str
    cases: list = field(default_factory=list)
    notes: list = field(default_factory=list)


@dataclass
class Verdict:
    number: int
    line: int
    column: int
    proved: bool
    rows: list = field(default_factory=list)
    names: list = field(default_factory=list)
    point: dict = None
    limit: str = ""
    notes: list = field(default_factory=list)


@dataclass
class Reached:
    """Rows that hold at a point of a procedure, or where it returns."""

    place: str
    rows: list = field(default_factory=list)


@dataclass
class Report:
    summaries: list = field(default_factory=list)
    verdicts: list = field(default_factory=list)
    entry_notes: list = field(default_factory=list)
    reached: list = field(default_factory=list)
    is_cut: bool = False  # whether rows at points may be missing
    total: str = ""


def point_of(text):
    """The numbers of a line `point $1 = 1, $2*$2 = -1/2` by their monomials."""
    found = {}
    for it in text.split(", ") if text != "none" else []:
        name, _, number = it.rpartition(" = ")
        found[name] = Fraction(number)
    return found


def read(text):
    """The report of a text, in its parts."""
    made, now = Report(), None
    for line in text.splitlines():
        now = inner(made, now, line) if line.startswith("  ") else outer(made, now, line)
    return made


def outer(made, now, line):
    found = ASSERTION.fullmatch(line)
    if line.startswith("procedure "):
        made.summaries.append(Summary(line[len("procedure ") :]))
        return made.summaries[-1]
    if line.startswith("case "):
        made.summaries[-1].cases.append(Case())
    elif found:
        made.verdicts.append(Verdict(*map(int, found.groups()[:3]), found[4] == "proved"))
        return made.verdicts[-1]
    elif line.startswith(("reached ", "returned ")):
        made.reached.append(Reached(line))
        return made.reached[-1]
    elif line == "note search beyond":
        made.is_cut = True
    elif line.startswith("note "):
        (now.notes if now else made.entry_notes).append(line[len("note ") :])
    elif line.startswith("total "):
        made.total = line
    return now


POST = re.compile(r"(\$ret|[A-Za-z_]\w*(?:#\d+)?') = (.*)")
NAMED = re.compile(r"([A-Za-z_]\w*(?:#\d+)?) = (.*)")


def inner(made, now, line):
    line = line[2:]
    if isinstance(now, Verdict):
        of_verdict(now, line)
    elif isinstance(now, Reached):
        now.rows.append(line)
    elif POST.fullmatch(line):
        made.summaries[-1].cases[-1].posts.append(POST.fullmatch(line).groups())
    else:
        made.summaries[-1].cases[-1].rows.append(line)
    return now


def of_verdict(verdict, line):
    """Rows come first, over numbers `$k` alone, then the named columns, then the point or the limit."""
    if line.startswith("point "):
        verdict.point = point_of(line[len("point ") :])
    elif line.startswith("limit "):
        verdict.limit = line[len("limit ") :]
    elif NAMED.fullmatch(line):
        verdict.names.append(NAMED.fullmatch(line).groups())
    else:
        verdict.rows.append(line)


TERM = re.compile(r"(?:(\d+)\*)?((?:\$\w+|[A-Za-z_]\w*(?:#\d+)?'?)(?:\*(?:\$\w+|[A-Za-z_]\w*(?:#\d+)?'?))*)|(\d+)")


def terms(poly):
    """The terms of a polynomial as (coefficient, monomial); the number has the monomial ''."""
    found, sign = [], 1
    for word in poly.replace("- ", " - ").split():
        if word in "+-":
            sign = 1 if word == "+" else -1
            continue
        if word.startswith("-"):
            sign, word = -sign, word[1:]
        it = TERM.fullmatch(word)
        if not it:
            return None
        found.append((sign * int(it[3]), "") if it[3] else (sign * int(it[1] or 1), it[2]))
        sign = 1
    return found


def value_at(poly, point):
    """The value of a polynomial at a point, where each monomial is an unknown of its own."""
    total = Fraction(0)
    for number, mono in terms(poly) or []:
        total += number * (point.get(mono, product(mono, point)) if mono else 1)
    return total


def product(mono, point):
    """The value of a monomial that the point does not name: the product of its columns, 0 for unknown ones."""
    total = Fraction(1)
    for it in mono.split("*"):
        total *= point.get(it, Fraction(0))
    return total
