"""Says rows, posts and notes in plain words, where they have some."""
import re

from .report import terms

# Polynomials: a dict from a monomial, a sorted tuple of names, to its coefficient


def polynomial(text):
    """The polynomial of a text, or None where it has another form."""
    found = terms(text)
    if found is None:
        return None
    made = {}
    for number, mono in found:
        key = tuple(sorted(mono.split("*"))) if mono else ()
        made[key] = made.get(key, 0) + number
    return {key: number for key, number in made.items() if number}


def total(a, b, by=1):
    """The sum of a and a multiple of b."""
    made = dict(a)
    for key, number in b.items():
        made[key] = made.get(key, 0) + by * number
    return {key: number for key, number in made.items() if number}


def times(a, b):
    made = {}
    for one, left in a.items():
        for other, right in b.items():
            key = tuple(sorted(one + other))
            made[key] = made.get(key, 0) + left * right
    return {key: number for key, number in made.items() if number}


def substituted(poly, names):
    """A polynomial with polynomials put in for some of its names."""
    made = {}
    for key, number in poly.items():
        part = {(): number}
        for it in key:
            part = times(part, names.get(it, {(it,): 1}))
        made = total(made, part)
    return made


def names_in(poly):
    return {it for key in poly for it in key}


def shown_term(key, number):
    mono = "*".join(key)
    return str(number) if not mono else mono if number == 1 else f"{number}*{mono}"


def is_auxiliary(name):
    return bool(re.fullmatch(r"\$\d+", name))


def ordered(poly):
    return sorted(poly.items(), key=lambda it: (-len(it[0]), it[0]))


def shown_sum(poly):
    """A polynomial as C writes it, positive terms first."""
    parts = sorted(ordered(poly), key=lambda it: it[1] < 0)
    if not parts:
        return "0"
    text = "-" * (parts[0][1] < 0) + shown_term(parts[0][0], abs(parts[0][1]))
    for key, number in parts[1:]:
        text += (" + " if number > 0 else " - ") + shown_term(key, abs(number))
    return text


def shown_row(poly, is_equation):
    """A row as a comparison: what is alone stands on the left, and nothing is subtracted where that can be."""
    left = {key: number for key, number in poly.items() if number > 0 and key}
    right = {key: -number for key, number in poly.items() if number < 0 and key}
    number, mark = poly.get((), 0), "==" if is_equation else "<="
    if not is_equation and number == 1 and left and right:
        number, mark = 0, "<"
    if len(left) <= 1 and left or not right:
        right = total(right, {(): -number}) if number else right
    else:
        left = total(left, {(): number}) if number else left
    if len(right) == 1 and () not in right and (len(left) != 1 or () in left):
        left, right, mark = right, left, {"<=": ">=", "<": ">", "==": "=="}[mark]
    return f"{shown_sum(left)} {mark} {shown_sum(right)}"


def row_of(line):
    """A printed row as its polynomial and whether it is an equation."""
    found = re.fullmatch(r"(.*) (<=|=) 0", line)
    poly = polynomial(found[1]) if found else None
    return (poly, found[2] == "=") if poly is not None else None


def row_words(line, names):
    row = row_of(line)
    return shown_row(substituted(row[0], names), row[1]) if row else line


def plain_names(posts):
    """For numbers `$k` the value that they stand for: `$1` is a where `a = $1`, and n + 1 where `n = $1 - 1`."""
    found = {}
    for name, text in posts:
        poly = polynomial(text)
        alone = [it for it in sorted(names_in(poly or {})) if is_auxiliary(it) and it not in found]
        for it in alone[:1]:
            number = poly.get((it,), 0)
            if abs(number) == 1 and all(it not in key or key == (it,) for key in poly):
                rest = total(poly, {(it,): number}, -1)
                if not any(is_auxiliary(other) for other in names_in(rest)):
                    found[it] = total({(name,): number}, rest, -number)
    return found


# Summaries

AT_LEAST_ONE = re.compile(r"-(\$\d+) \+ 1 <= 0")

def counters(case):
    """The numbers that are at least 1 by a row of their own, as the turns of a loop are."""
    return [it[1] for it in map(AT_LEAST_ONE.fullmatch, case.rows) if it]


def change_words(name, change, mark, turns):
    """`x` grows by at most 2 a turn: a change that is a number, a multiple of a number of turns, or has one sign."""
    if len(change) == 1 and all(key == () or key == (it,) for key in change for it in key or ("",)):
        (by, number), *_ = change.items()
        if not by or by[0] in turns:
            verb, bound = ("grows", mark) if number > 0 else ("falls", {"at most": "at least", "at least": "at most", "": ""}[mark])
            return f"`{name}` {verb} by {bound + ' ' if bound else ''}{abs(number)}" + (" a turn" if by else "")
    if mark or not change or any(is_auxiliary(it) for it in names_in(change)):
        return None
    if all(number < 0 for number in change.values()):
        return f"`{name}` falls by {shown_sum({key: -number for key, number in change.items()})}"
    return f"`{name}` grows by {shown_sum(change)}"


def post_words(name, text, case, turns):
    """What a summary says of a value at the exit."""
    poly, is_result = polynomial(text), name == "$ret"
    said = "the result" if is_result else f"`{name[:-1]}`"
    if poly is None:
        return f"{said} is {text}"
    alone = re.fullmatch(r"\$\d+", text)
    others = [it for it in [*case.rows, *(poly for other, poly in case.posts if other != name)] if text in re.findall(r"\$\d+", it)]
    if alone and not others:
        return f"{said} is any number"
    if alone:
        return None
    if not is_result:
        old = name[:-1].split("#")[0]
        if poly == {(old,): 1}:
            return f"`{old}` stays"
        told = change_words(old, total(poly, {(old,): 1}, -1), "", turns)
        if told:
            return told
    return f"{said} is {shown_sum(poly)}"


def bound_words(line, case, turns, names):
    """`x` grows by at most c a turn, where a row says so of a value at the exit and the same one at the entry."""
    row = row_of(line)
    if not row:
        return None
    poly = substituted(row[0], names)
    for name, _ in case.posts:
        old = name[:-1]
        if name != "$ret" and abs(poly.get((name,), 0)) == 1 and poly.get((old,), 0) == -poly[(name,)]:
            sign = poly[(name,)]
            rest = total(poly, {(name,): sign, (old,): -sign}, -1)
            # sign * (new - old) + rest <= 0
            change = {key: -sign * number for key, number in rest.items()}
            return change_words(old, change, "" if row[1] else "at most" if sign > 0 else "at least", turns) if change else None
    return None


def case_words(case):
    """A case of a summary as what comes of a call, and the conditions under which it may."""
    turns = counters(case)
    names = {it[0]: {(name,): 1} for name, it in ((name, re.fullmatch(r"\$\d+", text)) for name, text in case.posts) if it}
    told = [it for it in (post_words(name, text, case, turns) for name, text in case.posts) if it]
    where, seen = [], set()
    for line in case.rows:
        it = AT_LEAST_ONE.fullmatch(line)
        if it and it[1] not in names:
            where.append(f"{it[1]} >= 1 (as the turns of a loop are)")
            continue
        bound = bound_words(line, case, turns, names)
        (told if bound else where).append(bound or row_words(line, names).replace("$ret", "result"))
    told = [it for it in told if not (it in seen or seen.add(it))]
    return told, where


def summary_words(summary):
    """Lines of words for a procedure."""
    if not summary.cases:
        return ["no execution of it returns"]
    lines = []
    for number, case in enumerate(summary.cases, 1):
        told, where = case_words(case)
        head = f"case {number}: " if len(summary.cases) > 1 else ""
        text = "; ".join(told) or "returns"
        lines.append(head + text + (", where " + ", ".join(where) if where else ""))
    return lines


# Notes

NOTES = [
    (r"squash (\d+) cases", "{0} cases became one: what they have in common is kept, what tells them apart is lost"),
    (r"cut (\d+) rows", "{0} facts were left out, since a case holds 64 at most"),
    (r"wide (.*)", "a fact was left out, since {0} does not fit into 128 bits"),
    (r"degree", "a fact was left out, since it has a product of more than four variables"),
    (r"limit wide (.*)", "a question has no answer, since {0} does not fit into 128 bits; what it would give is missing"),
    (r"limit pivots", "a question has no answer, since the search had no further step; what it would give is missing"),
    (r"dropped (.*?) (?:point .*|limit .*)", "recursion: that {0} holds at every return was a guess, and one more unfolding did not keep it"),
    (r"facets beyond", "a loop was summed up as by `analyse`, since a turn of it has too much for the hull of its changes"),
    (r"search beyond", "the search for rows at loops, entries and returns came to the end of its counts, so rows may be missing"),
]


def note_words(note):
    for form, words in NOTES:
        found = re.fullmatch(form, note)
        if found:
            return words.format(*found.groups())
    return note
