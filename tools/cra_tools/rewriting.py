"""Rewritings that keep the meaning of a text: each gives edits of it, and each keeps the lines where they are."""
import re
from dataclasses import dataclass

from . import language

ASSIGNS = {"=", "+=", "-=", "*=", "/=", "%="}


@dataclass
class Edit:
    """Text from `at` to `end` becomes `new`."""

    at: int
    end: int
    new: str


@dataclass
class Rewriting:
    """What was done, in which line."""

    line: int
    what: str


def edited(text, edits):
    for it in sorted(edits, key=lambda it: (it.at, it.end), reverse=True):
        text = text[: it.at] + it.new + text[it.end :]
    return text


def blank(text):
    """Nothing but the line ends of a text."""
    return "".join(it for it in text if it == "\n")


def depths(tokens):
    """The number of braces around each token."""
    found, depth = [], 0
    for it in tokens:
        depth -= it.text == "}"
        found.append(depth)
        depth += it.text == "{"
    return found


def closing(tokens, at):
    """The token that closes the bracket at a token, or None."""
    pairs, depth = {"(": ")", "{": "}", "[": "]"}, 0
    opens, closes = tokens[at].text, pairs[tokens[at].text]
    for number in range(at, len(tokens)):
        depth += (tokens[number].text == opens) - (tokens[number].text == closes)
        if depth == 0:
            return number
    return None


# const, static, inline and register left out


def qualifiers(text):
    tokens = language.tokens(text)
    for it, depth in zip(tokens, depths(tokens)):
        if it.text in ("const", "inline", "register") or it.text == "static" and depth == 0:
            end = it.end + (text[it.end : it.end + 1] == " ")
            return [Edit(it.at, end, "")], it.at, f"`{it.text}` is left out"
    return None


# An enum's names into numbers


def enum_values(tokens):
    """The names of a list of constants with their values, or None where one is not plain."""
    found, value, at = {}, 0, 0
    while at < len(tokens):
        name, at, part = tokens[at].text, at + 1, []
        if at < len(tokens) and tokens[at].text == "=":
            at += 1
            while at < len(tokens) and tokens[at].text != ",":
                part.append(tokens[at])
                at += 1
            value = constant(part, found)
        if value is None or name in found or not re.fullmatch(r"[A-Za-z_]\w*", name):
            return None
        found[name], value = value, value + 1
        if at < len(tokens) and tokens[at].text != ",":
            return None
        at += 1
    return found


def constant(tokens, known):
    """The value of sums, differences and products of numbers and known names."""
    words = []
    for it in tokens:
        if it.text in known:
            words.append(f"({known[it.text]})")
        elif it.text in ("+", "-", "*", "(", ")") or re.fullmatch(r"[1-9][0-9]*|0", it.text):
            words.append(it.text)
        else:
            return None
    try:
        value = eval(" ".join(words), {"__builtins__": {}})  # numbers, + - * and brackets alone
    except (SyntaxError, TypeError):
        return None
    return value if isinstance(value, int) else None


def enums(text):
    tokens = language.tokens(text)
    for at, it in enumerate(tokens):
        if it.text != "enum":
            continue
        begin = at + 1 + (at + 1 < len(tokens) and tokens[at + 1].kind == "word")
        if begin >= len(tokens) or tokens[begin].text != "{":
            continue
        end = closing(tokens, begin)
        if end is None or end + 1 >= len(tokens) or tokens[end + 1].text != ";":
            continue
        values = enum_values(tokens[begin + 1 : end])
        rest = [other for number, other in enumerate(tokens) if not at <= number <= end + 1]
        if values and not declares(rest, values):
            whole = Edit(it.at, tokens[end + 1].end, blank(text[it.at : tokens[end + 1].end]))
            return [whole, *uses(rest, values)], it.at, "the names of an enum became numbers: " + ", ".join(f"{k} = {v}" for k, v in values.items())
    return None


def declares(tokens, names):
    """Whether a name is declared once more, or stands for a member or a label."""
    for before, it in zip(tokens, tokens[1:]):
        if it.text in names and before.text in ("int", ".", "->", "void", "goto", "enum", "struct"):
            return True
    return False


def uses(tokens, values):
    for before, it in zip([language.Token("end", "", 0), *tokens], tokens):
        if it.kind == "word" and it.text in values:
            value = values[it.text]
            yield Edit(it.at, it.end, str(value) if value >= 0 or before.text == "=" else f"({value})")


# ?: into an if


def conditional(text):
    tokens = language.tokens(text)
    for at, it in enumerate(tokens):
        if it.text == "?":
            made = conditional_at(text, tokens, at)
            if made:
                return made, it.at, "`?:` became an if"
    return None


def assignment_before(tokens, at):
    """The `=` or `return` whose right side begins with the condition that ends before a `?`."""
    depth = 0
    for number in range(at - 1, -1, -1):
        mark = tokens[number].text
        depth += (mark in (")", "]")) - (mark in ("(", "["))
        if depth < 0 and not is_whole_bracket(tokens, number):
            return None
        depth = max(depth, 0)
        if depth == 0 and (mark in ASSIGNS or mark == "return"):
            return number
        if depth == 0 and mark in (";", "{", "}", ",", "?", ":"):
            return None
    return None


def is_whole_bracket(tokens, at):
    """Whether a bracket holds the whole right side: `x = (..);`"""
    end = closing(tokens, at)
    return tokens[at].text == "(" and end is not None and end + 1 < len(tokens) and tokens[end + 1].text == ";" and (
        tokens[at - 1].text in ASSIGNS or tokens[at - 1].text == "return"
    )


def parts_after(tokens, at):
    """The `:` that belongs to a `?`, and the end of the whole."""
    depth, open_ones, colon = 0, 0, None
    for number in range(at + 1, len(tokens)):
        mark = tokens[number].text
        if depth == 0 and mark in (";", ")", ","):
            return (colon, number) if colon and mark != "," else (None, None)
        depth += (mark in ("(", "[")) - (mark in (")", "]"))
        if depth == 0 and mark == "?":
            open_ones += colon is None
        if depth == 0 and mark == ":" and colon is None:
            if open_ones == 0:
                colon = number
            open_ones -= 1
    return None, None


def conditional_at(text, tokens, at):
    sets = assignment_before(tokens, at)
    colon, end = parts_after(tokens, at)
    if sets is None or colon is None:
        return None
    first, last = sets + 1, end
    if tokens[end].text == ")":
        if tokens[first].text != "(" or closing(tokens, first) != end:
            return None
        first, last = first + 1, end + 1
    begin = sets if tokens[sets].text == "return" else sets - 1
    is_local = begin > 0 and tokens[begin - 1].text == "int"
    begin -= is_local
    before = tokens[begin - 1].text if begin else ";"
    allowed = (";", "{", "}") if is_local else (";", "{", "}", ")", "else", "do")
    if before not in allowed or is_header(tokens, begin):
        return None
    name = tokens[sets - 1].text
    inner = [it.text for it in tokens[first:last]]
    if is_local and name in inner:
        return None
    cuts = [(begin + is_local, sets), (first, at - 1), (at + 1, colon - 1), (colon + 1, end - 1)]
    head, cond, yes, no = (one_line(text[tokens[low].at : tokens[high].end]) for low, high in cuts)
    new = f"if ({cond}) {{ {head} {yes}; }} else {{ {head} {no}; }}"
    if is_local:
        new = f"int {name} = 0; {new}"
    elif before in (")", "else", "do"):
        new = f"{{ {new} }}"
    whole = text[tokens[begin].at : tokens[last].end]
    return [Edit(tokens[begin].at, tokens[last].end, new + blank(whole)[: whole.count("\n") - new.count("\n")])]


def one_line(text):
    """A text on one line, where no comment to the end of a line stands in it."""
    return text if "//" in text else " ".join(text.split())


def is_header(tokens, begin):
    """Whether a statement stands in the brackets of a for."""
    depth = 0
    for number in range(begin - 1, -1, -1):
        mark = tokens[number].text
        depth += (mark == ")") - (mark == "(")
        if depth < 0:
            return True
        if mark in ("{", "}"):
            return False
    return False


# switch with breaks into ifs


def switches(text):
    tokens = language.tokens(text)
    for at, it in enumerate(tokens):
        if it.text == "switch":
            made = switch_at(text, tokens, at)
            if made:
                return made, it.at, "`switch` became ifs"
    return None


def switch_at(text, tokens, at):
    """The edits of a switch that holds no other one, whose sections end with break or return, default last."""
    if at + 1 >= len(tokens) or tokens[at + 1].text != "(":
        return None
    close = closing(tokens, at + 1)
    if close is None or close + 1 >= len(tokens) or tokens[close + 1].text != "{":
        return None
    begin, end = close + 1, closing(tokens, close + 1)
    if end is None or any(it.text == "switch" for it in tokens[begin:end]):
        return None
    sections = sections_of(tokens, begin, end)
    if not sections:
        return None
    value = text[tokens[at + 2].at : tokens[close - 1].end]
    is_plain = not any(it.text == "(" and before.kind == "word" for before, it in zip(tokens[at + 2 : close], tokens[at + 3 : close]))
    named = value if close == at + 3 else f"({value})"
    head = "{"
    if not is_plain:
        named = "switch_" + str(text[: tokens[at].at].count("\n") + 1)
        head = f"{{ int {named} = {value};"
    edits = [Edit(tokens[at].at, tokens[begin].end, head + blank(text[tokens[at].at : tokens[begin].end]))]
    for number, section in enumerate(sections):
        made = section_edits(text, tokens, section, named, number == 0, number == len(sections) - 1)
        if made is None:
            return None
        edits += made
    return edits


@dataclass
class Section:
    """Labels from `at` to `body`, statements up to `end`, and the values of the labels; None for default."""

    at: int
    body: int
    end: int
    values: list


def sections_of(tokens, begin, end):
    """The sections of a switch, or nothing where a label stands deeper or default is not last."""
    found, at = [], begin + 1
    around = depths(tokens)
    inside = around[begin] + 1
    if at < end and tokens[at].text not in ("case", "default"):
        return None
    while at < end:
        first, values = at, []
        while at < end and tokens[at].text in ("case", "default"):
            colon = next((it for it in range(at, end) if tokens[it].text == ":"), None)
            if colon is None:
                return None
            values.append(None if tokens[at].text == "default" else (at + 1, colon))
            at = colon + 1
        body = at
        while at < end and not (around[at] == inside and tokens[at].text in ("case", "default")):
            if tokens[at].text in ("case", "default"):
                return None
            at += 1
        found.append(Section(first, body, at, values))
    if any(None in it.values for it in found[:-1]):
        return None
    return found


def loops_in(tokens, begin, end):
    """The tokens that stand in the braces of a loop."""
    found = set()
    for at in range(begin, end):
        if tokens[at].text in ("while", "for") and at + 1 < end and tokens[at + 1].text == "(":
            close = closing(tokens, at + 1)
            if close and close + 1 < end and tokens[close + 1].text == "{":
                found |= set(range(close + 1, closing(tokens, close + 1) or end))
        if tokens[at].text == "do" and at + 1 < end and tokens[at + 1].text == "{":
            found |= set(range(at + 1, closing(tokens, at + 1) or end))
    return found


def breaks(tokens, section):
    inside = loops_in(tokens, section.body, section.end)
    return [at for at in range(section.body, section.end) if tokens[at].text == "break" and at not in inside]


def section_edits(text, tokens, section, named, is_first, is_last):
    """The edits of one section, or None where it does not end with a break or a return of its own."""
    around = depths(tokens)
    inside = around[section.body - 1]
    if any(it.text == "int" and around[section.body + at] == inside for at, it in enumerate(tokens[section.body : section.end])):
        return None
    found, edits = breaks(tokens, section), []
    last = tokens[section.end - 1]
    if len(found) > 1:
        return None
    if found:
        at = found[0]
        is_end = at + 2 == section.end or at + 3 == section.end and last.text == "}" and closing(tokens, section.body) == section.end - 1
        if not is_end or tokens[section.body].text != "{" and around[at] != inside:
            return None
        if at and tokens[at - 1].text in (")", "else"):
            return None
        if at + 2 == section.end:
            edits.append(Edit(tokens[at].at, tokens[at + 1].end, "}"))
        else:
            edits += [Edit(tokens[at].at, tokens[at + 1].end, ""), Edit(last.end, last.end, " }")]
    elif not is_last and not ends_with_return(tokens, section, around, inside):
        return None
    else:
        edits.append(Edit(last.end, last.end, " }"))
    if section.body == section.end:
        edits = [Edit(tokens[section.body - 1].end, tokens[section.body - 1].end, " }")]
    whole = text[tokens[section.at].at : tokens[section.body - 1].end]
    edits.append(Edit(tokens[section.at].at, tokens[section.body - 1].end, label(text, tokens, section, named, is_first) + blank(whole)))
    return edits


def ends_with_return(tokens, section, around, inside):
    """Whether the last statement of a section is a return that stands in no branch."""
    at = next((it for it in range(section.end - 2, section.body - 1, -1) if tokens[it].text in (";", "{", "}")), section.body - 1)
    return section.body < section.end and tokens[at + 1].text == "return" and around[at + 1] == inside


def label(text, tokens, section, named, is_first):
    tests = [f"{named} == {text[tokens[it[0]].at : tokens[it[1] - 1].end]}" for it in section.values if it]
    if None in section.values:
        return "{" if is_first else "else {"
    return ("" if is_first else "else ") + f"if ({' || '.join(tests)}) {{"


KINDS = {"enum": enums, "qualifier": qualifiers, "conditional": conditional, "switch": switches}


def rewritten(text, kinds):
    """The text after all rewritings of these kinds, and what was done."""
    done, again = [], True
    while again and len(done) < 1000:
        again = False
        for kind in kinds:
            made = KINDS[kind](text)
            if made:
                edits, at, what = made
                done.append(Rewriting(text[:at].count("\n") + 1, what))
                text, again = edited(text, edits), True
    return text, sorted(done, key=lambda it: it.line)
