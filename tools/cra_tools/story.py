"""What there is to say about a text and its report: verdicts, runs, summaries, notes, and what to try next."""
from dataclasses import dataclass, field

from . import finding, interpret, language, words


@dataclass
class Judged:
    """An assertion: its verdict, where it would fail, the run on which it fails, and what to try."""

    verdict: object
    source: str
    would_fail: list = field(default_factory=list)
    values: list = field(default_factory=list)
    run: object = None
    tries: int = 0
    notes: list = field(default_factory=list)
    advice: list = field(default_factory=list)
    is_proved_by_rows: bool = False

    @property
    def mark(self):
        return "proved" if self.verdict.proved else "fails" if self.run else "unproved"


@dataclass
class Step:
    """An event of a run: its words, its place, and the variables behind it."""

    words: str
    line: int
    column: int
    seen: str
    source: str = ""


@dataclass
class Told:
    """A procedure: its name, its line, its summary and the notes of its group in words."""

    name: str
    line: int
    summary: list
    notes: list


@dataclass
class Story:
    file: str
    text: str
    is_proved: bool
    total: str
    judged: list = field(default_factory=list)
    procedures: list = field(default_factory=list)
    reached: list = field(default_factory=list)
    search_note: str = ""

    @property
    def lines(self):
        return self.text.encode("latin-1").decode("utf-8", "replace").split("\n")


def read_places(tree, text):
    """For each variable that only ever takes one choice the place at which it is read."""
    places, found = language.Places(text), {}
    sets = [it for procedure in tree.procedures.values() for it in language.walk(procedure.body) if it.kind in ("set", "local")]
    for it in sets:
        value = it.parts[0]
        is_choice = value is not None and value.kind == "call" and value.name == language.CHOICE
        found[it.name] = None if it.name in found or not is_choice else places.shown(value.at)
    return {name: place for name, place in found.items() if place}


def named_number(name, poly, read):
    """A variable in terms of the numbers of the case, with the place where it is read."""
    place = f", the value read at {read[name]}" if name in read else ""
    return f"{name} = {poly}{place}"


def judged(verdict, places, read):
    """A verdict in words."""
    it = Judged(verdict, places.source(verdict.line).strip())
    if verdict.proved:
        return it
    names = words.plain_names(verdict.names)
    it.would_fail = [words.row_words(row, names) for row in verdict.rows]
    it.values = [named_number(name, poly, read) for name, poly in verdict.names]
    it.notes = [words.note_words(note) for note in verdict.notes]
    if verdict.limit:
        it.notes.append(words.note_words("limit " + verdict.limit))
    return it


# What to try next


def condition_of(text, node):
    """The text between the brackets of an assertion."""
    return text[node.parts[0].parts[0].at : node.parts[0].parts[0].end] if node.parts[0].parts else ""


def conditions(text, tree, number):
    """Conditions to try at the head of a loop: the assertion's own, its parts, and both halves of an equation."""
    node = tree.assertions[number - 1]
    if not node.parts[0].parts:
        return []
    whole, found = node.parts[0].parts[0], [condition_of(text, node)]
    todo = [whole]
    while todo:
        it = todo.pop()
        if it.kind == "brackets":
            todo.append(it.parts[0])
        if it.kind == "binary" and it.name in ("&&", "=="):
            left, right = (text[part.at : part.end] for part in it.parts)
            if it.name == "&&":
                todo += it.parts
                found += [left, right]
            else:
                found += [f"{left} <= {right}", f"{left} >= {right}"]
    return list(dict.fromkeys(found))


def has_call(node):
    return any(it.kind == "call" for it in language.walk(node))


def with_head(text, loop, condition):
    """A text with an assertion as the first statement of a loop, and where it stands; nothing where the body has no braces."""
    body = loop.parts[3]
    if body.kind != "block" or text[body.at] != "{":
        return None
    at = body.at + 1
    return text[:at] + f" assert({condition});" + text[at:], at + 1


def loops_for(tree, node):
    """The loops of the assertion's procedure that end before it or hold it, the nearest first."""
    procedure = language.procedure_at(tree, node.at)
    return [it for it in reversed(language.loops(procedure)) if it.at < node.at] if procedure else []


def helped(cra, text, tree, number, read_report):
    """A loop and a condition whose assertion at the loop's head is proved and makes this one proved, by trying."""
    node = tree.assertions[number - 1]
    if has_call(node.parts[0].parts[0] if node.parts[0].parts else node.parts[0]):
        return None
    for loop in loops_for(tree, node)[:3]:
        for condition in conditions(text, tree, number)[:5]:
            changed = with_head(text, loop, condition)
            status, printed = cra.run("analyse", changed[0].encode("latin-1")) if changed else (3, "")
            if status in (0, 1) and is_better(text, node, *changed, read_report(printed)):
                return loop, condition
    return None


def is_better(text, node, changed, at, report):
    """Whether both the assertion that was put in at an offset and the old one are proved."""
    places, shift = language.Places(changed), len(changed) - len(text)
    wanted = {places.place(at), places.place(node.at + shift if node.at >= at - 1 else node.at)}
    return wanted <= {(it.line, it.column) for it in report.verdicts if it.proved}


def advice(cra, story, tree, made, it, read_report):
    """What to try for an unproved assertion."""
    text, number, places = story.text, it.verdict.number, language.Places(story.text)
    if it.is_proved_by_rows:
        return ["./cra prove proves it (tried)"]
    if it.run:
        return ["the assertion is false, since this run fails it: change the program, or assume what keeps such values out"]
    told = []
    found = helped(cra, text, tree, number, read_report)
    if found:
        loop, condition = found
        line = places.line(loop.at)
        told.append(f"write assert({condition}); as the first statement of the loop in line {line}: then that one and this one are proved (tried)")
    else:
        for loop in loops_for(tree, tree.assertions[number - 1])[:2]:
            line = places.line(loop.at)
            told.append(f"write what stays true in every turn as an assertion at the head of the loop in line {line}: it is used there, and proved like any other")
    earlier = [str(other.number) for other in made.verdicts if not other.proved and other.number < number]
    if earlier:
        told.append(f"assertion {', '.join(earlier)} is not proved either: mend that first, since what stands behind an assertion is judged where it held")
    if not found and any(key.count("$") > 1 for row in it.verdict.rows for key in row.split()):
        told.append("the rows have products of variables: each product is an unknown of its own, so x*x may seem to be negative")
    if not found and (it.notes or any(procedure.notes for procedure in story.procedures)):
        told.append("read the notes: where facts were left out, smaller procedures or fewer branches before the assertion keep more")
    if not told:
        told.append("run it on values of your own (tools/search --tries 20000, or ./cra replay)")
    return told


# The whole


def steps_of(story, tree, run):
    """The steps of a run with the variables behind each, or nothing where it cannot be followed."""
    followed = interpret.followed(tree, run.values)
    if not followed or not interpret.agrees(*followed[:2], run.trace):
        return []
    events, _, at = followed
    places, found = language.Places(story.text), []
    for event in events:
        said = event.text if event.kind in ("call", "return", "check") else f"{event.name or 'a value'} = {event.value}"
        if event.kind == "any":
            said += " (chosen)"
        if event.kind == "test":
            said = "true" if event.value else "false"
        seen = ", ".join(f"{name} = {value}" for name, value in event.seen.items())
        found.append(Step(said, *places.place(event.at), seen))
    found.append(Step(run.trace.splitlines()[-1], *places.place(at), found[-1].seen if found else ""))
    for it in found:
        it.source = places.source(it.line).strip()
    return found


def ask_more(cra, story, open_ones, read_report):
    """What `prove` proves of what is open, and the rows that it tells at points."""
    status, printed = cra.run("prove", story.text.encode("latin-1"))
    if status not in (0, 1):
        return
    report = read_report(printed)
    proved = {it.number for it in report.verdicts if it.proved}
    for it in open_ones:
        it.is_proved_by_rows = it.verdict.number in proved
    story.reached = [(it.place, [words.row_words(row, {}) for row in it.rows]) for it in report.reached]
    story.search_note = words.note_words("search beyond") if report.is_cut else ""


def made(cra, file, text, printed, read_report, tries, turns, seed):
    """The story of an accepted text."""
    report, tree = read_report(printed), language.read(text)
    places, read = language.Places(text), read_places(tree, text)
    story = Story(file, text, cra.is_proved, report.total)
    story.judged = [judged(it, places, read) for it in report.verdicts]
    for it in report.summaries:
        line = places.line(tree.procedures[it.name].at)
        story.procedures.append(Told(it.name, line, words.summary_words(it), [words.note_words(note) for note in it.notes]))
    open_ones = [it for it in story.judged if not it.verdict.proved]
    if open_ones and tries:
        found = finding.Search(cra, text, tree, report, turns, seed).found([it.verdict.number for it in open_ones], tries)
        for it in open_ones:
            it.run, it.tries = found[it.verdict.number]
    if open_ones:
        ask_more(cra, story, open_ones, read_report)
    for it in open_ones:
        it.advice = advice(cra, story, tree, report, it, read_report)
    return story
