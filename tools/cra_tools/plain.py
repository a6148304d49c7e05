"""A story as text, with colours on a terminal."""
from . import language, program, refusals, showing
from .report import REFUSED

MARKS = {"proved": ("+", "32"), "unproved": ("?", "33"), "fails": ("!", "31")}
KINDS = {"proved": "proved", "unproved": "not proved", "fails": "not proved, and fails on the run below"}


def painter(has_colours):
    return (lambda text, code: f"\x1b[{code}m{text}\x1b[0m") if has_colours else (lambda text, code: text)


def verdicts(story, paint):
    for it in story.judged:
        mark, code = MARKS[it.mark]
        place = f"{it.verdict.line}:{it.verdict.column}"
        yield paint(f" {mark} assertion {it.verdict.number} at {place}: {KINDS[it.mark]}", code)
    if not story.judged:
        yield "   there is no assertion"


def source(story, paint):
    marks = {}
    for it in story.judged:
        worst = max([it.mark, marks.get(it.verdict.line, "proved")], key=["proved", "unproved", "fails"].index)
        marks[it.verdict.line] = worst
    lines = story.lines[:-1] if story.lines and not story.lines[-1] else story.lines
    for number, line in enumerate(lines, 1):
        mark, code = MARKS[marks[number]] if number in marks else (" ", "")
        yield paint(f" {mark} {number:4}  {line}", code) if code else f"   {number:4}  {line}".rstrip()


def open_one(story, it, tree, paint):
    """What there is to say of an assertion that is not proved."""
    yield paint(f"assertion {it.verdict.number} at {it.verdict.line}:{it.verdict.column}: {it.source}", "1")
    if it.run:
        values = ", ".join(map(str, it.run.values)) or "none"
        yield f"  fails after {it.run.steps} steps on the values: {values}"
        yield from ("  " + line for line in showing.steps(story.text, tree, it.run, 40))
        yield "  replay it: tools/search prints the input"
    else:
        yield from not_seen(it)
    yield from (f"  note: {note}" for note in it.notes)
    yield from (f"  next: {line}" for line in it.advice)


def not_seen(it):
    if it.would_fail:
        yield "  the report leaves this open: it would fail where " + ", ".join(it.would_fail)
    if it.values:
        yield "  and there " + "; ".join(it.values)
    if it.tries:
        yield f"  no failing run in {it.tries} tries"


def summaries(story, paint):
    if any("$" in line for it in story.procedures for line in it.summary):
        yield "(a case holds where there are whole numbers $1, $2, .. that fit; each case has its own)"
    for it in story.procedures:
        yield paint(f"{it.name} (line {it.line})", "1")
        yield from (f"  {line}" for line in it.summary)
        yield from (f"  note: {note}" for note in it.notes)


def shown(story, has_colours):
    """All lines of a story."""
    paint, tree = painter(has_colours), language.read(story.text)
    lines = [paint(f"{story.file}: {story.total}", "1")]
    if not story.is_proved:
        lines.append("(by a program that is built without a proof)")
    lines += ["", *verdicts(story, paint), "", *source(story, paint)]
    for it in story.judged:
        if not it.verdict.proved:
            lines += ["", *open_one(story, it, tree, paint)]
    if story.reached or story.search_note:
        lines += ["", paint("What ./cra prove knows at points, in every run from main:", "1")]
        lines += [f"  {place}: {', '.join(rows)}" for place, rows in story.reached]
        lines += [f"  note: {story.search_note}"] if story.search_note else []
    return [*lines, "", paint("What each procedure comes to:", "1"), *summaries(story, paint)]


def refused(text, printed, status):
    """A refusal with its line, and what to write instead."""
    found = REFUSED.match(printed)
    if not found:
        return [printed.strip() or program.WORDS.get(status, f"status {status}")]
    line, column = int(found[2]), int(found[3])
    places = language.Places(text)
    lines = [printed.strip(), f"  {line:4}  {places.source(line)}", "        " + " " * (column - 1) + "^"]
    return [*lines, refusals.sentence(found[1], text, places.offset(line, column))]
