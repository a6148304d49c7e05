"""A story as one HTML page without scripts. Debian: python3-jinja2 and python3-pygments."""
import os
import re
import sys

from . import language, program, story

HERE = os.path.dirname(os.path.abspath(__file__))
MOST = 300  # steps that a page shows of a run


def libraries():
    try:
        import jinja2
        import markupsafe
        import pygments
        import pygments.formatters
        import pygments.lexers
    except ImportError as it:
        sys.exit(f"--html needs {it.name}: install python3-jinja2 and python3-pygments (Debian), or jinja2 and pygments")
    return jinja2, markupsafe, pygments


def highlighted(pygments, text):
    """The lines of the source, highlighted, and the style that they need."""
    lexer = pygments.lexers.CLexer(stripnl=False, ensurenl=False)
    formatter = pygments.formatters.HtmlFormatter(nowrap=True, style="friendly")
    return pygments.highlight(text, lexer, formatter).split("\n"), formatter.get_style_defs(".highlight")


def coded(markupsafe):
    """A filter that sets what stands between backticks as code."""

    def filtered(text):
        return markupsafe.Markup(re.sub(r"`([^`]+)`", r"<code>\1</code>", str(markupsafe.escape(text))))

    return filtered


def worst(judged):
    kinds = ["", "proved", "unproved", "fails"]
    return max([""] + [it.mark for it in judged], key=kinds.index)


def lines_of(markupsafe, told, codes):
    count = len(told.lines) - (not told.lines[-1])
    for number in range(1, count + 1):
        judged = [it for it in told.judged if it.verdict.line == number]
        procedures = [it for it in told.procedures if it.line == number]
        code = markupsafe.Markup(codes[number - 1] if number <= len(codes) else "")
        yield {"code": code, "judged": judged, "procedures": procedures, "mark": worst(judged)}


def cut(steps):
    """The steps that are shown: the first and the last of a long run."""
    if len(steps) <= MOST:
        return steps
    left = story.Step(f".. {len(steps) - MOST} further steps ..", 0, 0, "")
    return [*steps[: MOST // 2], left, *steps[-MOST // 2 :]]


def write(told, file):
    """Writes the page."""
    jinja2, markupsafe, pygments = libraries()
    codes, style = highlighted(pygments, told.text.encode("latin-1").decode("utf-8", "replace"))
    steps, inputs, tree = {}, {}, language.read(told.text)
    for it in (it for it in told.judged if it.run):
        steps[it.verdict.number] = cut(story.steps_of(told, tree, it.run))
        inputs[it.verdict.number] = program.replay_input(told.text, it.run.values, it.run.turns)
    loader = jinja2.FileSystemLoader(HERE)
    around = jinja2.Environment(loader=loader, autoescape=True, trim_blocks=True, lstrip_blocks=True, undefined=jinja2.StrictUndefined)
    around.filters["coded"] = coded(markupsafe)
    words = {"story": told, "style": markupsafe.Markup(style), "lines": list(lines_of(markupsafe, told, codes)), "steps": steps, "inputs": inputs}
    with open(file, "w", encoding="utf-8") as it:
        it.write(around.get_template("page.html").render(words))
