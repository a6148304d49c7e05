"""Shows runs beside their lines."""
from . import interpret, language


def outcome(run):
    return run.trace.splitlines()[-1]


def step_text(event, tree):
    """An event in words: what it does, and the variable that took a value."""
    if event.kind == "any":
        return f"{event.name or 'a value'} = {event.value}", True
    if event.kind == "set":
        return f"{event.name} = {event.value}", False
    if event.kind == "test":
        return "true" if event.value else "false", False
    return event.text, event.kind in ("call", "return", "check")


def steps(text, tree, run, most=60):
    """The events of a run, each with its line of the source; in the middle of a long run some are left out."""
    followed = interpret.followed(tree, run.values)
    if not followed or not interpret.agrees(*followed[:2], run.trace):
        return ["  " + it for it in run.trace.splitlines()]
    events, _, at = followed
    places = language.Places(text)
    told = []
    for event in events:
        words, is_shown = step_text(event, tree)
        if is_shown:
            told.append((f"{words} at {places.shown(event.at)}", places.line(event.at)))
    told.append((outcome(run), places.line(at)))
    if len(told) > most:
        left = len(told) - most
        told = [*told[: most // 2], (f".. {left} further events ..", 0), *told[-most // 2 :]]
    wide = min(56, max(len(it) for it, _ in told))
    return [f"  {it:<{wide}}  | {places.source(line).strip()}" if line else f"  {it}" for it, line in told]
