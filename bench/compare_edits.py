#!/usr/bin/env python3
"""Edits made programs by the built program and by an independent model of its rules, and compares status and bytes of `edit`: random
scripts of up to ten edits, which change constants, operators and bodies, rename variables, move, copy and drop procedures, give them
another parameter, put comments in, break the text and mend it, and take earlier texts back. Besides, each version's report is compared
with what the program's `analyse` says of that text by itself.

usage: compare_edits.py MODEL_FOLDER PROGRAM [COUNT] [SEED]

A refuting point is free, so its line is compared by what stands before its numbers alone. Which questions end with a limit
depends on the search: a script where a report of the program or of the model tells of a limit is not compared with the model, and
that is counted. Nor is such a version compared with `analyse`: a searcher that was asked before may meet a limit elsewhere. A
script for which one run takes more than ten seconds is left out, and counted.
"""
import json, os, random, re, subprocess, sys

from compare_costs import Counter
from compare_programs import blur
from compare_replay import Maker

LIMIT = 10
PROC = re.compile(r"^(?:int|void) (\w+)\(([^)]*)\) \{.*\}$")


def lines_of(text):
    return text.split("\n")


def procedures(text):
    """The places of the lines that are a procedure other than main."""
    return [n for n, line in enumerate(lines_of(text)) if (it := PROC.match(line)) and it[1] != "main"]


def with_line(text, number, *made):
    lines = lines_of(text)
    lines[number:number + 1] = made
    return "\n".join(lines)


class Editor:
    """A text, the texts before it, and changes of it."""

    def __init__(self, rng):
        self.rng = rng
        maker = Counter(rng) if rng.random() < 0.5 else Maker(rng)
        self.text = maker.program()
        self.texts = [self.text]

    def constant(self):
        """Another number, or another operator."""
        r = self.rng
        found = list(re.finditer(r"(?<![\w.])\d+(?!\w)|<=|>=|<|>|==|!=|(?<=\s)[-+*](?=\s)", self.text))
        if not found:
            return self.text
        it = r.choice(found)
        new = str(r.randrange(0, 9)) if it[0][0].isdigit() else r.choice(["+", "-", "*"] if it[0] in "+-*" else ["<", "<=", ">", ">=", "==", "!="])
        return self.text[:it.start()] + new + self.text[it.end():]

    def renamed(self):
        """A local, a parameter or a global by another name."""
        names = sorted(set(re.findall(r"\bint (\w+)(?!\w*\()", self.text)))
        if not names:
            return self.text
        old, new = self.rng.choice(names), "w%d" % self.rng.randrange(100)
        return re.sub(r"\b%s\b" % old, new, self.text)

    def moved(self):
        """A procedure at the place of another one."""
        places = procedures(self.text)
        if len(places) < 2:
            return self.text
        one, other = self.rng.sample(places, 2)
        lines = lines_of(self.text)
        lines.insert(other, lines.pop(one))
        return "\n".join(lines)

    def copied(self):
        """A procedure a second time, under a name of its own; nothing calls it."""
        places = procedures(self.text)
        if not places:
            return self.text
        at = self.rng.choice(places)
        line = lines_of(self.text)[at]
        name = PROC.match(line)[1]
        made = re.sub(r"\b%s\b" % name, "q%d" % self.rng.randrange(100), line)
        return with_line(self.text, at, *self.rng.sample([line, made], 2))

    def dropped(self):
        """A procedure less: the text is refused where something calls it."""
        places = procedures(self.text)
        return with_line(self.text, self.rng.choice(places)) if places else self.text

    def parameter(self):
        """A procedure with one parameter more or less, in its head, and maybe in its calls too."""
        places = procedures(self.text)
        if not places:
            return self.text
        at = self.rng.choice(places)
        line = lines_of(self.text)[at]
        name, params = PROC.match(line)[1], PROC.match(line)[2]
        more = "int z%d" % self.rng.randrange(100)
        now = more if params in ("", "void") else params + ", " + more
        text = with_line(self.text, at, line.replace("(%s)" % params, "(%s)" % now, 1))
        if self.rng.random() < 0.6:
            empty = r"\b%s\(\)" % name
            text = re.sub(r"(?<!int )(?<!void )" + empty, "%s(0)" % name, text)
            text = re.sub(r"(?<!int )(?<!void )\b%s\((?=[^)0])" % name, "%s(0, " % name, text)
        return text

    def statement(self):
        """A statement more, behind a brace or a semicolon."""
        r = self.rng
        places = [it.end() for it in re.finditer(r"[{;]", self.text)]
        if not places:
            return self.text
        at = r.choice(places)
        made = r.choice([" assert(1);", " assume(1);", " ;", " int u%d = 3;" % r.randrange(100), " if (0) { assert(0); }",
                         " assert(g >= 0);", " g = g + 1;", " while (0) ;"])
        return self.text[:at] + made + self.text[at:]

    def comment(self):
        r = self.rng
        at = r.choice([0, 0, len(self.text), r.randrange(len(self.text) + 1)])
        made = r.choice(["/* \u00e9 */", "// \u20ac\n", "\n\n", "#include <x.h>\n", "/* a\nb */ "])
        return self.text[:at] + made + self.text[at:]

    def broken(self):
        r = self.rng
        if not self.text:
            return self.text
        at = r.randrange(len(self.text))
        return self.text[:at] + r.choice(["", "@", "}", "{", ";", "x", "int "]) + self.text[at + r.randrange(2):]

    def back(self):
        """An earlier text."""
        return self.rng.choice(self.texts)

    def next(self):
        kinds = [self.constant] * 4 + [self.renamed, self.moved, self.copied, self.dropped, self.parameter, self.statement, self.statement,
                                       self.comment, self.comment, self.broken, self.back, self.back]
        self.text = self.rng.choice(kinds)()
        self.texts.append(self.text)


def edit_between(old, new, rng):
    """The edit that makes one text into another, by the bytes that both have in front and behind; sometimes a longer one."""
    a, b = old.encode(), new.encode()
    front = 0
    while front < min(len(a), len(b)) and a[front] == b[front]:
        front += 1
    behind = 0
    while behind < min(len(a), len(b)) - front and a[-1 - behind] == b[-1 - behind]:
        behind += 1
    if rng.random() < 0.2:
        front, behind = rng.randrange(front + 1), rng.randrange(behind + 1)
    # (a character of several bytes is not split)
    while front and (0x80 <= (a + b"x")[front] < 0xC0 or 0x80 <= (b + b"x")[front] < 0xC0):
        front -= 1
    while behind and (0x80 <= a[len(a) - behind] < 0xC0 or 0x80 <= b[len(b) - behind] < 0xC0):
        behind -= 1
    return {"at": front, "remove": len(a) - front - behind, "insert": b[front:len(b) - behind].decode()}


def made(rng):
    """A script, and its texts."""
    editor = Editor(rng)
    for _ in range(rng.randrange(1, 11)):
        editor.next()
    edits = [edit_between(old, new, rng) for old, new in zip(editor.texts, editor.texts[1:])]
    return {"text": editor.texts[0], "edits": edits}, editor.texts


def run(command, word, given):
    ran = subprocess.run(command + [word], input=given, capture_output=True, timeout=LIMIT)
    return ran.returncode, ran.stdout


def bytes_of(script):
    return json.dumps(script).encode()


def parts(output, versions):
    """The lines of versions, and what stands behind them."""
    lines = output.split(b"\n", versions)
    return lines[:-1], lines[-1]


def expected_line(number, status, told):
    """What the line of a version begins with, and what it ends with, by what `analyse` says of its text."""
    if status == 3:
        line = b"version %d " % number + told.rstrip(b"\n")
        return line, b""
    total = re.search(rb"total (\d+) proved, (\d+) unproved\n$", told)
    return b"version %d work " % number, b" proved %s unproved %s" % (total[1], total[2])


def version_differs(program, script, number, text):
    """Whether a version's line and report differ from what `analyse` says of its text; None where a limit came."""
    cut = {"text": script["text"], "edits": script["edits"][:number]}
    given, alone = run(program, "edit", bytes_of(cut)), run(program, "analyse", text.encode())
    if b"limit " in given[1] or b"limit " in alone[1]:
        return None
    lines, report = parts(given[1], number + 1)
    front, end = expected_line(number, *alone)
    right = given[0] == alone[0] and lines[-1].startswith(front) and lines[-1].endswith(end)
    return not right or blur(report) != blur(b"" if alone[0] == 3 else alone[1])


class Tally:
    def __init__(self):
        self.differ, self.alone, self.limited, self.left_out, self.versions, self.refused, self.kept, self.groups = [0] * 8

    def differs(self, *told):
        if self.differ + self.alone < 10:
            print("DIFFERS", *told, flush=True)


def compare(program, model, script, texts, tally):
    given, wanted = run(program, "edit", bytes_of(script)), run(model, "edit", bytes_of(script))
    limits = b"limit " in wanted[1]
    for number, text in enumerate(texts):
        found = version_differs(program, script, number, text)
        limits = limits or found is None
        if found:
            tally.differs("from analyse", number, repr(bytes_of(script)))
            tally.alone += 1
    if limits:
        tally.limited += 1
    elif given[0] != wanted[0] or blur(given[1]) != blur(wanted[1]):
        tally.differs("from the model", repr(bytes_of(script)), "\n ", given, "\n ", wanted)
        tally.differ += 1
    tally.versions += len(texts)
    for line in parts(given[1], len(texts))[0]:
        counts = re.match(rb"version \d+ work (\d+) of (\d+) ", line)
        if counts:
            tally.groups += int(counts[2])
            tally.kept += int(counts[2]) - int(counts[1])
        else:
            tally.refused += 1


def main():
    folder, program = sys.argv[1], [os.path.abspath(sys.argv[2])]
    count = int(sys.argv[3]) if len(sys.argv) > 3 else 500
    rng = random.Random(int(sys.argv[4]) if len(sys.argv) > 4 else 1)
    model, tally = [sys.executable, os.path.join(folder, "cra.py")], Tally()
    for _ in range(count):
        script, texts = made(rng)
        try:
            compare(program, model, script, texts, tally)
        except subprocess.TimeoutExpired as slow:
            tally.left_out += 1
            if slow.cmd[0] == program[0]:
                print("SLOW", repr(bytes_of(script)), flush=True)
    print("%d scripts, %d differ from the model, %d versions differ from analyse, %d with limits, %d left out" % (
        count, tally.differ, tally.alone, tally.limited, tally.left_out))
    print("%d versions, %d refused; of %d groups of the others %d were taken over" % (tally.versions, tally.refused, tally.groups, tally.kept))


if __name__ == "__main__":
    main()
