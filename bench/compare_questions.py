#!/usr/bin/env python3
"""Asks the finder and an independent model of the rules questions of all three kinds, and compares what they say: whether rows have a
point, the supremum, the reduced basis of relations. Every second question is one that the model's analysis poses on made programs; the
others are made. The crates are compiled without a proof.

usage: compare_questions.py MODEL_FOLDER [COUNT] [SEED]

A question of a supremum or a basis is dead where a case has no point, or where there are no cases: of it nothing is said, and an answer
that passes its test may come all the same, so these are counted and not compared. Where the finder has a limit for a question that is
not dead, that is counted by itself."""
import os, random, shutil, subprocess, sys, tempfile

folder = sys.argv[1]
count = int(sys.argv[2]) if len(sys.argv) > 2 else 6000
rng = random.Random(int(sys.argv[3]) if len(sys.argv) > 3 else 1)
here = os.path.dirname(os.path.abspath(__file__))
sys.path.insert(0, folder)
sys.path.insert(0, here)
import front, session, solve  # the model
from compare_replay import Maker
from linear import AT_MOST, EQUAL, Row, make

NUMBERS = [-3, -2, -1, -1, 1, 1, 1, 2, 5]


def poly_text(poly):
    text = ""
    for mono, number in list(poly.terms) + ([((), poly.rest)] if poly.rest or not poly.terms else []):
        name = "*".join("x%d" % (column if column < 1 << 40 else 1000 + column - (1 << 40)) for column in mono)
        size = abs(number)
        term = str(size) if not mono else name if size == 1 else "%d*%s" % (size, name)
        text += ("-" if number < 0 else "") + term if not text else (" - " if number < 0 else " + ") + term
    return text


def rows_text(rows):
    return "; ".join(poly_text(row.poly) + (" <= 0" if row.kind == AT_MOST else " = 0") for row in rows)


def line_of(question):
    if question[0] == "infeasible":
        return rows_text(question[1])
    if question[0] == "sup":
        return " % ".join(rows_text(rows) + " : " + poly_text(objective) for rows, objective in question[1])
    parts = [rows_text(rows) + " ! " + "; ".join(map(poly_text, terms)) for rows, terms in question[1]]
    return "; ".join(map(poly_text, question[2])) + " @ " + " % ".join(parts)


def said(answer):
    if answer[0] == "bound":
        return "bound %d" % answer[1]
    if answer[0] == "basis":
        return "basis" + "".join(" ; " + " ".join(map(str, list(a) + list(b) + [c])) for a, b, c, _ in answer[1])
    return answer[0]


class Recording(solve.Finder):
    def __init__(self, kept):
        super().__init__()
        self.kept = kept

    def ask(self, question):
        self.kept[question[0]].append(question)
        return super().ask(question)


def made_poly(columns, most=3):
    monos = [tuple(sorted(rng.choice(range(columns)) for _ in range(rng.choice([1, 1, 1, 2])))) for _ in range(rng.randrange(1, most + 1))]
    return make({mono: rng.choice(NUMBERS) for mono in monos}, rng.choice([0, 0, 1, -1, 4, -7]))


def made_rows(columns):
    rows = [Row(made_poly(columns), EQUAL if rng.random() < 0.2 else AT_MOST) for _ in range(rng.randrange(0, 6))]
    return [row for row in rows if row.poly.terms]


def made():
    kind, columns = rng.choice(["infeasible", "sup", "stratum"]), rng.randrange(1, 5)
    if kind == "infeasible":
        return (kind, made_rows(columns) or [Row(make({(0,): 1}, 0), AT_MOST)])
    if kind == "sup":
        return (kind, [(made_rows(columns), made_poly(columns)) for _ in range(rng.randrange(1, 4))])
    terms = rng.randrange(1, 4)
    lower = [made_poly(columns) for _ in range(rng.randrange(0, 3))]
    return (kind, [(made_rows(columns), [made_poly(columns) for _ in range(terms)]) for _ in range(rng.randrange(1, 4))], lower)


def posed(number):
    """As many questions that come from programs, of the three kinds in turn."""
    kept = {"infeasible": [], "sup": [], "stratum": []}
    while min(map(len, kept.values())) < number // 3 + 1:
        try:
            session.analyse(Maker(rng).program().encode(), Recording(kept), rng.choice([1, 2]))
        except front.Refused:
            pass
    found = [question for questions in kept.values() for question in rng.sample(questions, number // 3)]
    return [question for question in found if question[0] != "infeasible" or question[1]]


def copy(work, top, name, lines):
    """Copies a crate and those below it, and gives their lines of the list."""
    if name in lines or not os.path.isdir(f"{top}/crates/{name}"):
        return
    listed = [line for line in open(f"{top}/crates.txt") if line.startswith(name + ":")][0]
    for low in listed.split(":")[1].split():
        copy(work, top, low, lines)
    shutil.copytree(f"{top}/crates/{name}", f"{work}/crates/{name}", ignore=shutil.ignore_patterns("out", "must-fail"))
    lines[name] = listed


def answers_to(lines):
    top, work, crates = os.path.dirname(here), tempfile.mkdtemp(), {}
    uses = open(f"{here}/questions/uses").read().split()
    for name in uses:
        copy(work, top, name, crates)
    with open(f"{work}/crates.txt", "w") as listed:
        listed.write("".join(crates.values()) + "questions: " + " ".join(uses) + "\n")
    shutil.copy(f"{top}/HANDLES", work)
    subprocess.run(["git", "init", "-q", work], check=True)
    for part in ("src", "specs"):
        os.makedirs(f"{work}/crates/questions/{part}")
    shutil.copy(f"{here}/questions/tried.txt", f"{work}/crates/questions/src/main.rt")
    open(f"{work}/crates/questions/specs/Lib.antt", "w").close()
    ran = subprocess.run(["rt", "try", "--steps", "1000", "--seconds", "600"], cwd=f"{work}/crates/questions", input="\n".join(lines) + "\n",
                         capture_output=True, text=True)
    shutil.rmtree(work)
    told = [line for line in ran.stdout.splitlines() if line.split(" ")[0] in ("yes", "no", "limit", "bound", "unbounded", "basis")]
    if len(told) != len(lines):
        sys.exit("%d answers to %d questions\n%s%s" % (len(told), len(lines), ran.stdout[-2000:], ran.stderr[-2000:]))
    return told


def main():
    questions = posed(count // 2)
    questions += [made() for _ in range(count - len(questions))]
    model, differ, limits, dead = solve.Finder(), 0, 0, 0
    for question, given in zip(questions, answers_to([line_of(question) for question in questions])):
        wanted = said(model.search(question))
        if wanted == "limit":
            dead += 1
        elif given == "limit":
            limits += 1
        elif given != wanted:
            differ += 1
            if differ <= 10:
                print("DIFFERS", line_of(question), "\n ", given, "\n ", wanted)
    kinds = ", ".join("%d %s" % (sum(question[0] == kind for question in questions), kind) for kind in ("infeasible", "sup", "stratum"))
    print("%d questions (%s), %d differ, %d dead, %d with a limit of the finder alone" % (len(questions), kinds, differ, dead, limits))


if __name__ == "__main__":
    main()
