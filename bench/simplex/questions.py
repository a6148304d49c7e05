#!/usr/bin/env python3
"""Prints questions of rows and of suprema as they come from programs: a model of the analysis runs on made programs, and each
question that it poses is a line. The rows of a case are parted by semicolons, what stands behind a colon is its objective, and
`%` parts cases. Behind them stand made questions of up to 40 rows and 20 columns.

usage: questions.py MODEL_FOLDER [COUNT] [SEED]
"""
import os, random, sys

folder = sys.argv[1]
count = int(sys.argv[2]) if len(sys.argv) > 2 else 3000
rng = random.Random(int(sys.argv[3]) if len(sys.argv) > 3 else 1)
sys.path.insert(0, folder)
sys.path.insert(0, os.path.join(os.path.dirname(os.path.abspath(__file__)), ".."))
import session, solve  # the model
from linear import AT_MOST, EQUAL, Row, make
from compare_replay import Maker


def poly_text(poly):
    text = ""
    for mono, number in list(poly.terms) + ([((), poly.rest)] if poly.rest or not poly.terms else []):
        name = "*".join("x%d" % (column if column < 1 << 40 else 1000 + column - (1 << 40)) for column in mono)
        size = abs(number)
        term = str(size) if not mono else name if size == 1 else "%d*%s" % (size, name)
        text += ("-" if number < 0 else "") + term if not text else (" - " if number < 0 else " + ") + term
    return text


def row_text(row):
    return poly_text(row.poly) + (" <= 0" if row.kind == AT_MOST else " = 0")


def rows_text(rows):
    return "; ".join(row_text(row) for row in rows)


class Recording(solve.Finder):
    def __init__(self):
        super().__init__()
        self.lines = []

    def ask(self, question):
        if question[0] == "infeasible" and question[1]:
            self.lines.append(rows_text(question[1]))
        if question[0] == "sup" and question[1]:
            self.lines.append(" % ".join(rows_text(rows) + " : " + poly_text(objective) for rows, objective in question[1]))
        return super().ask(question)


def real_questions():
    lines = []
    while len(lines) < count:
        oracle = Recording()
        session.Session().submit(Maker(rng).program().encode(), oracle)
        lines += oracle.lines
    return lines[:count]


def made_question(columns, rows):
    """A bounded supremum over rows through a box."""
    def poly(bound):
        return make({(c,): n for c in range(columns) if (n := rng.randint(-9, 9)) and rng.random() < 0.4}, -rng.randint(0, bound))
    boxes = [Row(make({(c,): s}, -rng.randint(1, 50)), AT_MOST) for c in range(columns) for s in (1, -1)]
    others = [Row(poly(99), AT_MOST) for _ in range(max(0, rows - 2 * columns))]
    return rows_text((boxes + others)[:rows]) + " : " + poly_text(make({(c,): rng.randint(-9, 9) or 1 for c in range(columns)}, 0))


def main():
    for line in real_questions():
        print(line)
    print()
    for columns, rows in ((4, 10), (8, 20), (12, 30), (20, 40)):
        for _ in range(25):
            print(made_question(columns, rows))


if __name__ == "__main__":
    main()
