#!/usr/bin/env python3
"""Proves what can be proved of made and mutated programs by the built program (`prove`) and by an independent model of its rules, and
compares status and report.

usage: compare_prove.py [--loops] MODEL_FOLDER PROGRAM [COUNT] [SEED]

Compared are phases, products as lower terms of loops, products of rows in the questions of verdicts, recursions that are told by their
last round, and the rows that hold at points. Every second program is a made one in which some numbers, names and signs stand in place of
others, and every fifth one a loop whose turns add products; with --loops each is such a loop, and `analyse` is compared too. A refuting
point is free, so its line is compared by what stands before its numbers alone. Which questions end with a limit depends on the search:
where one of the reports tells of a limit, they are not compared, and that is counted. A program for which one of the two takes more than
ten seconds is left out, and counted. Besides it is counted how many assertions `prove` proves that `analyse` does not, and the other way
round.
"""
import os, random, re, signal, subprocess, sys

from compare_programs import LIMIT, blur, proved, run
from compare_replay import Maker

LOOPS = "--loops" in sys.argv
WORDS = [it for it in sys.argv[1:] if it != "--loops"]
sys.path.insert(0, WORDS[0])
import cra, front, session  # the model
import search_counts

TOKEN = re.compile(rb"\w+|[<>=!&|+*/%-]+|\S")


class Slow(Exception):
    pass


def late(*_):
    raise Slow


def wanted(text, rule=4):
    """The status of the model, and its report or the line of its refusal."""
    signal.signal(signal.SIGALRM, late)
    signal.alarm(LIMIT)
    try:
        report = session.analyse(text, rule=rule).report_text()
    except front.Refused as refused:
        return 3, cra.line_bytes([refused.line()])
    finally:
        signal.alarm(0)
    return (0 if b" 0 unproved" in report.splitlines()[-1] else 1), report


def kind(token):
    """Numbers, names, signs of comparison and of sums; a keyword or any other token is of no kind."""
    if token.isdigit():
        return "number"
    if token in (b"<", b">", b"<=", b">=", b"==", b"!="):
        return "comparison"
    if token in (b"+", b"-", b"*"):
        return "sum"
    return "name" if re.fullmatch(rb"[a-z]\d?", token) else None


def mutated(rng, text):
    """The text with some tokens in place of others of their kind."""
    tokens = TOKEN.findall(text)
    places = [n for n, token in enumerate(tokens) if kind(token)]
    for _ in range(rng.randrange(1, 4) if places else 0):
        at = rng.choice(places)
        tokens[at] = rng.choice([tokens[n] for n in places if kind(tokens[n]) == kind(tokens[at])])
    return b" ".join(tokens)


def loop(rng):
    """A loop whose turns add sums of products of columns that stay, that count, and that grow by others."""
    names = rng.sample(["a", "b", "c", "v"], rng.randrange(1, 4))
    known = ["w", "i", "n", *names]

    def sum_of():
        terms = ["*".join([rng.choice(["", "", "2*", "-1*"]) + rng.choice(known)] + [rng.choice(known)] * (rng.random() < 0.6)) for _ in range(rng.choice([1, 1, 2]))]
        return " + ".join(terms + [str(rng.randrange(-2, 4))] * (rng.random() < 0.3))

    turns = ["%s = %s + %s;" % (name, name, sum_of()) for name in names]
    if rng.random() < 0.2:
        turns.insert(0, "int r = __VERIFIER_nondet_int();")
        known.append("r")
    if rng.random() < 0.2:
        turns[-1] = "if (%s < %s) { %s }" % (rng.choice(known[:3]), rng.choice(["0", "w", "3"]), turns[-1])
    turns.insert(rng.randrange(len(turns) + 1) if "int r" not in turns[0] else len(turns), "i = i + 1;")
    begin = " ".join("int %s = %s;" % (name, rng.choice(["0", "0", "1", "w"])) for name in names)
    claim = "%s %s %s" % (rng.choice(["", "2*"]) + rng.choice(names), rng.choice(["==", ">=", "<="]), rng.choice(["w*n", "w*n*n - w*n", "n*n", "0", sum_of()]))
    text = ("int main(void) { int w = __VERIFIER_nondet_int(); int n = __VERIFIER_nondet_int(); int i = 0; %s assume(n >= %d); "
            "while (i < n) { %s } assert(%s); }")
    return (text % (begin, rng.randrange(2), " ".join(turns), claim)).encode()


def main():
    program = [os.path.abspath(WORDS[1])]
    count = int(WORDS[2]) if len(WORDS) > 2 else 300
    rng = random.Random(int(WORDS[3]) if len(WORDS) > 3 else 1)
    differ, left_out, limited, refused, more, less = 0, 0, 0, 0, 0, 0
    for number in range(count):
        text = loop(rng) if LOOPS or number % 5 == 0 else Maker(rng).program().encode()
        if number % 2:
            text = mutated(rng, text)
        try:
            given, before, model = run(program, "prove", text), run(program, "analyse", text), wanted(text)
            pairs = [(given, model)] + ([(before, wanted(text, 2))] if LOOPS else [])
        except (subprocess.TimeoutExpired, Slow):
            left_out += 1
            continue
        more += len(proved(given[1]) - proved(before[1]))
        less += len(proved(before[1]) - proved(given[1]))
        refused += model[0] == 3
        if any(b"limit " in one[1] for pair in pairs for one in pair):
            limited += 1
        elif any(ours[0] != theirs[0] or blur(ours[1]) != blur(theirs[1]) for ours, theirs in pairs):
            differ += 1
            if differ <= 10:
                print("DIFFERS", repr(text), "\n ", *pairs)
    print("%d programs, %d refused, %d differ, %d with limits, %d left out" % (count, refused, differ, limited, left_out))
    print("%d assertions are proved by `prove` alone, %d by `analyse` alone" % (more, less))


if __name__ == "__main__":
    main()
