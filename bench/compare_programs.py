#!/usr/bin/env python3
"""Analyses made programs with branches, loops, calls and recursion by the built program and by an independent model of its
rules, and compares status and report. Each of the two also checks the certificate file that the other one prints.

usage: compare_programs.py [--facets] MODEL_FOLDER PROGRAM [COUNT] [SEED]

A refuting point is free, so its line is compared by what stands before its numbers alone. Which questions end with a limit
depends on the search: where one of the reports tells of a limit, they are not compared, and that is counted. A program for
which one of the two takes more than ten seconds is left out, and counted. With --facets it is the word `facets` in place of
`analyse`, which no certificate file is of; every third program is a loop whose branches add small numbers, and it is counted
which notes of hulls came, and how many assertions `facets` proves that `analyse` does not, and the other way round.
"""
import collections, os, random, re, subprocess, sys, time

from compare_replay import Maker

LIMIT = 10
FACETS = "--facets" in sys.argv
WORDS = [it for it in sys.argv[1:] if it != "--facets"]
WORD = "facets" if FACETS else "analyse"


def slopes(rng):
    """A loop whose branches add small numbers to a few variables, and behind it a bound on a sum of these, which the branches keep
    every second time."""
    names = "xyz"[: rng.choice((2, 2, 3))]
    branches = [[rng.choice((0, 0, 1, 1, 2, 3, -1, -2)) for _ in names] for _ in range(rng.randrange(2, 5))]
    added = ["{ %s }" % " ".join("%s = %s + %d;" % (name, name, number) for name, number in zip(names, it) if number) for it in branches]
    turn = added.pop()
    while added:
        turn = "if (%s) %s else %s" % (rng.choice(("__VERIFIER_nondet_int()", "x < y", "i > 2", "y >= 3")), added.pop(), turn)
    begin = [rng.randrange(2) for _ in names]
    claim = [rng.randrange(-3, 4) for _ in names]
    most = max(sum(a * b for a, b in zip(claim, it)) for it in branches) - (rng.random() < 0.5)
    rest = sum(a * b for a, b in zip(claim, begin))
    text = "int main(void) { int n = __VERIFIER_nondet_int(); int i = 0; %s while (i < n) { %s i = i + 1; } int c = %s; assert(c <= %d * i + %d); }"
    return text % (" ".join("int %s = %d;" % it for it in zip(names, begin)), turn, " + ".join("%d * %s" % it for it in zip(claim, names)), most, rest)


def proved(report):
    """The numbers of the assertions that a report tells as proved."""
    return {line.split()[1] for line in report.splitlines() if line.startswith(b"assertion ") and line.endswith(b" proved")}


def blur(text):
    return re.sub(rb"(point )[^\n]*", rb"\1..", text)


def run(command, word, text):
    ran = subprocess.run(command + [word], input=text, capture_output=True, timeout=LIMIT)
    return ran.returncode, ran.stdout


def difference(program, model, text, times, limited):
    """What differs on a text; nothing where all is the same."""
    wanted = run(model, WORD, text)
    begun = time.time()
    given = run(program, WORD, text)
    times.append((time.time() - begun, text))
    if b"limit " in given[1] or b"limit " in wanted[1]:
        limited.append(text)
    elif given[0] != wanted[0] or blur(given[1]) != blur(wanted[1]):
        return "report", given, wanted
    if wanted[0] > 1 or FACETS:
        return None
    for maker, tester, name in ((program, model, "the model's check"), (model, program, "the program's check")):
        file = run(maker, "certify", text)[1]
        passed = run(tester, "check", file)
        if passed != (0, b"check passed\n"):
            return name, passed, file[:200]
    return None


def besides(program, text, counts):
    """Counts what `facets` tells of a text beside `analyse`."""
    given, before = run(program, "facets", text)[1], run(program, "analyse", text)[1]
    counts["texts with a note of facets beyond"] += b"note facets beyond" in given
    counts["assertions proved by `facets` alone"] += len(proved(given) - proved(before))
    counts["by `analyse` alone"] += len(proved(before) - proved(given))


def main():
    folder, program = WORDS[0], [os.path.abspath(WORDS[1])]
    count = int(WORDS[2]) if len(WORDS) > 2 else 300
    rng = random.Random(int(WORDS[3]) if len(WORDS) > 3 else 1)
    model = [sys.executable, os.path.join(folder, "cra.py")]
    differ, left_out, times, limited, counts = 0, 0, [], [], collections.Counter()
    for number in range(count):
        text = (slopes(rng) if FACETS and number % 3 == 0 else Maker(rng).program()).encode()
        try:
            found = difference(program, model, text, times, limited)
            if FACETS:
                besides(program, text, counts)
        except subprocess.TimeoutExpired as slow:
            left_out += 1
            if slow.cmd[0] == program[0]:
                print("SLOW", repr(text))
            continue
        if found:
            differ += 1
            if differ <= 10:
                print("DIFFERS", found[0], repr(text), "\n ", found[1], "\n ", found[2])
    times.sort(key=lambda pair: pair[0])
    print("%d programs, %d differ, %d with limits, %d left out" % (count, differ, len(limited), left_out))
    if times:
        print("seconds: half below %.3f, all below %.3f" % (times[len(times) // 2][0], times[-1][0]))
    for what, number in counts.items():
        print(number, what)


if __name__ == "__main__":
    main()
