#!/usr/bin/env python3
"""Runs made programs on random values and checks each row that `prove` tells at a point at each visit of that point.

usage: check_rows.py MODEL_FOLDER PROGRAM [VISITS] [SEED]

A visit is the begin of a call, the begin of a turn of a loop, or a return, in a run from `main`. The machine and the maker of programs
are those of an independent model; the rows are read off the program's report."""
import os, random, re, subprocess, sys

sys.path.insert(0, sys.argv[1])
import front  # the model
from fuzz_soundness import Failed, Machine, Maker, Stopped

PLACE = re.compile(r"(reached|returned) (\w+)(?: loop (\d+))?")
WORD = re.compile(r"[A-Za-z_$][\w$#']*")


def distinct(names):
    return ["%s#%d" % (it, n) if it in names[:n] else it for n, it in enumerate(names)]


def rows_of(printed):
    """The rows of each place: (word, procedure, loop) to texts that Python evaluates over a table `at`."""
    found, now = {}, None
    for line in printed.splitlines():
        place = PLACE.fullmatch(line)
        if place:
            now = found.setdefault((place[1], place[2], int(place[3] or 0)), [])
        elif not line.startswith("  "):
            now = None
        elif now is not None:
            sign = "<=" if " <= " in line else "=="
            left = line.strip().rpartition(" <= " if sign == "<=" else " = ")[0]
            told = WORD.sub(lambda it: "at[%r]" % it[0], left)
            now.append((line.strip(), compile("%s %s 0" % (told, sign), "row", "eval")))
    return found


def loops_of(statements):
    """The loops of a procedure, outer ones first, in the order of the text."""
    for it in statements:
        if it[0] == "if":
            yield from loops_of(it[2])
            yield from loops_of(it[3])
        elif it[0] == "loop":
            yield it
            for part in (it[3], it[1], it[4]) if it[5] else (it[1], it[3], it[4]):
                yield from loops_of(part)


def holds(rows, names, numbers):
    at = dict(zip(distinct(names), numbers))
    return [text for text, row in rows if not eval(row, {"at": at})]


def visits(program, rows, machine):
    """Each visit of a place that has rows: what is broken there."""
    shared = [name for name, _ in program.globals]
    for number, globals_, args in machine.calls:
        proc = program.procs[number]
        here = rows.get(("reached", proc.name, 0))
        if here:
            yield holds(here, shared + [it or "" for it in proc.columns[:proc.params]], globals_ + args)
    numbers = {id(it): (p.name, n) for p in program.procs for n, it in enumerate(loops_of(p.body), 1)}
    for number, loop, _, state in machine.at_heads:
        proc = program.procs[number]
        here = rows.get(("reached", *numbers[id(loop)]))
        if here:
            yield holds(here, shared + [it or "" for it in proc.columns] + ["$ret"], state)
    for number, globals_, args, after, value in machine.returns:
        proc = program.procs[number]
        here = rows.get(("returned", proc.name, 0))
        if here:
            yield holds(here, shared + [it or "" for it in proc.columns[:proc.params]] + [it + "'" for it in shared] + ["$ret"], globals_ + args + after + [value])


def main():
    wanted, seed = (int(it) for it in [*sys.argv[3:], *["10000", "1"][len(sys.argv) - 3 :]])
    seen = told = programs = broken = 0
    while seen < wanted:
        rng = random.Random(seed)
        seed += 1
        text = Maker(rng, rng.random() < 0.4, False).program()
        try:
            program = front.accept(text.encode())
            printed = subprocess.run([os.path.abspath(sys.argv[2]), "prove"], input=text.encode(), stdout=subprocess.PIPE, timeout=20).stdout.decode()
        except (front.Refused, subprocess.TimeoutExpired):
            continue
        rows = rows_of(printed)
        if not rows:
            continue
        programs, told = programs + 1, told + sum(map(len, rows.values()))
        for _ in range(25):
            machine = Machine(program, rng, 2000)
            try:
                machine.call(program.main, [value for _, value in program.globals], [])
            except (Stopped, Failed):
                pass
            for bad in visits(program, rows, machine):
                seen += 1
                if bad:
                    broken += 1
                    print("BROKEN seed", seed - 1, bad, "\n" + text)
    print("%d programs with %d rows, %d visits, %d broken" % (programs, told, seen, broken))
    return broken > 0


if __name__ == "__main__":
    sys.exit(main())
