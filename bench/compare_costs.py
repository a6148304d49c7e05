#!/usr/bin/env python3
"""Bounds on a global's change in made programs, by the built program and by an independent model of its rules: compares status
and bytes of `cost g`.

usage: compare_costs.py MODEL_FOLDER PROGRAM [COUNT] [SEED]

Half of the programs have loops and recursion that count in the global `g`, and half are those of compare_replay.py. Which questions
end with a limit depends on the search: where one of the two tells of a limit, they are not compared, and that is counted. A program
for which one of the two takes more than ten seconds is left out, and counted.
"""
import os, random, subprocess, sys

from compare_replay import Maker

LIMIT = 10


def run(command, text):
    ran = subprocess.run(command + ["cost", "g"], input=text, capture_output=True, timeout=LIMIT)
    return ran.returncode, ran.stdout


class Counter:
    """A program whose procedures count in `g`."""

    def __init__(self, rng):
        self.rng = rng

    def step(self, names):
        r = self.rng
        return "g = g + %s;" % r.choice([str(r.randrange(-2, 4)), r.choice(names), "%d*%s" % (r.randrange(-2, 4), r.choice(names))])

    def bound(self, names):
        r = self.rng
        return r.choice([str(r.randrange(1, 6)), r.choice(names), "2*%s" % r.choice(names), "%s - 1" % r.choice(names)])

    def loop(self, names, depth):
        r = self.rng
        i = "i%d" % len(names)
        inner = [self.step(names + [i])] if r.random() < 0.8 else []
        if depth and r.random() < 0.5:
            inner.append(self.loop(names + [i], depth - 1))
        if r.random() < 0.3:
            inner.append("if (__VERIFIER_nondet_int()) %s" % self.step(names + [i]))
        if r.random() < 0.3:
            inner.insert(0, "assert(%s >= 0);" % i)
        head = "for (int %s = %d; %s < %s; %s++)" % (i, r.randrange(0, 2), i, self.bound(names), i)
        return "%s { %s }" % (head, " ".join(inner))

    def procedure(self, name, earlier):
        r = self.rng
        names = ["n", "m"][:r.randrange(1, 3)]
        kind = r.randrange(4)
        body = []
        if r.random() < 0.4:
            body.append("assume(%s %s %d);" % (r.choice(names), r.choice(["<=", ">=", "<"]), r.randrange(-1, 9)))
        if kind == 0:
            call = "%s(%s);" % (name, ", ".join(["n - 1"] + names[1:]))
            body += ["if (n <= 0) return;", self.step(names), call]
        else:
            body += [self.loop(names, 1) for _ in range(r.randrange(1, 3))]
        if earlier and r.random() < 0.4:
            called, count = r.choice(earlier)
            body.append("%s(%s);" % (called, ", ".join([r.choice(names + ["3"])] * count)))
        head = "void %s(%s)" % (name, ", ".join("int " + it for it in names))
        return "%s { %s }\n" % (head, " ".join(body)), len(names)

    def program(self):
        r = self.rng
        text, earlier = "int g;\n" if r.random() < 0.7 else "int h, g;\n", []
        for number in range(r.randrange(1, 4)):
            name = "p%d" % number
            made, count = self.procedure(name, earlier)
            text += made
            earlier.append((name, count))
        calls = ["%s(%s);" % (name, ", ".join(str(r.randrange(0, 7)) for _ in range(count))) for name, count in earlier]
        return text + "int main(void) { %s }\n" % " ".join(calls)


def main():
    folder, program = sys.argv[1], [os.path.abspath(sys.argv[2])]
    count = int(sys.argv[3]) if len(sys.argv) > 3 else 300
    rng = random.Random(int(sys.argv[4]) if len(sys.argv) > 4 else 1)
    model = [sys.executable, os.path.join(folder, "cra.py")]
    differ, left_out, limited = 0, 0, 0
    ends, lines = {}, {}
    for number in range(count):
        maker = Counter(rng) if number % 2 else Maker(rng)
        text = maker.program().encode()
        try:
            wanted, given = run(model, text), run(program, text)
        except subprocess.TimeoutExpired as slow:
            left_out += 1
            if slow.cmd[0] == program[0]:
                print("SLOW", repr(text))
            continue
        ends[wanted[0]] = ends.get(wanted[0], 0) + 1
        for line in wanted[1].split(b"\n"):
            for kind in (b"change =", b"change <=", b"no bound", b"limit"):
                if kind in line:
                    lines[kind.decode()] = lines.get(kind.decode(), 0) + 1
        if b"limit " in given[1] or b"limit " in wanted[1]:
            limited += 1
        elif given != wanted:
            differ += 1
            if differ <= 10:
                print("DIFFERS", repr(text), "\n ", given, "\n ", wanted)
    print("%d programs, %d differ, %d with limits, %d left out" % (count, differ, limited, left_out))
    print("statuses:", ends, "lines of the model:", lines)


if __name__ == "__main__":
    main()
