#!/usr/bin/env python3
"""Times the built program on the texts of `bench/texts`, and on made texts that grow: chains of procedures with nested loops, one
loop over more and more variables that branches, loops one behind the other, loops inside each other, recursion over more and more
globals, a ring of procedures each of which calls the next one, procedures of many locals with loops of many branches, and procedures
with loops of branches, or with nested loops, over shared globals, called in a loop, in which `prove` looks for rows at points; and
texts by seeds, of up to 150 and of up to 60 lines, the last ones also with one statement in a line, whose procedures branch over so
many globals that `prove` takes long. For each text: its lines, the cost of `analyse`, of `certify` and of `check` of what that
printed, and the number of answers. Where a made text has twice the size of one before it, the growth of the costs is told as an
exponent: 1 is linear, 2 quadratic.

usage: time_programs.py [--instructions] [--beside WORD] [--only NAME] PROGRAM

With --beside the costs are those of `analyse` and of this word, which takes the same texts: `facets` or `prove`.

A cost is in seconds of processor time; with --instructions it is in millions of instructions, as callgrind counts them. These are
the same in each run, and take fifty times as long to count. --only takes the name of one text or of one family.
"""
import glob, json, math, os, random, re, resource, subprocess, sys


def chain(count):
    text = ""
    for k in range(count):
        call = f"  x = x + p{k - 1}(n);\n" if k else ""
        text += (f"int p{k}(int n) {{\n  int i = 0;\n  int x = 0;\n  while (i < n) {{\n    int j = 0;\n    while (j < i) {{ j++; x++; }}\n"
                 f"    i++;\n  }}\n{call}  assert(x >= 0);\n  return x;\n}}\n")
    return text + f"int main(void) {{\n  int m = __VERIFIER_nondet_int();\n  assume(m >= 0);\n  int y = p{count - 1}(m);\n  assert(y >= 0);\n}}\n"


def variables(count):
    text = "int main(void) {\n" + "".join(f"  int x{i} = __VERIFIER_nondet_int();\n" for i in range(count))
    text += "  while (__VERIFIER_nondet_int()) {\n"
    for i in range(5):
        a, b = f"x{i % count}", f"x{(i + 1) % count}"
        text += f"    if ({a} > {b}) {a} = {a} - 1; else {b} = {b} + 1;\n"
    return text + "  }\n  assert(x0 >= x1);\n}\n"


def loops(count):
    text = "int main(void) {\n" + "".join(f"  int x{i} = 0;\n" for i in range(8)) + "  int n = __VERIFIER_nondet_int();\n"
    for i in range(count):
        text += f"  while (x{i % 8} < n) {{ x{i % 8}++; if (x{(i + 1) % 8} > {i}) x{(i + 2) % 8} += 2; }}\n"
    return text + "  assert(x0 >= 0);\n}\n"


def nested(count):
    text = "int main(void) {\n" + "".join(f"  int x{i} = 0;\n" for i in range(count)) + "  int n = __VERIFIER_nondet_int();\n"
    text += "".join(f"  while (x{k} < n) {{\n    x{k}++;\n" for k in range(count))
    text += "".join(f"    x{(k + 1) % count} = x{(k + 1) % count} + x{k};\n  }}\n" for k in range(count))
    return text + "  assert(x0 >= 0);\n}\n"


def recursion(count):
    text = "".join(f"int g{i};\n" for i in range(count))
    procedures = max(2, count // 2)
    for k in range(procedures):
        call = f" f{k - 1}(n - 1);" if k else ""
        a, b, c = (f"g{(k + d) % count}" for d in range(3))
        text += f"void f{k}(int n) {{ if (n <= 0) return; {a} += n; if ({b} > {a}) {c}--;{call} f{k}(n - 1); }}\n"
    return text + f"int main(void) {{ f{procedures - 1}(__VERIFIER_nondet_int()); assert(g0 >= 0); }}\n"


def ring(count):
    text = "int g;\n" + "".join(f"void f{k}(void);\n" for k in range(1, count))
    text += "".join(f"void f{k}(void) {{ if (g > 0) {{ g = g - 1; f{k % (count - 1) + 1}(); }} }}\n" for k in range(1, count))
    return text + "int main(void) { f1(); assert(g <= 0); }\n"


def locals_(count):
    text = ""
    for k in range(count):
        text += f"int p{k}(int n) {{\n" + "".join(f"  int x{i} = {i};\n" for i in range(13))
        for loop in range(2):
            text += f"  while (x{loop} < n + {k}) {{\n    x{loop}++;\n"
            for i in range(5):
                a, b, c = (f"x{(6 * loop + i + d) % 13}" for d in (2, 3, 5))
                text += f"    if ({a} < {b}) {c}++; else {a} += {i + 1};\n"
            text += "  }\n"
        text += (f"  x2 = x2 + p{k - 1}(x3);\n" if k else "") + "  return x2;\n}\n"
    return text + f"int main(void) {{\n  int y = p{count - 1}(__VERIFIER_nondet_int());\n  assert(y >= 0);\n}}\n"


def shared(count):
    rng, names = random.Random(1), ["g%d" % k for k in range(6)]
    text = "".join(f"int {it} = {rng.randrange(4)};\n" for it in names)
    for k in range(count):
        a, b, c, d = rng.sample(names, 4)
        text += (f"int p{k}(int n) {{\n  int i = 0;\n  int s = 0;\n  while (i < n) {{\n    i++;\n    if ({a} < {b}) {{\n      {a} = {a} + {rng.randrange(1, 3)};\n"
                 f"      s++;\n    }} else if ({c} > {rng.randrange(5)}) {{\n      {c}--;\n      s = s + {rng.randrange(3)};\n    }}\n")
        if k and rng.random() < 0.6:
            text += f"    if ({d} == {rng.randrange(3)}) s = s + p{rng.randrange(k)}({rng.choice(['i', 'n - i', d])});\n"
        text += "  }\n  assert(s >= 0);\n  return s;\n}\n"
    text += "int main(void) {\n  int t = 0;\n  int m = __VERIFIER_nondet_int();\n  assume(m >= 0);\n  while (t < m) {\n    t++;\n"
    text += "".join(f"    {rng.choice(names)} = {rng.choice(names)} + p{k}(t);\n" for k in range(count))
    return text + f"  }}\n  assert({rng.choice(names)} >= 0);\n  assert(t <= m);\n}}\n"


def nests(count):
    rng, names = random.Random(8), ["g%d" % k for k in range(10)]
    text = "".join(f"int {it} = {rng.randrange(3)};\n" for it in names)
    for k in range(count):
        a, b, c, d = rng.sample(names, 4)
        text += (f"int p{k}(int n, int m) {{\n  int i = 0; int s = 0;\n  while (i < n) {{\n    int j = 0;\n    while (j < m) {{\n      j++;\n"
                 f"      if ({a} < {b}) {a}++; else if ({c} > j) {c}--;\n      if (s < {d}) s = s + 1;\n    }}\n    i++;\n")
        text += f"    if ({d} == i) s = p{rng.randrange(k)}(j, {a});\n" if k else ""
        text += f"    if (s > {a}) {b} = s;\n  }}\n  assert(s <= n + m);\n  return s;\n}}\n"
    text += "int main(void) {\n  int t = 0;\n  while (__VERIFIER_nondet_int()) {\n    t++;\n"
    text += "".join(f"    {rng.choice(names)} = p{k}(t, {rng.choice(names)});\n" for k in range(count))
    return text + f"  }}\n  assert({names[0]} <= t);\n}}\n"


def laid_out(text):
    """The text with one statement in a line."""
    made = ""
    for room, line in re.findall(r"^( *)(.*)\n", text, re.M):
        for part in line.replace("; ", ";\n").split("\n"):
            made += room + re.sub(r"^((?:else )?if \(.*?\)) (.*;)$", rf"\1\n{room}  \2", part) + "\n"
    return made


def dense(seed, most=150, layout=lambda text: text):
    """A text of at most so many lines whose procedures' loops have branches over many globals, made to be dear."""
    rng = random.Random(seed)
    names = ["g%d" % k for k in range(rng.randrange(6, 21))]
    depth, branches, calls, made = rng.choice([1, 2, 2, 3]), rng.randrange(1, 5), rng.choice([.5, .8, 1]), 0
    text = "".join(f"int {it} = {rng.randrange(3)};\n" for it in names)
    while True:
        a, b, c, d = rng.sample(names, 4)
        own, room = f"int p{made}(int n, int m) {{\n  int i = 0; int s = 0;\n", "  "
        for level in range(depth):
            own += f"{room}int {'ijh'[level]} = 0;\n" if level else ""
            own += f"{room}while ({'ijh'[level]} < {'nmn'[level]}) {{\n"
            room += "  "
            own += f"{room}{'ijh'[level]}++;\n"
            for _ in range(branches if level == depth - 1 else 0):
                x, y, z = rng.sample(names, 3)
                own += f"{room}if ({x} < {y}) {x}++; else if ({z} > {'ijh'[level]}) {z}--;\n"
        own += f"{room}if (s < {d}) s = s + 1;\n"
        for level in range(depth - 1):
            room = room[2:]
            own += f"{room}}}\n"
            if level == depth - 2:
                if made and rng.random() < calls:
                    own += f"{room}if ({d} == i) s = p{rng.randrange(made)}({rng.choice(['i', 'n', 'm'])}, {a});\n"
                own += f"{room}if (s > {a}) {b} = s;\n"
        if depth == 1 and made and rng.random() < calls:
            own += f"{room}if ({d} == i) s = p{rng.randrange(made)}({rng.choice(['i', 'n', 'm'])}, {a});\n"
        own = layout(own + "  }\n  assert(s <= n + m);\n  return s;\n}\n")
        if len((text + own).split("\n")) + made + 7 > most:
            break
        text, made = text + own, made + 1
    text += "int main(void) {\n  int t = 0;\n  while (__VERIFIER_nondet_int()) {\n    t++;\n"
    text += "".join(f"    {rng.choice(names)} = p{k}(t, {rng.choice(names)});\n" for k in range(made))
    return text + f"  }}\n  assert({names[0]} <= t);\n}}\n"


MADE = [("chain", chain, (1, 2, 4, 8, 16, 32, 64)), ("variables", variables, (2, 4, 8, 12, 16)), ("loops", loops, (5, 10, 20, 40)),
        ("nested", nested, (2, 4, 6, 8, 10)), ("recursion", recursion, (2, 4, 8, 12, 16)),
        ("ring", ring, (16, 32, 64, 128, 256)), ("locals", locals_, (1, 2, 4)),
        ("shared", shared, (2, 3, 4, 5, 6, 7, 8)), ("nests", nests, (2, 4, 6, 8)),
        ("dense", dense, (7, 10, 25, 29)), ("dense60", lambda seed: dense(seed, 60), (112, 114, 126)),
        ("laid_out60", lambda seed: dense(seed, 60, laid_out), (235, 253, 312, 390))]
TEXTS = os.path.join(os.path.dirname(os.path.abspath(__file__)), "texts")


def seconds(command, given):
    """The seconds of processor time that a run takes, and what it prints."""
    before = resource.getrusage(resource.RUSAGE_CHILDREN)
    made = subprocess.run(command, input=given, capture_output=True).stdout
    after = resource.getrusage(resource.RUSAGE_CHILDREN)
    return after.ru_utime + after.ru_stime - before.ru_utime - before.ru_stime, made


def instructions(command, given):
    """The millions of instructions that a run takes, and what it prints."""
    run = subprocess.run(["valgrind", "--tool=callgrind", "--callgrind-out-file=/dev/null", *command], input=given, capture_output=True)
    return int(re.search(rb"Collected : (\d+)", run.stderr)[1]) / 1e6, run.stdout


def costs(cost, program, text, beside):
    """What `analyse`, `certify` and `check` take of a text, or `analyse` and the word beside it; and the number of answers."""
    analyse, _ = cost([program, "analyse"], text)
    if beside:
        return (analyse, cost([program, beside], text)[0]), 0
    certify, file = cost([program, "certify"], text)
    check, passed = cost([program, "check"], file)
    assert passed == b"check passed\n", passed
    return (analyse, certify, check), len(json.loads(file)["answers"])


def growth(small, great):
    """The exponents of the growth from one size to twice it."""
    return " ".join("%6.2f" % math.log2(b / a) if a > 0 and b > 0 else "     -" for a, b in zip(small, great))


def main():
    words = sys.argv[1:]
    cost = instructions if "--instructions" in words else seconds
    only = words[words.index("--only") + 1] if "--only" in words else None
    beside = words[words.index("--beside") + 1] if "--beside" in words else None
    of = ("analyse", beside) if beside else ("analyse", "certify", "check")
    print("%-16s %4s %6s%s%s  growth" % ("text", "size", "lines", "".join(" %9s" % it for it in of), "" if beside else " %8s" % "answers"))

    def line(name, size, text, before=None):
        made, answers = costs(cost, words[-1], text, beside)
        told = "".join(" %9.2f" % it for it in made) + ("" if beside else " %8d" % answers)
        print("%-16s %4s %6d%s  %s" % (name, size, text.count(b"\n"), told, growth(before, made) if before else ""), flush=True)
        return made

    for path in sorted(glob.glob(TEXTS + "/*.c")):
        name = os.path.splitext(os.path.basename(path))[0]
        if only in (None, name):
            with open(path, "rb") as file:
                line(name, "", file.read())
    for name, make, sizes in MADE:
        made = {}
        for size in sizes if only in (None, name) else ():
            made[size] = line(name, size, make(size).encode(), made.get(size / 2))


if __name__ == "__main__":
    main()
