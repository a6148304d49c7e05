#!/usr/bin/env python3
"""Runs the built program on inputs at its limits: the deepest and the longest texts under a stack of 1 MiB, a text of 20,000 bytes,
`sample` of all its numbers, `renew` of what `certify` printed, and a text whose certificate file is too long. Says of each whether
the program ended as it has to, and how many seconds of the processor it took.

usage: extremes.py [--only NAME] PROGRAM      (NAME: deep, long, samples, renewed or file)
"""
import glob, os, resource, subprocess, sys

import time_programs

MIB = 2 ** 20
HERE = os.path.dirname(os.path.abspath(__file__))
UNKNOWN = "__VERIFIER_nondet_int()"


def inside(text):
    return "int main(void) { int x = %s; int n = %s; %s }" % (UNKNOWN, UNKNOWN, text)


def calls(count):
    """Procedures that call each other in a chain, with main so many."""
    text = "int f1(int a) { return a; }\n"
    text += "".join("int f%d(int a) { return f%d(a) + 1; }\n" % (k, k - 1) for k in range(2, count))
    return text + "int main(void) { int x = f%d(0); assert(x == %d); }\n" % (count - 1, count - 2)


# Texts as deep or as long as one can be, each with the status of `analyse`.
DEEP = [
    ("64 blocks", "int main(void) " + "{" * 64 + "}" * 64, 0),
    ("63 branches", inside("if (x < n) " * 63 + "x = n;"), 0),
    ("63 branches by else", inside("if (x < n) n = x; else " * 63 + "x = n;"), 0),
    ("63 loops", inside("while (x < n) " * 63 + "x++;"), 0),
    ("63 loops, tested last", inside("do " * 63 + "x++;" + " while (x < n);" * 63), 0),
    ("63 brackets", inside("return " + "(" * 63 + "x" + ")" * 63 + ";"), 0),
    ("63 unary operators", inside("return " + "!" * 63 + "x;"), 0),
    ("256 binary operators", inside("return x" + " + x" * 256 + ";"), 0),
    ("512 nodes", "int main(void) { int x; " + "x = 1; " * 509 + "}", 0),
    ("512 nodes with assertions", "int main(void) { int x; " + "assert(x <= x); " * 509 + "}", 0),
    ("256 procedures", calls(256), 0),
    ("256 procedures, 255 of them in a ring", time_programs.ring(256), 0),
    ("200,000 tokens", "int main(void) {" + ";" * 199993 + "}", 0),
    ("65 blocks", "int main(void) " + "{" * 65 + "}" * 65, 3),
    ("500,000 brackets", inside("return " + "(" * 500000), 3),
]
DEEP_FILES = [
    ("1,000 nested lists", "[" * 1000 + "]" * 1000, 7),
    ("30,000,000 nested lists", "[" * 30_000_000 + "]" * 30_000_000, 7),
    ("1,000,000 nested objects", "{\"a\":" * 1_000_000, 7),
]


def run(program, words, source=b"", stack=None):
    """The status, the bytes and the seconds of the processor of a run."""
    small = (lambda: resource.setrlimit(resource.RLIMIT_STACK, (stack, stack))) if stack else None
    before = resource.getrusage(resource.RUSAGE_CHILDREN)
    made = subprocess.run([program, *words], input=source, capture_output=True, preexec_fn=small)
    after = resource.getrusage(resource.RUSAGE_CHILDREN)
    assert made.stderr == b"", made.stderr
    return made.returncode, made.stdout, after.ru_utime + after.ru_stime - before.ru_utime - before.ru_stime


def tell(name, right, took, more=""):
    print("%-46s %-5s %8.2f s  %s" % (name, "right" if right else "WRONG", took, more), flush=True)
    return right


def last_line(output):
    return output.decode(errors="replace").strip().split("\n")[-1][:70]


def deep(program):
    """Each text and file under a stack of 1 MiB, which answers as under the usual one."""
    for name, text, wanted in DEEP:
        status, output, took = run(program, ["analyse"], text.encode(), MIB)
        yield tell(name, status == wanted and (status, output) == run(program, ["analyse"], text.encode())[:2], took, last_line(output))
        if status > 1:
            continue
        _, file, took = run(program, ["certify"], text.encode(), MIB)
        answer = run(program, ["check"], file, MIB)
        yield tell("  its file", answer[:2] == (0, b"check passed\n"), took + answer[2], "%d bytes" % len(file))
    for name, text, wanted in DEEP_FILES:
        status, output, took = run(program, ["check"], text.encode(), MIB)
        yield tell(name, status == wanted, took, last_line(output))


def long(program):
    """A text of 20,000 bytes, filled up by blanks."""
    count = 1
    while len(time_programs.chain(count + 1)) <= 20_000:
        count += 1
    text = time_programs.chain(count).ljust(20_000).encode()
    status, output, took = run(program, ["analyse"], text)
    yield tell("%d bytes, %d procedures" % (len(text), count + 1), status in (0, 1) and output.startswith(b"procedure p0\n"), took, last_line(output))


def sample_line(count):
    """The line of a sample, whose assertions are all proved."""
    text = "".join("int p%d(int n) {\n  int i = 0;\n  while (i < n) i++;\n  assert(i >= n);\n  return i;\n}\n" % k for k in range(1, count + 1))
    text += "int main(void) {\n" + "".join("  p%d(%d);\n" % (k, k) for k in range(1, count + 1)) + "}\n"
    return b"sample %d: %d bytes, %d groups, %d proved, 0 unproved\n" % (count, len(text), count + 1, count)


def samples(program):
    """All numbers of `sample`, each with its counts."""
    wrong, took = [], 0
    for count in range(1, 251):
        status, output, more = run(program, ["sample", str(count)])
        took += more
        if (status, output) != (0, sample_line(count)):
            wrong.append(count)
    yield tell("samples 1 to 250", not wrong, took, "%s" % (wrong or last_line(sample_line(250))))


def renewed(program):
    """What `certify` prints of a text is renewed as it is."""
    for path in sorted(glob.glob(os.path.join(HERE, "texts", "*.c")) + glob.glob(os.path.join(HERE, "..", "examples", "*.c"))):
        with open(path, "rb") as file:
            status, made, _ = run(program, ["certify"], file.read())
        if status == 0:
            answer = run(program, ["renew"], made)
            yield tell(os.path.basename(path), answer[:2] == (0, made), answer[2], "%d bytes" % len(made))


def branching(count):
    """Procedures with a loop of four branches over twelve locals, each with numbers of its own."""
    text = ""
    for number in range(1, count + 1):
        text += "void f%d(void) {\n" % number + "".join("  int x%d = %s;\n" % (k, UNKNOWN) for k in range(12))
        text += "  while (x0 < %d) {\n    x0++;\n" % (1000 * number)
        for branch in range(4):
            text += "    if (x%d > x%d + %d) {\n" % (branch + 1, branch + 2, 10 * number + branch)
            text += "".join("      x%d += %d;\n" % (k, 100 * number + k * (branch + 1)) for k in range(branch + 1, 12, 4)) + "    }\n"
        text += "  }\n}\n"
    return text + "int main(void) {\n" + "".join("  f%d();\n" % k for k in range(1, count + 1)) + "}\n"


def file(program):
    """A text whose certificate file is within the limit, and one whose file is too long."""
    status, output, took = run(program, ["certify"], branching(16).encode())
    yield tell("the file of 17 procedures", status == 0 and len(output) <= 64 * MIB, took, "%d bytes" % len(output))
    status, output, took = run(program, ["certify"], branching(255).encode())
    yield tell("the file of 256 procedures", (status, output) == (9, b"output is too long\n"), took, last_line(output))


def main():
    words = sys.argv[1:]
    parts = {"deep": deep, "long": long, "samples": samples, "renewed": renewed, "file": file}
    only = words[words.index("--only") + 1] if "--only" in words else None
    right = [found for name, part in parts.items() if only in (None, name) for found in part(os.path.abspath(words[-1]))]
    print("%d of %d right" % (sum(right), len(right)))
    sys.exit(0 if all(right) else 1)


if __name__ == "__main__":
    main()
