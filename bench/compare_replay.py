#!/usr/bin/env python3
"""Follows executions of made programs on made values by the built program and by an independent model of its rules, and
compares status and bytes.

usage: compare_replay.py MODEL_FOLDER PROGRAM [COUNT] [SEED]
"""
import json, random, re, subprocess, sys


class Maker:
    """A program with procedures that call earlier ones, and globals."""

    def __init__(self, rng):
        self.rng = rng
        self.procs = []  # name, number of parameters, whether it returns a value
        self.names = 0

    def expr(self, names, depth):
        r = self.rng
        if depth == 0 or r.random() < 0.3:
            if names and r.random() < 0.65:
                return r.choice(names)
            return r.choice(["0", "1", "2", "3", "7", "0x1F", "9223372036854775807", "4611686018427387904"])
        kind = r.randrange(12)
        if kind == 0:
            return r.choice(["-", "!", "+"]) + "(" + self.expr(names, depth - 1) + ")"
        op = r.choice(["+", "-", "*", "+", "-", "*", "/", "%", "<", "<=", ">", ">=", "==", "!=", "&&", "||"])
        return "(%s %s %s)" % (self.expr(names, depth - 1), op, self.expr(names, depth - 1))

    def call(self, names):
        name, params, returns = self.rng.choice(self.procs)
        args = ", ".join(self.expr(names, 1) for _ in range(params))
        return "%s(%s)" % (name, args), returns

    def fresh(self):
        self.names += 1
        return "v%d" % self.names

    def stmt(self, names, depth, loop, returns):
        """A statement; a declaration puts its name at the end of the names."""
        r = self.rng
        kind = r.randrange(20)
        if kind < 3:
            name = self.fresh()
            value = "__VERIFIER_nondet_int()" if r.random() < 0.5 else self.expr(names, 2)
            names.append(name)
            return "int %s = %s;" % (name, value)
        if kind < 6 and names:
            return "%s %s %s;" % (r.choice(names), r.choice(["=", "+=", "-=", "*=", "/=", "%="]), self.expr(names, 2))
        if kind == 6 and names:
            return "%s%s;" % (r.choice(names), r.choice(["++", "--"]))
        if kind == 7 and names:
            return "%s = __VERIFIER_nondet_int();" % r.choice(names)
        if kind == 8:
            return "assert(%s);" % self.expr(names, 2)
        if kind == 9:
            return "assume(%s);" % self.expr(names, 2) if r.random() < 0.6 else "assert(%s);" % self.expr(names, 1)
        if kind < 12 and depth:
            text = "if (%s) %s" % (self.expr(names, 2), self.block(names, depth - 1, loop, returns))
            return text + (" else " + self.block(names, depth - 1, loop, returns) if r.random() < 0.5 else "")
        if kind == 12 and depth:
            return "while (%s) %s" % (self.expr(names, 2), self.block(names, depth - 1, True, returns))
        if kind == 13 and depth:
            return "do %s while (%s);" % (self.block(names, depth - 1, True, returns), self.expr(names, 1))
        if kind == 14 and depth:
            name = self.fresh()
            return "for (int %s = 0; %s < %d; %s++) %s" % (
                name, name, r.randrange(1, 5), name, self.block(names + [name], depth - 1, True, returns))
        if kind == 15 and loop:
            return r.choice(["break;", "continue;"])
        if kind == 16:
            return r.choice(["return %s;" % self.expr(names, 2) if returns else "return;", "exit(0);", "abort();", ";"])
        if kind < 20 and self.procs:
            call, value = self.call(names)
            if value and r.random() < 0.7:
                name = self.fresh()
                names.append(name)
                return "int %s = %s;" % (name, call)
            return call + ";"
        return ";"

    def block(self, names, depth, loop, returns):
        inner = list(names)
        return "{ " + " ".join(self.stmt(inner, depth, loop, returns) for _ in range(self.rng.randrange(1, 5))) + " }"

    def program(self):
        r = self.rng
        globals_ = ["g", "h"][:r.randrange(3)]
        text = "".join("int %s = %d;\n" % (name, r.randrange(-3, 9)) for name in globals_)
        for number in range(r.randrange(4)):
            params = ["a", "b", "c"][:r.randrange(4)]
            returns = r.random() < 0.6
            head = "%s p%d(%s)" % ("int" if returns else "void", number, ", ".join("int " + p for p in params) or "void")
            body = self.block(globals_ + params, 2, False, returns)
            if returns and r.random() < 0.8:
                body = body[:-1] + "return %s; }" % self.expr(globals_ + params, 2)
            text += head + " " + body + "\n"
            self.procs.append(("p%d" % number, len(params), returns))
        if r.random() < 0.2:
            text += "int again(int n) { if (n <= 0) return 0; int m = again(n - 1); return m + n; }\n"
            self.procs.append(("again", 1, True))
        returns = r.random() < 0.8
        return text + "%s main(void) %s\n" % ("int" if returns else "void", self.block(globals_, 3, False, returns))


def value(rng):
    kind = rng.randrange(10)
    if kind < 7:
        return str(rng.randrange(-4, 10))
    return str(rng.choice([2 ** 127 - 1, -(2 ** 127), 2 ** 63, -(2 ** 64), 2 ** 100, 10 ** 20]))


def made(rng):
    """The bytes of an input."""
    text = Maker(rng).program()
    given = {
        "text": text,
        "values": [value(rng) for _ in range(rng.choice([0, 1, 3, 8, 20]))],
        "turns": rng.choice([1, 2, 5, 20, 100, 300, 1000]),
    }
    kind = rng.randrange(40)
    if kind == 0:
        given[rng.choice(["values", "turns", "text"])] = rng.choice([0, 100001, -1, "x", None, [1], ["01"], ["-0"], [str(2 ** 127)], {}, 1.5])
    elif kind == 1:
        del given[rng.choice(["values", "turns", "text"])]
    elif kind == 2:
        given["text"] = text.replace(rng.choice([";", "int", "(", "main"]), rng.choice(["", "@", "x"]), 1)
    elif kind == 3:
        given["more"] = [1]
    source = json.dumps(given).encode()
    if kind == 4:
        source = source[:rng.randrange(len(source))]
    elif kind == 5:
        source = rng.choice([b"[]", b"1", b"\"\"", b"null", b"{", b"\xff", b"", b"{} {}"])
    return source


def main():
    folder, program = sys.argv[1], sys.argv[2]
    count = int(sys.argv[3]) if len(sys.argv) > 3 else 2000
    rng = random.Random(int(sys.argv[4]) if len(sys.argv) > 4 else 1)
    sys.path.insert(0, folder)
    import cra  # the model
    differ, seen = 0, {}
    for _ in range(count):
        source = made(rng)
        ran = subprocess.run([program, "replay"], input=source, capture_output=True)
        status, text = cra.run(["cra", "replay"], source)
        key = key_of(ran.stdout)
        seen[key] = seen.get(key, 0) + 1
        if (ran.returncode, ran.stdout) != (status, text):
            differ += 1
            if differ <= 10:
                print("DIFFERS", repr(source), "\n  program", ran.returncode, ran.stdout, "\n  model  ", status, text)
    print("%d inputs, %d differ" % (count, differ))
    for key in sorted(seen):
        print("  %6d %s" % (seen[key], key))


def key_of(text):
    """How an output ends, without its numbers."""
    last = (text.decode(errors="replace").splitlines() or [""])[-1]
    for cut in (" after ", " at "):
        last = last.split(cut)[0]
    return re.sub(r"\d+", "N", last)


if __name__ == "__main__":
    main()
