#!/usr/bin/env python3
"""Runs mutated texts through the built program and an independent model of its rules, and compares status and bytes.

usage: compare.py MODEL_FOLDER PROGRAM [COUNT] [SEED]

The model gives the refusal of a text, or its program, and the report of a program. A refuting point is free, so its
line is compared by what stands before its numbers alone.
"""
import random, re, subprocess, sys

folder, program = sys.argv[1], sys.argv[2]
count = int(sys.argv[3]) if len(sys.argv) > 3 else 10000
seed = int(sys.argv[4]) if len(sys.argv) > 4 else 1
sys.path.insert(0, folder)
import front, cra  # the model

SEEDS = [
    b"int main(void) {\n  int x = __VERIFIER_nondet_int();\n  int y = x + 2;\n  assert(x <= y - 1);\n}\n",
    b"int main(void){int a=1;a=a+2-(3-a);int b;assert(a<=b);}",
    b"int g = -3, h;\nextern int f(int a, int);\nint f(int a, int b) { return a * b; }\nvoid v(void) { g = f(g, 1); }\nint main(void) { v(); assert(g <= 4); }\n",
    b"int main(void){ for (int i = 0; i < 10; i++) { if (i == 3) break; else continue; } do { ; } while (0); return 0; }",
    b"int f(int x){ return x; }\nint main(void){ int y = f(f(1)) + f(2); while (f(y) && y != 3) { y -= 1; } assert(y || !y); exit(f(3)); abort(); }",
    b"#include <assert.h>\n/* c */ // d\nint main() { int x = 0x1F; x += 2; x %= 3; ++x; x--; assume(x > 0); __VERIFIER_error(); }",
    b"void main(void) { int x; { int x = 1; } assert(x - 1 <= x); }",
    b"int p(void);\nint p(void) { return; }\nint main(void) { int a = p(); int b = a / 2 % 3; if (a >= b) if (b) a = 1; else a = 2; assert(a <= b); }",
]
WORDS = [b"int", b"void", b"if", b"else", b"while", b"do", b"for", b"break;", b"continue;", b"return", b"return 1;", b"return;", b"main", b"x", b"y", b"g", b"f",
         b"assert", b"assume", b"exit", b"abort", b"__VERIFIER_nondet_int()", b"__VERIFIER_error()", b"f(1)", b"f(f(2))", b"1", b"0", b"9223372036854775807", b"9223372036854775808",
         b"0x10", b"08", b"1.5", b"(", b")", b"{", b"}", b";", b",", b"=", b"==", b"!=", b"<", b"<=", b">", b">=", b"+", b"-", b"*", b"/", b"%", b"&&", b"||", b"!", b"++", b"--",
         b"+=", b"-=", b"[", b"]", b"?", b":", b"&", b"|", b"->", b"long", b"goto", b"static", b"#include <x>\n", b"/*", b"*/", b"//", b"\n", b"\xff", b"@", b"\x80", b"\xc3\xa9",
         b"int z = 1;", b"z", b"extern", b"int a, b;", b"x = x + 1;", b"int f(int q) { return q; }\n", b"int h(void);\n", b"assert(x <= y);", b"assert(1 <= 2);", b"int x = 3;"]

def mutate(rng):
    text = bytearray(rng.choice(SEEDS))
    for _ in range(rng.randrange(0, 5)):
        kind = rng.randrange(6)
        at = rng.randrange(len(text) + 1)
        if kind == 0 and text:
            del text[at:at + rng.randrange(1, 6)]
        elif kind == 1:
            text[at:at] = b" " + rng.choice(WORDS) + b" "
        elif kind == 2:
            other = rng.choice(SEEDS); a = rng.randrange(len(other)); text[at:at] = other[a:a + rng.randrange(1, 30)]
        elif kind == 3 and text:
            text[at % len(text)] = rng.choice(b" ;(){}=<>+-*/%&|!,xyfg01\n\t")
        elif kind == 4:
            tokens = re.findall(rb"\w+|\s+|[^\w\s]+", bytes(text))
            if len(tokens) > 2:
                i, j = rng.randrange(len(tokens)), rng.randrange(len(tokens)); tokens[i], tokens[j] = tokens[j], tokens[i]; text = bytearray(b"".join(tokens))
        else:
            tokens = re.findall(rb"\w+|\s+|[^\w\s]+", bytes(text))
            if tokens:
                i = rng.randrange(len(tokens)); tokens[i:i] = [tokens[rng.randrange(len(tokens))]]; text = bytearray(b"".join(tokens))
    return bytes(text)

def blur(text):
    return re.sub(rb"(point )\$.*", rb"\1..", text)

def expected(text):
    try:
        front.accept(text)
    except front.Refused as refused:
        return 3, ("%s\n" % refused.line(text)).encode()
    status, out = cra.run(["cra", "analyse"], text)
    return status, out if isinstance(out, bytes) else out.encode()

rng = random.Random(seed)
differ, seen = 0, {}
for n in range(count):
    text = mutate(rng)
    ran = subprocess.run([program, "analyse"], input=text, capture_output=True)
    want = expected(text)
    key = "report" if ran.returncode in (0, 1) else ran.stdout.split(b" at ")[0].decode(errors="replace").strip()
    seen[key] = seen.get(key, 0) + 1
    if ran.returncode != want[0] or blur(ran.stdout) != blur(want[1]):
        differ += 1
        if differ <= 10:
            print("DIFFERS", repr(text), "\n  program", ran.returncode, ran.stdout, "\n  model  ", want)
print("%d texts, %d differ" % (count, differ))
for key in sorted(seen): print("  %6d %s" % (seen[key], key))
