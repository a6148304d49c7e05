#!/usr/bin/env python3
"""Runs the built program on an input once for each allocation, which fails in that run, and once more with all later ones
failing too. Each run has to end with status 6 and nothing written, or with the status and the bytes of the run in which none
fails. Counts what came; the status is 1 where a run ended otherwise.

usage: fail_allocations.py PROGRAM                     `analyse` of a text with one loop, `check` of a file of seven answers, `edit` of a
                                                    text of three procedures, one of which is changed, broken and mended
       fail_allocations.py PROGRAM WORD.. < INPUT      (as PROGRAM cost g)

The allocations are those of the C library that the program calls, counted by a small library that is loaded before it (`cc`).
"""
import json, os, subprocess, sys, tempfile

COUNTING = r"""
#define _GNU_SOURCE
#include <dlfcn.h>
#include <stdio.h>
#include <stdlib.h>
#include <unistd.h>
static long at = -1, count = 0;
static int all = 0;
static int fails(void) {
    if (count++ == 0) {
        char *given = getenv("FAIL_AT");
        at = given ? atol(given) : -1;
        all = getenv("FAIL_ALL") != 0;
    }
    return at >= 0 && (all ? count >= at : count == at);
}
#define REAL(name) static typeof(&name) real; if (!real) real = (typeof(&name))dlsym(RTLD_NEXT, #name)
void *malloc(size_t n) { REAL(malloc); return fails() ? 0 : real(n); }
void *realloc(void *p, size_t n) { REAL(realloc); return fails() ? 0 : real(p, n); }
int posix_memalign(void **p, size_t a, size_t n) { REAL(posix_memalign); return fails() ? 12 : real(p, a, n); }
void *aligned_alloc(size_t a, size_t n) { REAL(aligned_alloc); return fails() ? 0 : real(a, n); }
__attribute__((destructor)) static void told(void) {
    char text[32];
    if (getenv("TELL_COUNT") && write(2, text, snprintf(text, sizeof text, "%ld\n", count)) < 0) _exit(1);
}
"""


LOOP = b"""int main(void) {
  int n = __VERIFIER_nondet_int();
  int i = 0;
  assume(n >= 0);
  while (i < n) i++;
  assert(i == n);
}
"""
SEVEN = b"""int main(void) {
  int x = __VERIFIER_nondet_int();
  assume(x >= 1);
  assert(x >= 0);
}
"""


THREE = {
    "text": "int add(int x) { return x + 1; }\nint two(void) { return 2; }\nint main(void) { int y = add(3); assert(y == 4); }\n",
    "edits": [{"at": 28, "remove": 1, "insert": "2"}, {"at": 28, "remove": 1, "insert": ""}, {"at": 28, "remove": 0, "insert": "1"}],
}


def counting_library(folder):
    """The path of the library that counts, built into a folder."""
    library, source = os.path.join(folder, "counting.so"), os.path.join(folder, "counting.c")
    with open(source, "w") as file:
        file.write(COUNTING)
    subprocess.run(["cc", "-O2", "-shared", "-fPIC", source, "-o", library, "-ldl"], check=True)
    return library


def failures(library, command, given):
    """Fails each allocation of a run. Whether each run ended as it has to."""
    def run(**how):
        made = subprocess.run(command, input=given, capture_output=True, env={**os.environ, "LD_PRELOAD": library, **how})
        return (made.returncode, made.stdout), made.stderr

    wanted, told = run(TELL_COUNT="1")
    came = {"status 6 with nothing written": 0, "as with no failure": 0, "otherwise": 0}
    for at in range(1, int(told) + 1):
        for how in ({"FAIL_AT": str(at)}, {"FAIL_AT": str(at), "FAIL_ALL": "1"}):
            found, _ = run(**how)
            kind = "status 6 with nothing written" if found == (6, b"") else "as with no failure" if found == wanted else "otherwise"
            came[kind] += 1
            if kind == "otherwise":
                print(how, found)
    print("%s, status %d, %d allocations: %s" % (" ".join(command[1:]), wanted[0], int(told), ", ".join("%d %s" % (n, kind) for kind, n in came.items())))
    return came["otherwise"] == 0


def main():
    program, words = os.path.abspath(sys.argv[1]), sys.argv[2:]
    if words:
        runs = [(words, sys.stdin.buffer.read())]
    else:
        file = subprocess.run([program, "certify"], input=SEVEN, capture_output=True).stdout
        assert len(json.loads(file)["order"]) == 7, file
        runs = [(["analyse"], LOOP), (["check"], file), (["edit"], json.dumps(THREE).encode())]
    with tempfile.TemporaryDirectory() as folder:
        library = counting_library(folder)
        right = [failures(library, [program, *words], given) for words, given in runs]
    sys.exit(0 if all(right) else 1)


if __name__ == "__main__":
    main()
