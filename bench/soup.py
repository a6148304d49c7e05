#!/usr/bin/env python3
"""Runs the built program on hostile inputs: tokens and statements at random, mutated programs, mutated certificate files of both
versions, inputs of `replay`, edit scripts, words and bytes at random. Each run has to end within ten seconds of the processor with a status and a
line of `docs/FORMATS.md`, write nothing to standard error, and give the same again. Counts the statuses, and tells what took
longest.

usage: soup.py PROGRAM [--count N | --seconds S] [--seed K] [--kinds LIST] [--jobs J] [--again N] [--first I] [--batch FILE]
       soup.py PROGRAM --show I [--seed K] [--kinds LIST]

Input I of a seed and of a list of kinds is the same in each run, whatever the other words are; --show prints its words to standard error
and its bytes to standard output. --again N runs each Nth input a second time, 0 none. The status is 1 where something was wrong.

--kinds takes kinds alone, parted by commas. --batch FILE runs 500 inputs after one another in one process of another program, FILE,
which calls the same `run` over bytes in memory (`inputs/tried.txt`; a line of it tells how it is built), where starting a process for
each input would take longer than all else. 500 inputs together then have the ten seconds; where they take longer, or the process ends
otherwise, each is run by itself. --again then says how many of the batches are run again.
"""
import argparse, copy, glob, json, os, random, re, signal, sys, time
from collections import Counter
from concurrent.futures import ProcessPoolExecutor

from compare_edits import made as edit_script
from compare_replay import Maker, made as replay_input

LIMIT = 10  # seconds of the processor; a run that takes six times as long by the clock is ended
BATCH = 500  # inputs after one another in one process
HERE = os.path.dirname(os.path.abspath(__file__))
MARKS = "( ) { } ; , = == != < <= > >= + - * / % && || ! ++ -- += -= *= /= %=".split()
OTHER_MARKS = "[ ] . -> & | ^ ~ << >> ? : ... <<= >>= &= ^= |= # \\ @ $ ` ' \"".split()
KEYWORDS = "int void if else while do for break continue return extern".split()
OTHER_KEYWORDS = "auto case char const default double enum goto long sizeof static struct switch unsigned _Bool".split()
NAMES = "x y z n i g f main assert assume abort exit reach_error __VERIFIER_nondet_int __VERIFIER_error __VERIFIER_assume".split()
NUMBERS = "0 1 2 3 7 64 255 01 0x1F 0x 1u 1.5 4294967296 9223372036854775807 9223372036854775808 99999999999999999999".split()
OTHERS = ["/*", "*/", "//", "/* c */", "\n", "\t", "#include <assert.h>\n", "# include", "\x00", "\xff", "é", "\r\n"]
PIECES = [*MARKS * 6, *KEYWORDS * 6, *NAMES * 6, *NUMBERS * 2, *OTHER_MARKS, *OTHER_KEYWORDS, *OTHERS]
SCALARS = [0, 1, -1, 2, 3, 2 ** 32, 2 ** 63, 2 ** 64, 1.5, 1e300, None, True, "", "0", "1", "-1", "-0", "01", "1/2", "2/4", "-3/2", "1/0",
           str(2 ** 127 - 1), str(-(2 ** 127)), str(2 ** 127), "pivots", [], {}, [[]], {"point": []}, {"limit": "pivots"},
           {"limit": {"left": "1", "right": "1", "times": True}}, {"limit": {"left": str(2 ** 127 - 1), "right": "2", "times": True}}]
WORDS = "byte comment literal tokens syntax unsupported deep unknown twice arity void place main".split()
MANY = "procedures parameters globals slots nodes assertions cases".split()
USAGE = rb"usage: cra analyse \| [^\n]*\n"
REFUSED = ("refused (%s|many (%s)) at [1-9][0-9]*:[1-9][0-9]*\n" % ("|".join(WORDS), "|".join(MANY))).encode()
LINES = {
    2: USAGE,
    3: REFUSED,
    7: rb"input is not JSON\n|input has a wrong shape at [^\n]*\n|version [0-9]+ is not known\n|edit [1-9][0-9]* is out of range\n",
    8: rb"check failed: answer [1-9][0-9]*\n|check failed: [1-9][0-9]* answers left\n|check failed: report differs at byte [0-9]+\n",
    9: rb"input is too long\n|output is too long\n",
    10: rb"no global [A-Za-z_][A-Za-z0-9_]*\n",
}
REPORT = rb"procedure (?s:.*)\ntotal [0-9]+ proved, %s unproved\n"
VERSIONS = rb"(version [0-9]+ (work [0-9]+ of [0-9]+ proved [0-9]+ unproved [0-9]+\n|" + REFUSED + rb"))+"
FILE = rb'\{"answers":\[[^\n]*\],"order":\[[0-9,]*\],"report":"[^\n]*","text":"[^\n]*","version":2\}\n'
TRACE = rb"(?s:.*)stopped: (main returned( -?[0-9]+)?|guard|division by zero|no value left|wide -?[0-9]+ . -?[0-9]+|turns spent) after [0-9]+ steps\n"
FAILED = rb"(?s:.*)stopped: assertion [0-9]+ failed at [0-9]+:[0-9]+ after [0-9]+ steps\n"
COUNTS = rb"sample [0-9]+: [0-9]+ bytes, [0-9]+ groups, [0-9]+ proved, 0 unproved\n"
# What a command prints where it does what it is asked for, by its status.
DONE = {
    **dict.fromkeys(("analyse", "prove", "facets"), {0: REPORT % b"0", 1: REPORT % b"[1-9][0-9]*"}), "certify": {0: FILE}, "renew": {0: FILE}, "check": {0: rb"check passed\n"},
    "edit": {0: VERSIONS + REPORT % b"0", 1: VERSIONS + REPORT % b"[1-9][0-9]*", 3: VERSIONS},
    "replay": {0: TRACE, 1: FAILED}, "cost": {0: rb"procedure (?s:.*)\n"}, "sample": {0: COUNTS},
    "--help": {0: rb"cra: (?s:.*)\n"}, "--version": {0: rb"cra [0-9.]+\n"},
}
# The other statuses of each command.
ELSE = {
    "analyse": (3, 9), "prove": (3, 9), "facets": (3, 9), "certify": (3, 9), "check": (3, 7, 8, 9), "edit": (7, 9), "renew": (3, 7, 8, 9), "replay": (3, 7, 9), "cost": (3, 9, 10),
    "sample": (), "--help": (), "--version": (),
}


def reason(words, status, output):
    """What is wrong with how a run ended; nothing where it is as the table says."""
    if status == 2:
        return None if re.fullmatch(USAGE, output) else "another usage line"
    command = words[0] if words else ""
    line = DONE.get(command, {}).get(status) or (LINES[status] if status in ELSE.get(command, ()) else None)
    if line is None:
        return "status %d of %s" % (status, command)
    return None if re.fullmatch(line, output) else "an output that is none of status %d" % status


class Runner:
    """Runs a program on one input after the other, over files in memory."""

    def __init__(self, program):
        self.program, self.pid = program, 0
        self.files = [os.memfd_create(name) for name in ("given", "made", "told")]
        signal.signal(signal.SIGALRM, lambda *_: os.kill(self.pid, signal.SIGKILL))

    def start(self, words):
        """The number of a process that runs the program on these words, over the files."""
        if hasattr(os, "posix_spawn"):
            actions = [(os.POSIX_SPAWN_DUP2, file, number) for number, file in enumerate(self.files)]
            return os.posix_spawn(self.program, [self.program, *words], {}, file_actions=actions)
        pid = os.fork()
        if pid == 0:
            for number, file in enumerate(self.files):
                os.dup2(file, number)
            os.execve(self.program, [self.program, *words], {})
        return pid

    def run(self, words, source):
        """The status, the bytes of standard output and of standard error, and the seconds of the processor."""
        for file in self.files:
            os.ftruncate(file, 0)
            os.lseek(file, 0, os.SEEK_SET)
        done = 0
        while done < len(source):
            done += os.pwrite(self.files[0], source[done:], done)
        self.pid = self.start(words)
        signal.setitimer(signal.ITIMER_REAL, 6 * LIMIT)
        _, ended, used = os.wait4(self.pid, 0)
        signal.setitimer(signal.ITIMER_REAL, 0)
        made, told = (os.pread(file, os.fstat(file).st_size, 0) for file in self.files[1:])
        return os.waitstatus_to_exitcode(ended), made, told, used.ru_utime + used.ru_stime


def mutated_bytes(rng, data):
    """A few changes of bytes."""
    data = bytearray(data)
    for _ in range(rng.choice([1, 1, 1, 2, 3, 8])):
        at = rng.randrange(len(data) + 1)
        end = min(len(data), at + rng.choice([1, 1, 2, 5, 20, 100]))
        kind = rng.randrange(6)
        if kind == 0:
            del data[at:end]
        elif kind == 1:
            data[at:at] = data[at:end]
        elif kind == 2:
            data[at:at] = rng.choice(PIECES).encode("latin-1")
        elif kind == 3 and at < len(data):
            data[at] = rng.randrange(256)
        elif kind == 4 and at < len(data):
            data[at] ^= 1 << rng.randrange(8)
        elif rng.random() < 0.3:
            del data[at:]
    return bytes(data)


def mutated_tokens(rng, data):
    """A few changes of tokens."""
    tokens = re.findall(rb"\s+|\w+|[^\w\s]", data)
    for _ in range(rng.choice([1, 1, 2, 3, 5])):
        if not tokens:
            break
        at, other = rng.randrange(len(tokens)), rng.randrange(len(tokens))
        kind = rng.randrange(5)
        if kind == 0:
            del tokens[at]
        elif kind == 1:
            tokens[at] = rng.choice(PIECES).encode("latin-1")
        elif kind == 2:
            tokens[at], tokens[other] = tokens[other], tokens[at]
        elif kind == 3:
            tokens[at] = tokens[other]
        else:
            tokens[at:at] = tokens[other:other + rng.choice([1, 2, 5, 20])]
    return b"".join(tokens)


def soup(rng):
    """Tokens at random, mostly inside a procedure."""
    text = " ".join(rng.choice(PIECES) for _ in range(rng.choice([1, 2, 3, 5, 10, 20, 60])))
    if rng.random() < 0.7:
        text = "int g; int f(int x) { return x; } int main(void) { int x; int y; " + text + rng.choice(["", ";", "}", "; }"])
    return text.encode("utf-8" if rng.random() < 0.9 else "latin-1")


def expression(rng):
    """Operands and operators in turn, with a token at random now and then."""
    pieces = [rng.choice("x y g 0 1 2 7 -x !y (x) f(x) (y+1) 9223372036854775807".split())]
    for _ in range(rng.choice([0, 0, 1, 1, 2, 3])):
        pieces += [rng.choice("+ - * / % < <= > >= == != && ||".split()), rng.choice("x y g 1 2 3 -1 (x*x) f(y)".split())]
    if rng.random() < 0.05:
        pieces.insert(rng.randrange(len(pieces) + 1), rng.choice(PIECES))
    return " ".join(pieces)


def statements(rng):
    """Statements at random, whose expressions are mostly well formed."""
    shapes = ["x = E;", "y = E;", "g = E;", "int z = E;", "x += E;", "y -= E;", "x++;", "y--;", "assert(E);", "assume(E);", "return E;", "y = f(E);",
              "x = __VERIFIER_nondet_int();", "if (E) { S } else { S }", "if (E) S", "while (E) { S S }", "do { S } while (E);", "for (; E; x++) { S }",
              "{ int x = E; S }", "break;", "continue;", ";"]
    text = "S" * rng.choice([1, 2, 3, 5, 8])
    while "S" in text or "E" in text:
        short = len(text) > 300
        text = re.sub("S", lambda _: rng.choice(shapes[:13] if short else shapes), text)
        text = re.sub("E", lambda _: expression(rng), text)
    return ("int g; int f(int x) { return x - 1; } int main(void) { int x = 0; int y = 5; " + text + " }").encode("latin-1")


def deep(rng):
    """A piece so many times that a limit may be near."""
    piece = rng.choice(["{", "(", "!", "-", "if (x) ", "while (x) ", "x = 1;", "assert(x);", "int f(void) {}", "int v;", "1+", "1||", "f(", "x<1&&"])
    times = rng.choice([8, 16, 24, 25, 63, 64, 65, 128, 255, 256, 257, 512])
    return ("int f(int x) { return x; } int main(void) { int x; " + rng.choice(["", "return ", "x = ", "assume("]) + piece * times
            + rng.choice(["", "1;", "1);", "}", ";}"])).encode()


def program(rng, texts):
    """The text of a program."""
    return rng.choice(texts) if rng.random() < 0.2 else Maker(rng).program().encode()


def mutated_program(rng, texts):
    text = program(rng, texts)
    kind = rng.randrange(6)
    if kind < 2:
        return text
    return mutated_tokens(rng, text) if kind < 5 else mutated_bytes(rng, text)


def places_of(value):
    """Each place in a JSON value, as what holds it and the key there."""
    found, left = [], [value]
    while left:
        holder = left.pop()
        for key in holder if isinstance(holder, dict) else range(len(holder)) if isinstance(holder, list) else ():
            found.append((holder, key))
            left.append(holder[key])
    return found


def mutated_value(rng, value):
    """A few changes of a JSON value, at places of any depth."""
    for _ in range(rng.choice([1, 1, 1, 2, 4])):
        places = places_of(value)
        if not places:
            break
        (holder, key), (other, there) = rng.choice(places), rng.choice(places)
        kind = rng.randrange(6)
        if kind == 0:
            del holder[key]
        elif kind == 1:
            holder[key] = copy.deepcopy(rng.choice(SCALARS))
        elif kind == 2:
            holder[key] = json.loads(json.dumps(other[there]))
        elif kind == 3 and isinstance(holder, list):
            holder.insert(key, json.loads(json.dumps(other[there])))
        elif isinstance(holder[key], str) and re.fullmatch("-?[0-9]+", holder[key]):
            holder[key] = str(int(holder[key]) + rng.choice([1, -1, 2, 2 ** 64, -(2 ** 126)]))
        elif isinstance(holder[key], str) and key in ("text", "report"):
            holder[key] = mutated_tokens(rng, holder[key].encode()).decode("utf-8", "replace")
        elif isinstance(holder[key], int):
            holder[key] = holder[key] + rng.choice([1, -1, 5])
    return value


def mutated_file(rng, files):
    """A certificate file of one of both versions, with changes."""
    file = json.loads(rng.choice(files))
    if rng.random() < 0.5:
        file["answers"] = [file["answers"][place] for place in file.pop("order")]
        file["version"] = 1
        if rng.random() < 0.8:
            del file["version"]
    kind = rng.randrange(12)
    if kind > 1:
        file = mutated_value(rng, file)
    source = json.dumps(file, separators=(",", ":"), ensure_ascii=rng.random() < 0.5).encode("utf-8", "replace")
    return mutated_bytes(rng, source) if kind == 1 else source


def mutated_script(rng):
    """An edit script, mostly as it is."""
    script, kind = edit_script(rng)[0], rng.randrange(8)
    if kind < 2:
        script = mutated_value(rng, script)
    source = json.dumps(script, ensure_ascii=rng.random() < 0.5).encode("utf-8", "replace")
    return mutated_bytes(rng, source) if kind == 2 else source


def random_bytes(rng):
    letters = rng.choice([bytes(range(256)), bytes(range(32, 127)), b"{}[]\":,0123 abcetrunfls\\\"/.-", b"\xc3\xa9\xe2\x82\xac\xf0\x9f\x98\x80 a",
                          b"(){};=+-*/!<>&|, \n0123xyzint"])
    return bytes(rng.choice(letters) for _ in range(rng.choice([0, 1, 2, 5, 20, 100, 400, 2000])))


def random_words(rng):
    known = ["analyse", "prove", "certify", "check", "edit", "renew", "replay", "cost", "sample", "--help", "--version", "--", "-h", "g", "1", "3", "250", "251", "03", "+3",
             "", " ", "é", "x" * 300, "a b", "edits", "facets", "cost=g", "--cost", "-1"]
    return [rng.choice(known) for _ in range(rng.choice([0, 1, 1, 2, 2, 3, 5]))]


# Each kind as often as it is taken where none is chosen.
KINDS = [*["tokens"] * 3, *["statements"] * 3, *["programs"] * 5, "limits", *["files"] * 4, *["replays"] * 2, "words", "bytes", *["scripts"] * 2]


def given(options, number, texts, files):
    """The kind of an input, its words and its bytes."""
    rng = random.Random("%d %d" % (options.seed, number))
    of_text = rng.choice([["analyse"], ["analyse"], ["prove"], ["facets"], ["certify"], ["cost", rng.choice(["g", "h", "x", "main"])]])
    of_file = rng.choice([["check"], ["check"], ["renew"]])
    kind = options.kinds[rng.randrange(len(options.kinds))]
    if kind == "tokens":
        return kind, of_text, soup(rng)
    if kind == "statements":
        return kind, of_text, statements(rng)
    if kind == "programs":
        return kind, of_text, mutated_program(rng, texts)
    if kind == "limits":
        return kind, of_text, deep(rng)
    if kind == "files":
        return kind, of_file, mutated_file(rng, files)
    if kind == "replays":
        source = replay_input(rng)
        return kind, ["replay"], source if rng.random() < 0.5 else mutated_bytes(rng, source)
    if kind == "words":
        return kind, random_words(rng), random_bytes(rng)
    if kind == "bytes":
        return kind, rng.choice([of_text, of_file, ["replay"], ["edit"]]), random_bytes(rng)
    return kind, ["edit"], mutated_script(rng)


def fault(runner, words, source, again):
    """How a run ended, how long it took, and what was wrong."""
    status, output, told, took = runner.run(words, source)
    if took >= LIMIT or status == -signal.SIGKILL:
        return status, took, "no end after %d s" % LIMIT
    if told:
        return status, took, "standard error: %r" % told[:80]
    wrong = reason(words, status, output)
    if wrong is None and again and runner.run(words, source)[:3] != (status, output, told):
        wrong = "another answer when run again"
    return status, took, wrong


def line_of(words, source):
    """A line of the program that runs one input after the other."""
    return b" ".join([*(b"x" + word.encode().hex().encode() for word in ["cra", *words]), source.hex().encode()]) + b"\n"


def answers_in(made, count):
    """The status and the output of each input of a batch."""
    found, at = [], 0
    for _ in range(count):
        end = made.index(b"\n", at)
        status, size = map(int, made[at:end].split())
        found.append((status, made[end + 1:end + 1 + size]))
        at = end + 1 + size
    if at != len(made):
        raise ValueError("bytes behind the last answer")
    return found


def faults_of_batch(runner, inputs, again):
    """How each run of a batch ended, how long it took at most, and what was wrong; None where the batch did not end well."""
    lines = b"".join(line_of(words, source) for _, words, source in inputs)
    ended, made, told, took = runner.run([], lines)
    if ended or told or took >= LIMIT:
        return None
    same = not again or runner.run([], lines)[1] == made
    return [(status, took, reason(words, status, output) or (None if same else "other answers when run again"))
            for (_, words, _), (status, output) in zip(inputs, answers_in(made, len(inputs)))]


def faults(options, runners, inputs, numbers):
    """How each run of some inputs ended, how long it took at most, and what was wrong."""
    if runners[1]:
        found = faults_of_batch(runners[1], inputs, options.again and numbers[0] // BATCH % options.again == 0)
        if found:
            return found
    return [fault(runners[0], words, source, options.again and number % options.again == 0) for number, (_, words, source) in zip(numbers, inputs)]


def job(options, part, texts, files):
    """What came of one part of the inputs: counts, faults, and those that took longest."""
    runners = Runner(options.program), options.batch and Runner(options.batch)
    counts, wrongs, slowest, step = Counter(), [], [], BATCH if options.batch else 1
    end = time.time() + options.seconds if options.seconds else None
    number, last = options.first + part * step, options.first + options.count
    while time.time() < end if end else number < last:
        numbers = range(number, number + step if end else min(last, number + step))
        inputs = [given(options, it, texts, files) for it in numbers]
        for it, (kind, words, _), (status, took, wrong) in zip(numbers, inputs, faults(options, runners, inputs, numbers)):
            counts[kind, words[0] if words and words[0] in DONE else "", status] += 1
            if wrong:
                wrongs.append((it, kind, words, wrong))
        slowest = sorted([*slowest, (took, it, kind)], reverse=True)[:5]
        number += options.jobs * step
    return counts, wrongs, slowest


def beginnings(path):
    """The texts and the certificate files that are mutated: always the same."""
    texts = [open(name, "rb").read() for name in sorted(glob.glob(os.path.join(HERE, "..", "examples", "**", "*.c"), recursive=True))]
    runner, files = Runner(path), []
    made = [Maker(random.Random(number)).program().encode() for number in range(100)]
    for text in [*texts, *made]:
        status, file, _, _ = runner.run(["certify"], text)
        if status == 0 and len(file) < 8_000:
            files.append(file.decode())
    return texts, files


def main():
    parser = argparse.ArgumentParser(usage=__doc__.split("usage: ")[1].split("\n\n")[0])
    parser.add_argument("program", type=os.path.abspath)
    parser.add_argument("--batch", type=os.path.abspath)
    parser.add_argument("--kinds", type=lambda told: told.split(","), default=KINDS)
    for name, usual in (("count", 1000), ("seconds", 0), ("seed", 1), ("jobs", 1), ("again", 1), ("first", 0), ("show", -1)):
        parser.add_argument("--" + name, type=int, default=usual)
    options = parser.parse_args()
    texts, files = beginnings(options.program)
    if options.show >= 0:
        _, words, source = given(options, options.show, texts, files)
        print(words, file=sys.stderr)
        sys.stdout.buffer.write(source)
        return
    begun = time.time()
    counts, wrongs, slowest = Counter(), [], []
    with ProcessPoolExecutor(options.jobs) as pool:
        for part in [pool.submit(job, options, part, texts, files) for part in range(options.jobs)]:
            more, wrong, slow = part.result()
            counts, wrongs, slowest = counts + more, wrongs + wrong, slowest + slow
    for (kind, command, status), count in sorted(counts.items()):
        print("%-10s %-9s status %3d %10d" % (kind, command or "-", status, count))
    for number, kind, words, wrong in sorted(wrongs)[:20]:
        print("WRONG input %d, %s, %s: %s" % (number, kind, " ".join(words), wrong))
    for took, number, kind in sorted(slowest, reverse=True)[:5]:
        if options.batch:
            print("slowest: %.2f s, the batch that ends with input %d" % (took, number))
        else:
            print("slowest: %.2f s, input %d, %s" % (took, number, kind))
    print("%d inputs in %.0f s, %d wrong" % (sum(counts.values()), time.time() - begun, len(wrongs)))
    sys.exit(1 if wrongs else 0)


if __name__ == "__main__":
    main()
