#!/usr/bin/env python3
"""Settles, fits and repeats formulas under listed answers, by the crates without a proof and by an independent model of the rules.

usage: compare_formulas.py MODEL_FOLDER [COUNT] [SEED]

The formulas are those that the model meets in made programs, under each rule, with an oracle that answers a limit now and then;
and made ones: of many cases, with many rows, with numbers near 2^127, with harvested terms and further directions. Each becomes a
file with its answers; what the crates make of it has to be the model's formula, with the same number of answers and the same notes.
"""
import json, os, random, shutil, signal, subprocess, sys, tempfile

folder = sys.argv[1]
count = int(sys.argv[2]) if len(sys.argv) > 2 else 100
seed = int(sys.argv[3]) if len(sys.argv) > 3 else 1
sys.path.insert(0, folder)
import fuzz_soundness, front, polyhedra, session, star, summary, wire  # the model
from formula import Case, Formula
from linear import AT_MOST, EQUAL, Poly, Row, aux, column, make, show

MOST_FILE = 120_000
met = {"settle": [], "fit": [], "star": []}


def show_case(case):
    rows = ["%d" % case.aux] + [repr(row)[4:-1] for row in case.rows]
    return " ; ".join([" | ".join(rows)] + [show(post) for post in case.post])


def show_formula(f):
    return "%d,%d,%s" % (f.start, f.end, " / ".join(show_case(case) for case in f.cases) or "-")


def show_vocabulary(voc):
    return "%d | %s | %s | %d | %s" % (voc.columns, ",".join(map(str, voc.named)), " ; ".join(map(show, voc.harvested)), voc.rule,
                                       " ; ".join(map(show, voc.extra)))


def show_note(note):
    if note[0] == "wide":
        return "wide %d %d %s" % (note[1], note[2], str(note[3]).lower())
    if note[0] == "limit":
        limit = note[1]
        return "limit pivots" if limit[1] == "pivots" else "limit %d %d %s" % (limit[1], limit[2], str(limit[3]).lower())
    return " ".join(map(str, note))


def file_of(word, starts, ends, f, made, answers, notes):
    text = "\n".join([word, show_vocabulary(starts), show_vocabulary(ends), show_formula(f)]) + "\n"
    data = wire.write_certificate(wire.Certificate(1, text.encode(), show_formula(made).encode(), list(answers), []))
    lines = ["true", "%d taken, 0 left" % len(answers)] + [show_note(note) for note in notes]
    return data, "\n".join(lines) + "\n"


def keep(word, starts, ends, f, run, work):
    answers, notes = len(work.answers), len(work.notes)
    made = run()
    if len(work.answers) > answers or len(work.notes) > notes:
        met[word].append(file_of(word, starts, ends, f, made, work.answers[answers:], work.notes[notes:]))
    return made


def replace(module_name, name, wrapped):
    old = getattr(sys.modules[module_name], name)
    for module in list(sys.modules.values()):
        if getattr(module, name, None) is old:
            setattr(module, name, wrapped(old))


def watch():
    plain = lambda f: polyhedra.Vocabulary(f, (), (), 1, ())
    replace("polyhedra", "settle", lambda old: lambda f, work: keep("settle", plain(f.start), plain(f.end), f, lambda: old(f, work), work))
    replace("polyhedra", "fit", lambda old: lambda f, a, b, work, *most: keep("fit", a, b, f, lambda: old(f, a, b, work, *most), work))
    replace("star", "star", lambda old: lambda f, voc, work: keep("star", voc, voc, f, lambda: old(f, voc, work), work))


NEAR = [2 ** 127 - 1, -2 ** 127, 2 ** 126, -2 ** 126 + 3, 2 ** 64, 10 ** 30]


class Wavering(fuzz_soundness.Finder):
    """An oracle that often has a limit for an answer where it is asked about rows alone, so that many rows are kept."""

    def __init__(self, rng):
        super().__init__()
        self.rng = rng

    def ask(self, question):
        if question[0] == "infeasible" and self.rng.random() < 0.8:
            return ("limit", "pivots")
        return super().ask(question)


def number(rng, great):
    return rng.choice(NEAR) if rng.random() < great else rng.choice([-3, -2, -1, -1, 1, 1, 1, 2, 3, 5])


def poly(rng, columns, aux_count, great=0.0, most=3, degree=2):
    numbers = {}
    every = list(range(columns)) + [aux(n) for n in range(aux_count)]
    for _ in range(rng.randrange(0, most + 1)):
        if every:
            mono = tuple(sorted(rng.choice(every) for _ in range(rng.choice([1] * 5 + [degree, rng.randrange(1, 5)]))))
            numbers[mono] = number(rng, great)
    return make(numbers, rng.choice([0, 0, 1, -1, 4, -7]) if rng.random() >= great else rng.choice(NEAR))


def made_case(rng, start, end, great, rows):
    auxs = rng.choice([0, 0, 1, 2])
    return Case(auxs, [Row(poly(rng, start, auxs, great), EQUAL if rng.random() < 0.15 else AT_MOST) for _ in range(rows)],
                [column(v) if v < start and rng.random() < 0.3 else poly(rng, start, auxs, great) for v in range(end)])


def made_vocabulary(rng, columns):
    named = tuple(v for v in range(columns) if rng.random() < 0.7)
    terms = [make({(v,): rng.choice([1, -1, 2, -3]) for v in rng.sample(range(columns), min(columns, 2))}, 0) for _ in range(4)]
    if rng.random() < 0.2 and columns:
        terms[0] = make({(0,): -2 ** 127}, 0)
    terms = [t for t in terms if t.terms]
    return polyhedra.Vocabulary(columns, named, tuple(terms[:rng.randrange(0, 3)]), rng.choice([1, 2, 3]), tuple(terms[2:2 + rng.randrange(0, 3)]))


def small_rows(rng, columns):
    """Rows that exclude little: each bounds one column or the difference of two."""
    rows = []
    for _ in range(rng.randrange(0, 4)):
        numbers = {(rng.randrange(columns),): 1}
        numbers[(rng.randrange(columns),)] = rng.choice([-1, 1])
        rows.append(Row(make(numbers, -rng.randrange(0, 9)), AT_MOST))
    return rows


def body(rng, great):
    """Counters, sums of counters and steps that are bounded alone."""
    columns = rng.choice([1, 2, 2, 3, 3, 4, 5])
    cases = []
    for _ in range(rng.choice([1, 1, 1, 2, 3])):
        auxs, posts, rows = rng.choice([0, 0, 1]), [], small_rows(rng, columns)
        for v in range(columns):
            change = rng.choice(["none", "step", "sum", "sum", "any", "poly"])
            numbers = {(v,): 1}
            if change == "sum":
                other = (rng.randrange(columns),)
                numbers[other] = numbers.get(other, 0) + rng.choice([1, -1, 2])
            if change == "any" and auxs:
                numbers[(aux(0),)] = 1
                rows.append(Row(make({(aux(0),): 1, (rng.randrange(columns),): rng.choice([-1, 1, 2])}, rng.choice([0, -1, -3])), AT_MOST))
            post = make(numbers, rng.choice([1, -1, 2, 5]) if change == "step" else 0)
            posts.append(poly(rng, columns, auxs, great) if change == "poly" else post)
        cases.append(Case(auxs, rows, posts))
    return Formula(columns, columns, tuple(cases))


def try_made(rng):
    great = rng.choice([0.0, 0.0, 0.03, 0.2])
    oracle = fuzz_soundness.Weak(rng, rng.choice([0.0, 0.0, 0.1, 0.5]))
    if rng.random() < 0.2:
        oracle = Wavering(rng)
    work = polyhedra.Work(oracle)
    kind = rng.randrange(6)
    start = rng.choice([1, 2, 2, 3, 5])
    end = start if rng.random() < 0.7 else rng.choice([1, 2, 3])
    if kind == 0:
        f = Formula(start, end, tuple(made_case(rng, start, end, great, rng.randrange(0, 5)) for _ in range(rng.randrange(0, 6))))
        summary.settle(f, work)
    elif kind <= 2:
        starts = made_vocabulary(rng, start)
        ends = starts if end == start and rng.random() < 0.8 else made_vocabulary(rng, end)
        if rng.random() < 0.8:
            cases = tuple(Case(0, small_rows(rng, start), [poly(rng, start, 0, great, 2, 1) for _ in range(end)]) for _ in range(17))
        else:
            cases = tuple(made_case(rng, start, end, great, rng.choice([66, 3])) for _ in range(2))
        summary.fit(Formula(start, end, cases), starts, ends, work)
    else:
        f = body(rng, great)
        STARS(f, made_vocabulary(rng, f.end), work)


def try_program(rng):
    text = fuzz_soundness.Maker(rng, rng.random() < 0.4, rng.random() < 0.2).program().encode()
    oracle = fuzz_soundness.Weak(rng, rng.choice([0.0, 0.0, 0.05, 0.3]))
    try:
        session.Session(rng.choice([1, 2, 2, 3])).submit(text, oracle)
    except front.Refused:
        pass


def within(seconds, run):
    """Runs it for so many seconds at most; what came to an end is kept."""
    signal.signal(signal.SIGALRM, fuzz_soundness._alarm)
    signal.setitimer(signal.ITIMER_REAL, seconds)
    try:
        run()
    except fuzz_soundness.TooLong:
        pass
    finally:
        signal.setitimer(signal.ITIMER_REAL, 0)


def chosen(rng, files):
    """So many files, no two alike: those with seldom notes first, then others with notes, then the rest."""
    different = sorted({data: (data, lines) for data, lines in files if len(data) < MOST_FILE}.values())
    rng.shuffle(different)
    found = []
    for word, most in [("degree", 8), ("cut", 8), ("wide", 5), ("squash", 3), ("limit", 3), ("", 1)]:
        has = [f for f in different if f not in found and any(line.startswith(word) for line in f[1].splitlines()[2:] or [""])]
        found += has[:max(0, min(count // most, count - len(found)))]
    return (found + [f for f in different if f not in found])[:count]


def told(files):
    """How many files there are, and how many of them have what is seldom."""
    has = {word: sum(any(line.startswith(word) for line in lines.splitlines()) for _, lines in files) for word in ["limit", "wide", "degree", "squash", "cut"]}
    vocabularies = [json.loads(data)["text"].split("\n")[1].split("|") for data, _ in files]
    has.update({name: sum(bool(v[n].strip()) for v in vocabularies) for n, name in [(1, "named"), (2, "harvested"), (4, "extra")]})
    has["rule 1"] = sum(v[3].strip() == "1" for v in vocabularies)
    return f"{len(files)} files: " + ", ".join(f"{count} {name}" for name, count in has.items())


def copy(top, work, name):
    if os.path.isdir(f"{top}/crates/{name}") and not os.path.exists(f"{work}/crates/{name}"):
        shutil.copytree(f"{top}/crates/{name}", f"{work}/crates/{name}", ignore=shutil.ignore_patterns("out", "must-fail"))
        line = next(line for line in open(f"{top}/crates.txt") if line.startswith(name + ":"))
        with open(f"{work}/crates.txt", "a") as lines:
            lines.write(line)
        for low in line.split(":")[1].split():
            copy(top, work, low)


def main():
    global STARS
    top = os.path.dirname(os.path.dirname(os.path.abspath(__file__)))
    rng = random.Random(seed)
    watch()
    STARS = star.star
    while min(len(files) for files in met.values()) < 2 * count:
        within(5, lambda: (try_made if rng.random() < 0.7 else try_program)(rng))
    work = tempfile.mkdtemp()
    cases = f"{work}/cases"
    os.makedirs(cases)
    for word, met_files in met.items():
        files = chosen(rng, met_files)
        print(word, told(files), flush=True)
        for place, (data, lines) in enumerate(files):
            open(f"{cases}/{word}{place}", "wb").write(data)
            open(f"{cases}/{word}{place}.stdout", "w").write(lines)
    subprocess.run(["git", "init", "-q", work], check=True)
    uses = open(f"{top}/bench/formulas/uses").read().split()
    for name in uses:
        copy(top, work, name)
    with open(f"{work}/crates.txt", "a") as lines:
        lines.write("formulas: " + " ".join(uses) + "\n")
    shutil.copy(f"{top}/HANDLES", work)
    for part in ["src", "specs"]:
        os.makedirs(f"{work}/crates/formulas/{part}")
    shutil.copy(f"{top}/bench/formulas/tried.txt", f"{work}/crates/formulas/src/main.rt")
    open(f"{work}/crates/formulas/specs/Lib.antt", "w").close()
    done = subprocess.run(["rt", "try", "--steps", "1000", "--seconds", "60", "--cases", cases], cwd=f"{work}/crates/formulas", capture_output=True, text=True)
    print(done.stdout[-3000:])
    print(done.stderr[-3000:], file=sys.stderr)
    if done.returncode == 0:
        shutil.rmtree(work)
    else:
        print("kept", work, file=sys.stderr)
    return done.returncode


if __name__ == "__main__":
    sys.exit(main())
