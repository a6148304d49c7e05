#!/usr/bin/env python3
"""Looks for the exact hulls of made bodies of loops by the crates without a proof, and compares what is found.

usage: compare_facets.py MODEL_FOLDER [COUNT] [SEED] [PROGRAM]
       compare_facets.py --tree FOLDER

With PROGRAM, which was built of the tree that --tree writes, bodies are given to that, and the slowest body is timed. What has to come is evaluated here from the stated definitions, step by step in 128 bits. Where no step of the search leaves them, an
independent model of the rules has to agree with that, which knows no bits; a limit of the search is compared with the evaluation alone.
A body in three is too much by its counts or has a change that leaves 128 bits. Without PROGRAM it takes some minutes to compile the crates.
"""
import os, random, resource, shutil, subprocess, sys, tempfile
from math import gcd

HERE = os.path.dirname(os.path.abspath(__file__))
TOP = os.path.dirname(HERE)
if len(sys.argv) > 1 and sys.argv[1] != "--tree":
    sys.path.insert(0, sys.argv[1])
    from facets import normals as model  # the model
    from formula import Case, Formula
    from linear import AT_MOST, EQUAL, Row, add, aux, make, show
    from polyhedra import Changes
    from questions import columns_of

LEAST, MOST = (-2 ** 127, 2 ** 127 - 1)


class Wide(Exception):
    """A step that leaves 128 bits."""


def step(l, r, t):
    v = l * r if t else l + r
    if not LEAST <= v <= MOST:
        raise Wide((l, r, t))
    return v


def product_of(a, b):
    return step(a, b, True)


def sum_of(a, b):
    return step(a, b, False)


def dot(xs, ys):
    if not xs or not ys:
        return 0
    p = product_of(xs[0], ys[0])
    r = dot(xs[1:], ys[1:])
    return sum_of(p, r)


def combination(a, xs, b, ys):
    return [sum_of(product_of(a, x), product_of(b, y)) for x, y in zip(xs, ys)]


def lowest(v):
    g = gcd(*v) if v else 0
    return list(v) if g == 0 else [z // g for z in v]


def minus(z):
    return product_of(z, -1)


def opposite(v):
    return [minus(z) for z in v]


def projection(line, pivot, v):
    own = dot(line, pivot)
    value = dot(line, v)
    times = minus(own) if own < 0 else own
    by = value if own < 0 else minus(value)
    return lowest(combination(times, v, by, pivot))


def clearing(line, vs):
    if not vs:
        return None
    v, rest = (vs[0], vs[1:])
    c = clearing(line, rest)
    if c is None:
        return None if dot(line, v) == 0 else (v, rest)
    pivot, made = c
    return (pivot, [projection(line, pivot, v)] + made)


def are_at_most(lines, w):
    for l in lines:
        if dot(l, w) > 0:
            return False
    return True


def ends(lines, w):
    if are_at_most(lines, w):
        return [w]
    u = opposite(w)
    return [u] if are_at_most(lines, u) else []


def extremes(lines, rest, basis):
    if not rest:
        return ends(lines, basis[0]) if len(basis) == 1 else []
    if not basis:
        return []
    if len(basis) == 1:
        return ends(lines, basis[0])
    c = clearing(rest[0], basis)
    taken = [] if c is None else extremes(lines, rest[1:], c[1])
    return taken + extremes(lines, rest[1:], basis)


def units(n):
    return [[1 if i == j else 0 for j in range(n)] for i in range(n)]


def clearing_by_all(lines, basis):
    for l in lines:
        c = clearing(l, basis)
        if c is not None:
            basis = c[1]
    return basis


def flat(lines, n):
    return clearing_by_all(lines, units(n))


def pivots(lines, vs):
    out = []
    for i, v in enumerate(vs):
        for l in lines:
            if dot(l, v) == 0:
                continue
            if sees_any(l, vs[:i]):
                continue
            if sees_any(l, vs[i + 1:]):
                continue
            out.append(l)
            break
    return out


def sees_any(l, vs):
    for v in vs:
        if dot(l, v) != 0:
            return True
    return False


def rest_basis(vs, n):
    u = units(n)
    return clearing_by_all(pivots(u, vs), u)


def difference(p, q):
    by = minus(q[1])
    return combination(p[1], q[0], by, p[0])


def directions(points, rays, p):
    return [lowest(difference(p, q)) for q in points] + rays


def facets_of(basis, points, rays):
    found = []
    for p in points:
        d = directions(points, rays, p)
        found += extremes(d, d, basis)
    return sorted(set(map(tuple, found)))


def line_of(cs, p):
    return [p.coefficient(c) for c in cs] + [p.rest]


def cone_lines(cs, rows):
    out = [[0] * len(cs) + [-1]]
    for r in rows:
        l = line_of(cs, r.poly)
        out.append(l)
        if r.kind == EQUAL:
            out.append(opposite(l))
    return out


def image(cs, terms, v):
    return [dot(line_of(cs, t), v) for t in terms]


def images_in(cs, rows, terms):
    n = len(cs) + 1
    lines = cone_lines(cs, rows)
    flats = flat(lines, n)
    basis = rest_basis(flats, n)
    ext = extremes(lines, lines, basis)
    points = [(image(cs, terms, v), v[-1]) for v in ext if v[-1] > 0]
    if not points:
        return ([], [])
    rays = [lowest(image(cs, terms, v)) for v in ext if not v[-1] > 0]
    for v in flats:
        r = lowest(image(cs, terms, v))
        rays += [r, opposite(r)]
    return (points, rays)


def normals_of(cases, count):
    points, rays = ([], [])
    for rows, terms in cases:
        p, r = images_in(columns_of(rows, terms), rows, terms)
        points += p
        rays += r
    if not points:
        return []
    eq = flat(directions(points, rays, points[0]), count)
    out = []
    for e in eq:
        out += [e, opposite(e)]
    basis = rest_basis(eq, count)
    return out + [list(f) for f in facets_of(basis, points, rays)]


def outcome(body):
    ch = Changes(body, True)
    mod = ch.modified
    zero = make({}, 0)
    if len(mod) > 4 or len(body.cases) > 4:
        return 'beyond'
    cases = [(c.rows, [l[v] if not isinstance(l[v], tuple) else zero for v in mod]) for c, l in zip(body.cases, ch.of)]
    for rows, terms in cases:
        if sum((2 if r.kind == EQUAL else 1 for r in rows)) > 6 or len(columns_of(rows, terms)) > 6:
            return 'beyond'
    if ch.wide:
        f = ch.wide[min(ch.wide)]
        return 'limit %d %d %s' % (f[1], f[2], str(bool(f[3])).lower())
    try:
        lists = normals_of(cases, len(mod))
    except Wide as w:
        l, r, t = w.args[0]
        return 'limit %d %d %s' % (l, r, str(t).lower())
    return told(lists, mod)


def told(lists, mod):
    return 'normals ' + ''.join((''.join(('%d*%d ' % (n, v) for v, n in zip(mod, f) if n)) + '0;' for f in lists))


def told_by_model(body):
    m = model(body)
    if m[0] == 'normals':
        return 'normals ' + ''.join((''.join(('%d*%d ' % (c, mono[0]) for mono, c in p.terms)) + '%d;' % p.rest for p in m[1]))
    if m[0] == 'limit':
        return 'limit %d %d %s' % (m[1], m[2], str(bool(m[3])).lower())
    return 'beyond'
NEAR = [2 ** 127 - 1, -2 ** 127, 2 ** 126, -2 ** 126 + 3, 2 ** 64, 10 ** 30]


def made_number(rng, most, great):
    return rng.choice(NEAR) if rng.random() < great else rng.randint(-most, most)


def made_poly(rng, monos, most, zero, great):
    return make({m: 0 if rng.random() < zero else made_number(rng, most, great) for m in monos}, made_number(rng, most, great))


def made_body(rng):
    k = rng.choice([1, 2, 2, 2, 3, 3, 4])
    most = rng.choice([2, 4, 9, 64, 1000, 10 ** 6, 2 ** 40, 2 ** 63, 2 ** 100])
    great = rng.choice([0, 0, 0, 0, 0.03, 0.2])
    n = k + rng.choice([0, 1, 1])
    cases = []
    for _ in range(rng.choice([1, 1, 2, 2, 3, 4, 5]) if rng.random() < 0.95 else 0):
        auxs = rng.choice([0, 0, 1, 2])
        allm = [(i,) for i in range(n)] + [(0, 0), (0, n - 1)] + [(aux(a),) for a in range(auxs)]
        use = rng.sample(allm, rng.randint(1, min(rng.choice([2, 3, 4, 6, 7]), len(allm))))
        rs = []
        for _ in range(rng.choice([0, 1, 2, 3, 4, 5, 6, 7])):
            p = made_poly(rng, use, most, 0.4, great)
            if p.terms:
                rs.append(Row(p, EQUAL if rng.random() < 0.12 else AT_MOST))
        posts = []
        for v in range(n):
            own = make({(v,): 1}, 0)
            if v < k and rng.random() < 0.06:
                posts.append(make({(v,): rng.choice([-2 ** 127, -2 ** 127, 3]), **({(n - 1,): 5} if v != n - 1 else {})}, rng.choice([0, 1])))
            elif v < k and rng.random() < 0.9:
                try:
                    posts.append(add(own, made_poly(rng, use, most, 0.5, great)))
                except Exception:
                    posts.append(made_poly(rng, use, most, 0.5, great))
            else:
                posts.append(own)
        cases.append(Case(auxs, tuple(rs), tuple(posts)))
    return Formula(n, n, tuple(cases))


def show_case(case):
    rows = ['%d' % case.aux] + [repr(row)[4:-1] for row in case.rows]
    return ' ; '.join([' | '.join(rows)] + [show(p) for p in case.post])


def show_formula(f):
    return '%d,%d,%s' % (f.start, f.end, ' / '.join(map(show_case, f.cases)) or '-')


def bodies(count, rng):
    """So many bodies, each with what has to come of it."""
    made, told_of = [], {}
    while len(made) < count:
        body = made_body(rng)
        wanted = outcome(body)
        kind = wanted.split()[0]
        if kind == "limit" and not Changes(body, True).wide:
            kind = "limit of the search"
        elif wanted != told_by_model(body):
            sys.exit("the model differs: %s: %s" % (show_formula(body), wanted))
        most = {"beyond": count // 6, "limit": count // 8, "limit of the search": count // 4}.get(kind, count)
        if told_of.get(kind, 0) < most:
            told_of[kind] = told_of.get(kind, 0) + 1
            made.append((show_formula(body), wanted))
    print(", ".join("%d %s" % (number, kind) for kind, number in sorted(told_of.items())), flush=True)
    return made


def tree(work):
    """A tree of the program of `test_hulls`, which reads bodies and prints what is found of them, and of the crates that it uses."""
    subprocess.run(["git", "init", "-q", work], check=True)
    lines = []

    def copy(name):
        if os.path.isdir(f"{TOP}/crates/{name}") and not os.path.exists(f"{work}/crates/{name}"):
            shutil.copytree(f"{TOP}/crates/{name}", f"{work}/crates/{name}", ignore=shutil.ignore_patterns("out", "must-fail"))
            line = next(it for it in open(f"{TOP}/crates.txt") if it.startswith(name + ":"))
            lines.append(line)
            for low in line.split(":")[1].split():
                copy(low)

    copy("test_hulls")
    open(f"{work}/crates.txt", "w").write("".join(lines))
    shutil.copy(f"{TOP}/HANDLES", work)
    return f"{work}/crates/test_hulls"


def told_by(program, made):
    """How many bodies the program tells otherwise, and the processor seconds of each, without those of a start."""
    differ, times, start = 0, [], min(seconds_of(program, "")[1] for _ in range(20))
    for body, wanted in made:
        told, took = seconds_of(program, body + "\n")
        times.append(took - start)
        if told != wanted + "\n":
            differ += 1
            print(f"DIFFERS: {body}: {told.strip()}, wanted {wanted}")
    return differ, sorted(times)


def seconds_of(program, text):
    """What the program tells of a text, and the processor seconds that it takes."""
    before = resource.getrusage(resource.RUSAGE_CHILDREN)
    told = subprocess.run([program], input=text, capture_output=True, text=True).stdout
    after = resource.getrusage(resource.RUSAGE_CHILDREN)
    return told, after.ru_utime + after.ru_stime - before.ru_utime - before.ru_stime


def main():
    if len(sys.argv) < 2:
        sys.exit(__doc__)
    if sys.argv[1] == "--tree":
        print(tree(sys.argv[2]))
        return 0
    count = int(sys.argv[2]) if len(sys.argv) > 2 else 100
    made = bodies(count, random.Random(int(sys.argv[3]) if len(sys.argv) > 3 else 1))
    if len(sys.argv) > 4:
        differ, times = told_by(os.path.abspath(sys.argv[4]), made)
        slow = sum(it > 0.01 for it in times)
        print(f"{len(made)} bodies, {differ} differ; half take up to {times[len(times) // 2] * 1000:.1f} ms of the processor, "
              f"{slow} more than 10, the slowest {times[-1] * 1000:.1f}")
        return 1 if differ else 0
    with tempfile.TemporaryDirectory() as work:
        crate = tree(work)
        os.makedirs(f"{crate}/cases")
        for at in range(0, len(made), 10):
            some = made[at:at + 10]
            open(f"{crate}/cases/b{at}", "w").write("".join(body + "\n" for body, _ in some))
            open(f"{crate}/cases/b{at}.stdout", "w").write("".join(wanted + "\n" for _, wanted in some))
        run = subprocess.run(["rt", "try", "--cases", "cases"], cwd=crate, capture_output=True, text=True)
        print("\n".join(line for line in run.stdout.splitlines() if line.startswith("cases=") or "DIFFERS" in line or "output=other" in line))
        return run.returncode


if __name__ == "__main__":
    sys.exit(main())
