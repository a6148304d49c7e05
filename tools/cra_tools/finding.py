"""Makes inputs, and keeps the shortest run on which each assertion fails."""
import random
import re
from dataclasses import dataclass
from itertools import product

from . import language
from .report import value_at

PAD = 64  # values behind those that were chosen, so that a loop that reads has some
WIDE = (1 << 127) - 1
MOST_TURNS = 100_000  # of a replay
STOP = re.compile(r"stopped: (.*) after (\d+) steps?")
FAILED = re.compile(r"assertion (\d+) failed at \d+:\d+")


@dataclass
class Run:
    """A run as `replay` printed it, with the values that it used."""

    values: list
    steps: int
    stop: str
    trace: str
    turns: int

    @property
    def failed(self):
        it = FAILED.match(self.stop)
        return int(it[1]) if it else 0


def size(run):
    """Shorter runs come first, then those of fewer and of smaller values, 1 before -1."""
    return run.steps, len(run.values), sum(abs(it) for it in run.values), [it < 0 for it in run.values]


def used_values(trace):
    return [int(it[4:]) for it in trace.splitlines() if it.startswith("any ")]


def numbers_of(text):
    """The numbers of the text, their neighbours and opposites, and sums and differences of two, the smallest first."""
    found = {0, 1, -1, 2, -2, 3}
    written = set()
    for it in language.tokens(text):
        if it.kind == "number":
            try:
                written.add(int(it.text, 16 if it.text[:2] in ("0x", "0X") else 10))
            except ValueError:
                pass
    for it in written:
        found |= {it, it + 1, it - 1, -it, -it - 1, -it + 1, it * it, 2 * it, it // 2 if it else 0}
    for a, b in product(sorted(written)[:24], repeat=2):
        found |= {a + b, a - b}
    return sorted((it for it in found if abs(it) <= WIDE), key=lambda it: (abs(it), it < 0))


def choices(tree):
    """The places that take a value, in the order of the text, with the variable that takes it, or ''."""
    found = []
    for procedure in tree.procedures.values():
        of_variables = {}
        for it in language.walk(procedure.body):
            if it.kind == "local" and it.parts[0] is None:
                found.append((it.at, it.name))
            if it.kind in ("local", "set") and it.parts[0] is not None and it.parts[0].kind == "call":
                of_variables[it.parts[0].at] = it.name
            if it.kind == "call" and it.name == language.CHOICE:
                found.append((it.at, of_variables.get(it.at, "")))
    return sorted(found)


class Search:
    def __init__(self, cra, text, tree, made, turns, seed):
        self.cra, self.text, self.tree, self.report = cra, text, tree, made
        self.turns, self.random = turns, random.Random(seed)
        self.numbers, self.choices = numbers_of(text), choices(tree)
        self.best, self.seen, self.tries = {}, set(), 0
        self.kinds, self.pool = set(), []

    # Runs

    def run(self, values, pad=None):
        """One run on these values and further ones behind them; what it used is kept."""
        whole = [*values, *(pad if pad is not None else [0] * PAD)]
        key = tuple(whole)
        if key in self.seen:
            return None
        self.seen.add(key)
        self.tries += 1
        status, trace = self.cra.replay(self.text, whole, self.turns)
        stop = STOP.match(trace.splitlines()[-1]) if status in (0, 1) and trace else None
        if not stop:
            return None
        run = Run(used_values(trace), int(stop[2]), stop[1], trace, self.turns)
        self.keep(run)
        return run

    def keep(self, run):
        if run.failed and (run.failed not in self.best or size(run) < size(self.best[run.failed])):
            self.best[run.failed] = run
        # what a run came to: where it stopped, and how far in powers of two
        kind = (run.stop.split(" at ")[0].split(" returned")[0], len(run.values), run.steps if run.steps < 40 else 40 + run.steps.bit_length())
        if kind not in self.kinds:
            self.kinds.add(kind)
            self.pool.append(run)

    # Inputs

    def of_points(self, verdict):
        """The values of the variables under the refuting point, in the order in which they are read, and its numbers in their order."""
        if not verdict.point and verdict.point != {}:
            return
        values = {name.split("#")[0]: value_at(poly, verdict.point) for name, poly in verdict.names}
        read = [int(values.get(name, 0)) for _, name in self.choices]
        yield read
        yield [int(it) for it in verdict.point.values()]
        yield [int(it) for it in values.values()]
        for shift in (1, -1):
            yield [it + shift for it in read]
        for at, _ in enumerate(read):
            for shift in (1, -1, 2, -2):
                yield [it + shift * (at == there) for there, it in enumerate(read)]

    def first_inputs(self, verdicts):
        yield []
        for it in verdicts:
            yield from self.of_points(it)
        count = max(1, len(self.choices))
        for it in self.numbers[:60]:
            yield [it]
            yield [it] * count
        for it in self.numbers[:16]:
            yield [it] * PAD
        if count >= 2:
            few = self.numbers[: {2: 14, 3: 7}.get(count, 3)]
            for it in product(few, repeat=min(count, 5)):
                yield list(it)

    def number(self):
        """A number of the pool: mostly one of the text, else a small one, a power or a great one."""
        kind = self.random.random()
        if kind < 0.45:
            return self.random.choice(self.numbers)
        if kind < 0.75:
            return self.random.randint(-10, 20)
        if kind < 0.9:
            return self.random.randint(-1000, 1000)
        return self.random.choice([1, -1]) * (2 ** self.random.randint(3, 63) + self.random.randint(-1, 1))

    def changed(self):
        """A run of the pool with some values changed, or new values."""
        if not self.pool or self.random.random() < 0.35:
            return [self.number() for _ in range(self.random.randint(1, max(4, 2 * len(self.choices))))]
        values = list(self.random.choice(self.pool[-30:]).values) or [0]
        for _ in range(self.random.randint(1, 2)):
            at = self.random.randrange(len(values))
            how = self.random.random()
            values[at] = self.number() if how < 0.5 else values[at] + self.random.choice([1, -1, 2, -2, 10, -10])
            if how > 0.8 and len(values) > 1:
                values[at] = values[self.random.randrange(len(values))] + self.random.choice([-1, 0, 1])
        return values

    def padding(self):
        """What stands behind the values: zeros, ones, or numbers of the pool."""
        kind = self.random.random()
        if kind < 0.5:
            return [0] * PAD
        return [1] * PAD if kind < 0.6 else [self.number() for _ in range(PAD)]

    # Making a run shorter

    def smaller(self, run):
        """Inputs that are smaller than those of a run."""
        values = run.values
        for at in range(len(values)):
            yield values[:at] + values[at + 1 :]
        for at, it in enumerate(values):
            for new in (0, 1, -1, it // 2, it - 1 if it > 0 else it + 1, -it):
                if new != it and (abs(new), new < 0) <= (abs(it), it < 0):
                    yield values[:at] + [new] + values[at + 1 :]

    def shortened(self, number, tries):
        """Makes the failing run of an assertion smaller, as long as that works."""
        end, changed = self.tries + tries, True
        while changed and self.tries < end:
            changed, before = False, self.best[number]
            for it in self.smaller(before):
                self.run(it)
                if self.best[number] is not before:
                    changed = True
                    break

    def found(self, numbers, tries):
        """For each of the assertions its shortest failing run, or None, and how many runs were tried."""
        wanted = set(numbers)
        verdicts = [it for it in self.report.verdicts if it.number in wanted]
        for it in self.first_inputs(verdicts):
            if self.tries >= tries // 2 or wanted <= set(self.best):
                break
            self.run(it)
        idle = 0
        while self.tries < tries and not wanted <= set(self.best) and idle < 200:
            before = self.tries
            self.run(self.changed(), self.padding())
            idle = 0 if self.tries > before else idle + 1
            if not self.choices:
                break
        looked = self.tries
        for number in sorted(wanted & set(self.best)):
            self.shortened(number, 300)
        return {it: (self.best.get(it), looked) for it in numbers}
