"""The counts by which the search for rows at points ends, and the note that tells of them, laid over an independent model of the rules,
which has none. Whoever imports this, with the model on the path, has the model search so."""
import candidates, leaves, reached, report, solve
from polyhedra import Work, directions
from summary import exit_columns

MOST_BOUNDS = 100_000  # pairs of a direction and a case of a step
MOST_JUDGEMENTS = 200_000  # pairs of a row and a case of a step
ASKED_BY_POINTS = 700  # how much the search may ask for the fourth power of the number of a program's points,
MOST_FOR_FEW, MOST_FOR_MANY = 6_500_000, 30_000_000  # within these,
ASKED_BEFORE = 3  # and one less for so much that the analysis asked,
LEAST_ASKED = 1_000_000  # but so much at least
MOST_MAKINGS = 64  # of steps

ask, greatest, show_note = solve.Finder.ask, reached.greatest, report.show_note


def weight(question):
    """How much it takes to answer a question, roughly: the square of the number of rows where it is asked whether these can be met, else the
    number of rows of its cases, once for each term where relations are asked."""
    if question[0] == "infeasible":
        return len(question[1]) ** 2
    return sum(len(rows) * (len(terms) if question[0] == "stratum" else 1) for rows, terms in question[1])


class Spent(Exception):
    """A question is too much."""


class Asker:
    """Asks a finder no more than so much."""

    def __init__(self, left):
        self.finder, self.left = solve.Finder(), left

    def ask(self, question):
        if self.left < weight(question):
            raise Spent
        self.left -= weight(question)
        return self.finder.ask(question)


def counted(finder, question):
    finder.asked = getattr(finder, "asked", 0) + weight(question)
    return ask(finder, question)


class Search(reached.Reached):
    def __init__(self, *given):
        self.bounds, self.judgements = MOST_BOUNDS, MOST_JUDGEMENTS
        self.is_cut = self.is_given_up = False
        super().__init__(*given)
        if self.is_cut:
            self.work.notes.append(("search",))

    def found(self):
        program, graphs, count = self.program, self.graphs, len(self.program.procs)
        points = sum(1 + len(reached.heads(it)) for it in graphs)
        most = min(max(ASKED_BY_POINTS * points**4, MOST_FOR_FEW), MOST_FOR_MANY)
        self.asker = Asker(max(most - getattr(self.work.oracle, "asked", 0) // ASKED_BEFORE, LEAST_ASKED))
        self.quarter = self.asker.left // 4
        every = candidates.shared_rows(program)
        by_call = [candidates.by_callers(program, graphs, q) for q in range(count)]
        rows = {(p, "exit"): candidates.exit_rows(program, p, by_call[p][1], every)[: reached.MOST_CANDIDATES] for p in range(count) if p != program.main}
        arrivals = {}
        if not (self.made(range(count), rows, arrivals) and self.took(rows, arrivals, every, by_call) and self.kept(rows, arrivals)):
            self.is_cut = self.is_given_up = True
            return {}
        return {place: reached.strongest(kept) for place, kept in rows.items() if kept}

    def took(self, rows, arrivals, every, by_call):
        """Takes the candidates at points and the bounds at exits."""
        coming = {}
        for p in sorted(arrivals):
            for target, arrival in arrivals[p]:
                coming.setdefault(target, []).append(arrival)
        for p, node in self.states:
            if (p, node) != (self.program.main, 0):
                rows[p, node] = self.candidates_at((p, node), coming.get((p, node), []), every, by_call[p][0])
        for p in range(len(self.program.procs)):
            if p != self.program.main:
                self.bounds_at_exit(p, coming.get((p, "exit"), []), rows[p, "exit"])
                del rows[p, "exit"][reached.MOST_CANDIDATES :]
        return True

    def steps_of(self, p, rows, work):
        return [] if self.is_given_up else super().steps_of(p, rows, work)

    def verdict(self, *given):
        return not self.is_given_up and super().verdict(*given)

    def made(self, procs, rows, arrivals):
        """Makes the arrivals of steps of these procedures; whether what this asks is not too much."""
        work = Work(self.asker, "search")
        try:
            for p in procs:
                arrivals[p] = [(s.target, reached.Arrival(s, case, self.program.width(p))) for s in self.steps_of(p, rows, work) for case in s.formula.cases]
        except Spent:
            return False
        return True

    def kept(self, rows, arrivals):
        """Drops rows, and makes steps anew where rows at exits fell, of which none is left where that was done too often; whether it
        comes to an end."""
        called = [{g.edges[n].act[1] for n in g.calls()} for g in self.graphs]
        drops, seen, stale = {}, {p: {} for p in arrivals}, set()
        for _ in range(MOST_MAKINGS):
            before = {place: len(it) for place, it in rows.items()}
            if not self.dropped_by(rows, arrivals, drops, seen):
                return False
            fell = {place[0] for place, it in rows.items() if place[1] == "exit" and len(it) < before[place]}
            stale |= {p for p in arrivals if called[p] & fell}
            if not stale:
                return True
            if self.asker.left < self.quarter:
                break
            due = {p for p in stale if not (called[p] - {p}) & stale} or stale
            if not self.made(due, rows, arrivals):
                return False
            stale = stale - due
            seen.update((p, {}) for p in due)
        self.is_cut = True
        for place in rows:
            if place[1] == "exit":
                rows[place] = []
        if not self.made(list(arrivals), rows, arrivals):
            return False
        seen.update((p, {}) for p in arrivals)
        return self.dropped_by(rows, arrivals, drops, seen)

    def dropped_by(self, rows, arrivals, drops, seen):
        """Asks cases where rows were dropped at their begin, until none is dropped; whether the judgements are enough."""
        changed = True
        while changed:
            changed = False
            for p in sorted(arrivals):
                for n, (target, arrival) in enumerate(arrivals[p]):
                    now = drops.get(arrival.source, 0)
                    if not rows.get(target) or seen[p].get(n) == now:
                        continue
                    if self.judgements < len(rows[target]):
                        return False
                    self.judgements -= len(rows[target])
                    seen[p][n] = now
                    given = rows.get(arrival.source, [])
                    left = [row for row in rows[target] if arrival.keeps(row, given)]
                    if len(left) < len(rows[target]):
                        rows[target], changed = left, True
                        drops[target] = drops.get(target, 0) + 1
        return True

    def candidates_at(self, point, coming, every, by_call):
        voc = (leaves.full if point[1] else leaves.entry)(self.program, point[0])
        self.pay(coming, len(directions(voc)))
        return super().candidates_at(point, coming, every, by_call)

    def bounds_at_exit(self, p, coming, rows):
        self.pay(coming, 2 * len(exit_columns(self.program, p)))
        super().bounds_at_exit(p, coming, rows)

    def pay(self, coming, count):
        for arrival in coming:
            arrival.is_paid = count <= self.bounds
            self.bounds -= count * arrival.is_paid
            self.is_cut |= not arrival.is_paid


solve.Finder.ask = counted
reached.Reached = Search
reached.greatest = lambda direction, coming: greatest(direction, coming) if all(it.is_paid for it in coming) else None
report.show_note = lambda note, blocks: "note search beyond" if note[0] == "search" else show_note(note, blocks)
