"""Follows one execution on given values, as `replay` does, and tells at which place each event stands.

The trace of `replay` has no places. Here the same execution is followed in the text, so that each event gets its line and each value
the variable that took it. The trace that the program prints decides: where the two differ, the tools say so and show the trace alone."""
import sys
import threading
from dataclasses import dataclass, field

from .language import ASSERTS, ASSUMES, CHOICE, ENDS, Node

MOST = 200_000


class Stop(Exception):
    def __init__(self, why, at):
        super().__init__(why)
        self.why, self.at = why, at


class Leave(Exception):
    """break, continue or return on the way out."""

    def __init__(self, kind):
        super().__init__(kind)
        self.kind = kind


@dataclass
class Event:
    """What `replay` prints for it, where it stands, the variable that took a value, and all variables after it."""

    text: str
    at: int
    name: str = ""
    value: int = 0
    kind: str = ""
    seen: dict = field(default_factory=dict)


@dataclass
class Frame:
    procedure: object
    scopes: list
    value: int = 0


def shortened(a, b):
    """The quotient of C: rounded towards zero."""
    quotient = abs(a) // abs(b)
    return quotient if (a < 0) == (b < 0) else -quotient


class Follower:
    def __init__(self, program, values):
        self.program, self.values, self.used = program, values, 0
        self.globals = {name: value for name, value, _ in program.globals}
        self.events, self.frames, self.count = [], [], 0
        self.numbers = {it.at: number for number, it in enumerate(program.assertions, 1)}

    # Variables

    def scope_of(self, name):
        for scope in reversed(self.frames[-1].scopes):
            if name in scope:
                return scope
        return self.globals

    def seen(self):
        shown = dict(self.globals)
        for scope in self.frames[-1].scopes if self.frames else []:
            shown.update(scope)
        return shown

    def tell(self, kind, text, at, name="", value=0):
        self.count += 1
        if self.count > MOST:
            raise Stop("too long to follow", at)
        self.events.append(Event(text, at, name, value, kind, self.seen()))

    def choice(self, at, name):
        if self.used == len(self.values):
            raise Stop("no value left", at)
        value = self.values[self.used]
        self.used += 1
        if name:
            self.scope_of(name)[name] = value
        self.tell("any", f"any {value}", at, name, value)
        return value

    # Expressions: first all calls, from the left and inner ones first, then the value

    def calls(self, node, made):
        for it in node.parts:
            if isinstance(it, Node):
                self.calls(it, made)
        if node.kind == "call":
            made[id(node)] = self.call(node, made)

    def call(self, node, made, into=""):
        if node.name == CHOICE:
            return self.choice(node.at, into)
        arguments = [self.value(it, made) for it in node.parts]
        procedure = self.program.procedures[node.name]
        self.tell("call", f"call {node.name}({', '.join(map(str, arguments))})", node.at, node.name)
        scope = {name: value for (name, _), value in zip(procedure.params, arguments)}
        self.frames.append(Frame(procedure, [scope]))
        try:
            self.lines(procedure.body.parts)
        except Leave:
            pass
        frame = self.frames.pop()
        self.tell("return", f"return {frame.value}" if procedure.returns else "return", procedure.end - 1, node.name, frame.value)
        return frame.value

    def value(self, node, made):
        if node.kind == "number":
            return node.parts[0]
        if node.kind == "variable":
            return self.scope_of(node.name)[node.name]
        if node.kind == "brackets":
            return self.value(node.parts[0], made)
        if node.kind == "call":
            return made[id(node)]
        if node.kind == "unary":
            inner = self.value(node.parts[0], made)
            return {"-": -inner, "+": inner, "!": int(inner == 0)}[node.name]
        return self.binary(node, made)

    def binary(self, node, made):
        mark, left = node.name, self.value(node.parts[0], made)
        if mark == "&&" and not left or mark == "||" and left:
            return int(mark == "||")
        right = self.value(node.parts[1], made)
        if mark in ("&&", "||"):
            return int(right != 0)
        if mark in ("/", "%"):
            if right == 0:
                raise Stop("division by zero", node.at)
            quotient = shortened(left, right)
            return quotient if mark == "/" else left - quotient * right
        return int(
            {
                "+": lambda: left + right,
                "-": lambda: left - right,
                "*": lambda: left * right,
                "<": lambda: left < right,
                "<=": lambda: left <= right,
                ">": lambda: left > right,
                ">=": lambda: left >= right,
                "==": lambda: left == right,
                "!=": lambda: left != right,
            }[mark]()
        )

    def whole(self, node, into=""):
        """The value of a whole expression; a call that is all of it goes into the variable at once."""
        made = {}
        if node.kind == "call":
            for it in node.parts:
                self.calls(it, made)
            return self.call(node, made, into)
        self.calls(node, made)
        return self.value(node, made)

    # Statements

    def lines(self, nodes):
        for it in nodes:
            self.statement(it)

    def scoped(self, nodes):
        self.frames[-1].scopes.append({})
        try:
            self.lines(nodes)
        finally:
            self.frames[-1].scopes.pop()

    def body(self, node):
        if node is not None:
            self.scoped(node.parts if node.kind in ("block", "lines") else [node])

    def statement(self, node):
        self.count += 1
        if self.count > MOST:
            raise Stop("too long to follow", node.at)
        getattr(self, "do_" + node.kind)(node)

    def do_block(self, node):
        self.scoped(node.parts)

    def do_lines(self, node):
        self.lines(node.parts)

    def do_local(self, node):
        scope, (value,) = self.frames[-1].scopes[-1], node.parts
        scope[node.name] = 0
        if value is None:
            self.choice(node.at, node.name)
        else:
            scope[node.name] = self.whole(value, node.name)
            self.tell_set(node, scope[node.name])

    def do_set(self, node):
        value = self.whole(node.parts[0], node.name)
        self.scope_of(node.name)[node.name] = value
        self.tell_set(node, value)

    def tell_set(self, node, value):
        """What was set; a choice that went into the variable at once is told already."""
        it = node.parts[0]
        if it.kind != "call" or it.name != CHOICE:
            self.tell("set", "", node.at, node.name, value)

    def do_act(self, node):
        call = node.parts[0]
        if call.name == CHOICE:
            return
        if call.name in ASSERTS | ASSUMES | ENDS:
            self.special(call)
        else:
            self.whole(call)

    def special(self, call):
        holds = self.whole(call.parts[0]) if call.parts else 0
        if call.name in ASSERTS:
            number = self.numbers[call.at]
            if call.name == "__VERIFIER_error" or not holds:
                raise Stop(f"assertion {number} failed", call.at)
            self.tell("check", f"check {number} holds", call.at, "", number)
        elif call.name in ENDS or not holds:
            raise Stop("guard", call.at)

    def do_if(self, node):
        cond, yes, no = node.parts
        holds = self.whole(cond)
        self.tell("test", "", node.at, "", int(bool(holds)))
        self.body(yes if holds else no)

    def do_while(self, node):
        self.turns(node, tests_first=True)

    def do_do(self, node):
        self.turns(node, tests_first=False)

    def do_for(self, node):
        self.frames[-1].scopes.append({})
        try:
            if node.parts[0] is not None:
                self.statement(node.parts[0])
            self.turns(node, tests_first=True)
        finally:
            self.frames[-1].scopes.pop()

    def turns(self, node, tests_first):
        _, cond, step, body = node.parts
        tested = not tests_first
        while tested or self.tested(node, cond):
            tested = False
            try:
                self.body(body)
            except Leave as it:
                if it.kind == "break":
                    return
                if it.kind == "return":
                    raise
            if step is not None:
                self.statement(step)

    def tested(self, node, cond):
        holds = self.whole(cond)
        self.tell("test", "", node.at, "", int(bool(holds)))
        return holds

    def do_break(self, node):
        raise Leave("break")

    def do_continue(self, node):
        raise Leave("continue")

    def do_return(self, node):
        if node.parts[0] is not None:
            self.frames[-1].value = self.whole(node.parts[0])
        raise Leave("return")

    def run(self):
        """Follows `main` to its end: the events, why it stopped and where."""
        main = self.program.procedures["main"]
        self.frames.append(Frame(main, [{}]))
        try:
            self.lines(main.body.parts)
        except Leave:
            pass
        except Stop as it:
            return self.events, it.why, it.at
        shown = f"main returned {self.frames[-1].value}" if main.returns else "main returned"
        return self.events, shown, main.end - 1


def followed(program, values):
    """The events of the execution on these values, why it stopped and where; nothing where it is too deep to follow."""
    found = []

    def work():
        try:
            found.append(Follower(program, values).run())
        except (RecursionError, KeyError):
            pass

    sys.setrecursionlimit(200_000)
    threading.stack_size(512 << 20)
    worker = threading.Thread(target=work)
    worker.start()
    worker.join()
    return found[0] if found else None


def agrees(events, stop, trace):
    """Whether the events are those that `replay` printed."""
    told = [it.text for it in events if it.text]
    printed = trace.splitlines()
    return told == printed[:-1] and bool(printed) and printed[-1].startswith(f"stopped: {stop}")
