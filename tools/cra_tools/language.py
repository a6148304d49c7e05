"""Reads a text of the language as a tree, for tools that point into it.

Whether a text is accepted, the program alone decides. This reader takes each accepted text, and some others too; offsets are of
bytes, since a text is decoded byte by byte (latin-1)."""
import re
from dataclasses import dataclass, field

SPECIAL = {"assert", "__VERIFIER_assert", "assume", "__VERIFIER_assume", "__VERIFIER_nondet_int", "__VERIFIER_error", "abort", "exit"}
ASSERTS = {"assert", "__VERIFIER_assert", "__VERIFIER_error"}
ASSUMES = {"assume", "__VERIFIER_assume"}
ENDS = {"abort", "exit"}
CHOICE = "__VERIFIER_nondet_int"
KEYWORDS = set(
    "auto break case char const continue default do double else enum extern float for goto if inline int long register restrict "
    "return short signed sizeof static struct switch typedef union unsigned void volatile while _Alignas _Alignof _Atomic _Bool "
    "_Complex _Generic _Imaginary _Noreturn _Static_assert _Thread_local".split()
)
MARKS = (
    r"<<=|>>=|\.\.\.|->|\+\+|--|<<|>>|<=|>=|==|!=|&&|\|\||\*=|/=|%=|\+=|-=|&=|\^=|\|=|"
    r"[\[\](){}.&*+\-~!/%<>^|?:;=,#]"
)
PIECE = re.compile(
    r"(?P<space>[ \t\n\v\f\r]+)|(?P<comment>/\*.*?\*/|//[^\n]*)|(?P<number>[0-9][A-Za-z0-9_.]*)|(?P<word>[A-Za-z_][A-Za-z0-9_]*)|"
    r"(?P<string>\"(?:[^\"\\\n]|\\.)*\"|'(?:[^'\\\n]|\\.)*')|(?P<mark>" + MARKS + ")",
    re.S,
)
SKIPPED = re.compile(r"#[ \t\v\f\r]*include[^\n]*")


class Fault(Exception):
    """A text that this reader does not take: why, and at which offset."""

    def __init__(self, why, at):
        super().__init__(why)
        self.why, self.at = why, at


@dataclass
class Token:
    kind: str
    text: str
    at: int

    @property
    def end(self):
        return self.at + len(self.text)


def tokens(text):
    """Cuts a text into tokens. A directive other than #include is one token, up to the end of its line."""
    found, at, fresh = [], 0, True
    while at < len(text):
        if text[at] == "#" and fresh:
            line = SKIPPED.match(text, at) or re.compile(r"#(?:\\\n|[^\n])*").match(text, at)
            if not SKIPPED.match(text, at):
                found.append(Token("directive", line[0], at))
            at = line.end()
            continue
        piece = PIECE.match(text, at)
        if not piece:
            found.append(Token("stray", text[at], at))
            at, fresh = at + 1, False
            continue
        kind = piece.lastgroup
        if kind in ("space", "comment"):
            fresh = fresh or "\n" in piece[0]
        else:
            found.append(Token(kind, piece[0], at))
            fresh = False
        at = piece.end()
    return found


class Places:
    """Turns offsets into lines and columns, both from 1, and gives lines of a text."""

    def __init__(self, text):
        self.text = text
        self.starts = [0] + [it.end() for it in re.finditer("\n", text)]

    def line(self, at):
        low, high = 0, len(self.starts)
        while high - low > 1:
            middle = (low + high) // 2
            low, high = (middle, high) if self.starts[middle] <= at else (low, middle)
        return low + 1

    def place(self, at):
        line = self.line(at)
        return line, at - self.starts[line - 1] + 1

    def shown(self, at):
        return "%d:%d" % self.place(at)

    def offset(self, line, column):
        return self.starts[line - 1] + column - 1

    def source(self, line):
        """The text of a line without its newline, as it is shown."""
        whole = self.text[self.starts[line - 1] :].split("\n", 1)[0]
        return whole.encode("latin-1", "replace").decode("utf-8", "replace").rstrip("\r")


@dataclass
class Node:
    """An expression or a statement. `kind` says which, `at` where it begins, `parts` what it is made of."""

    kind: str
    at: int
    parts: tuple = ()
    name: str = ""
    end: int = 0


@dataclass
class Procedure:
    name: str
    at: int
    returns: bool
    params: list
    body: Node
    end: int = 0


@dataclass
class Program:
    globals: list = field(default_factory=list)
    procedures: dict = field(default_factory=dict)
    assertions: list = field(default_factory=list)


RANKS = [["||"], ["&&"], ["==", "!="], ["<", "<=", ">", ">="], ["+", "-"], ["*", "/", "%"]]


class Reader:
    """A recursive descent over the tokens."""

    def __init__(self, text):
        self.text, self.tokens, self.next = text, tokens(text), 0
        self.program = Program()

    # Tokens

    def peek(self, ahead=0):
        at = self.next + ahead
        return self.tokens[at] if at < len(self.tokens) else Token("end", "", len(self.text))

    def take(self, *wanted):
        token = self.peek()
        if wanted and token.text not in wanted:
            raise Fault(f"`{token.text or 'the end'}` where one of `{' '.join(wanted)}` is read", token.at)
        self.next += 1
        return token

    def has(self, *wanted):
        return self.peek().text in wanted and self.peek().kind not in ("string",)

    def skip(self, wanted):
        if self.has(wanted):
            self.next += 1
            return True
        return False

    def name(self):
        token = self.peek()
        if token.kind != "word" or token.text in KEYWORDS:
            raise Fault(f"`{token.text or 'the end'}` where a name is read", token.at)
        self.next += 1
        return token

    # Expressions

    def expression(self, rank=0):
        if rank == len(RANKS):
            return self.operand()
        left = self.expression(rank + 1)
        while self.has(*RANKS[rank]):
            mark = self.take()
            right = self.expression(rank + 1)
            left = Node("binary", left.at, (left, right), mark.text, right.end)
        return left

    def operand(self):
        token = self.peek()
        if token.text in ("+", "-", "!"):
            self.take()
            inner = self.operand()
            return Node("unary", token.at, (inner,), token.text, inner.end)
        if token.text == "(":
            self.take()
            inner = self.expression()
            end = self.take(")").end
            return Node("brackets", token.at, (inner,), "", end)
        if token.kind == "number":
            self.take()
            try:
                value = int(token.text, 16 if token.text[:2] in ("0x", "0X") else 10)
            except ValueError:
                raise Fault(f"`{token.text}` is a number of another form", token.at) from None
            return Node("number", token.at, (value,), token.text, token.end)
        name = self.name()
        if self.has("("):
            return self.call(name)
        return Node("variable", name.at, (), name.text, name.end)

    def call(self, name):
        self.take("(")
        arguments = []
        if not self.has(")"):
            arguments.append(self.expression())
            while self.skip(","):
                arguments.append(self.expression())
        end = self.take(")").end
        return Node("call", name.at, tuple(arguments), name.text, end)

    # Statements

    def simple(self):
        if self.has("++", "--"):
            mark, name = self.take(), self.name()
            return self.counted(name, mark, name.end)
        name = self.name()
        if self.has("++", "--"):
            mark = self.take()
            return self.counted(name, mark, mark.end)
        if self.has("="):
            self.take()
            value = self.expression()
            return Node("set", name.at, (value,), name.text, value.end)
        if self.has("+=", "-=", "*=", "/=", "%="):
            mark = self.take()
            right = self.expression()
            left = Node("variable", name.at, (), name.text, name.end)
            return Node("set", name.at, (Node("binary", name.at, (left, right), mark.text[0], right.end),), name.text, right.end)
        call = self.call(name)
        return Node("act", call.at, (call,), call.name, call.end)

    def counted(self, name, mark, end):
        left, one = Node("variable", name.at, (), name.text, name.end), Node("number", name.at, (1,), "1", name.end)
        return Node("set", name.at, (Node("binary", name.at, (left, one), mark.text[0], end),), name.text, end)

    def locals(self):
        """int a, b = 1; as one node for each name."""
        self.take("int")
        found = []
        while True:
            name = self.name()
            value = self.expression() if self.skip("=") else None
            found.append(Node("local", name.at, (value,), name.text, value.end if value else name.end))
            if not self.skip(","):
                break
        self.take(";")
        return found

    def block(self):
        begin, lines = self.take("{"), []
        while not self.has("}"):
            lines += self.locals() if self.has("int") else [self.statement()]
        return Node("block", begin.at, tuple(lines), "", self.take("}").end)

    def statement(self):
        token = self.peek()
        reads = {"if": self.branch, "while": self.loop, "do": self.do_loop, "for": self.for_loop}
        if token.text == "{":
            return self.block()
        if token.text == ";":
            return Node("block", token.at, (), "", self.take().end)
        if token.text in reads:
            return reads[token.text]()
        if token.text in ("break", "continue"):
            self.take()
            return Node(token.text, token.at, (), "", self.take(";").end)
        if token.text == "return":
            self.take()
            value = None if self.has(";") else self.expression()
            return Node("return", token.at, (value,), "", self.take(";").end)
        it = self.simple()
        self.take(";")
        if it.kind == "act" and it.name in ASSERTS:
            self.program.assertions.append(it)
        return it

    def branch(self):
        at = self.take("if").at
        self.take("(")
        cond = self.expression()
        self.take(")")
        yes = self.statement()
        no = self.statement() if self.skip("else") else None
        return Node("if", at, (cond, yes, no), "", (no or yes).end)

    def loop(self):
        at = self.take("while").at
        self.take("(")
        cond = self.expression()
        self.take(")")
        body = self.statement()
        return Node("while", at, (None, cond, None, body), "", body.end)

    def do_loop(self):
        at, body = self.take("do").at, self.statement()
        self.take("while")
        self.take("(")
        cond = self.expression()
        self.take(")")
        return Node("do", at, (None, cond, None, body), "", self.take(";").end)

    def for_loop(self):
        at = self.take("for").at
        self.take("(")
        if self.has("int"):
            first = Node("lines", self.peek().at, tuple(self.locals()))
        else:
            first = None if self.has(";") else self.simple()
            self.take(";")
        cond = Node("number", self.peek().at, (1,), "1") if self.has(";") else self.expression()
        self.take(";")
        step = None if self.has(")") else self.simple()
        self.take(")")
        body = self.statement()
        return Node("for", at, (first, cond, step, body), "", body.end)

    # Items

    def item(self):
        is_extern = self.skip("extern")
        kind = self.take("int", "void")
        name = self.name()
        if self.has("("):
            self.procedure(kind, name, is_extern)
            return
        while True:
            sign, value = 1, 0
            if self.skip("="):
                sign = -1 if self.skip("-") else 1
                value = self.operand().parts[0]
            self.program.globals.append((name.text, sign * value, name.at))
            if not self.skip(","):
                break
            name = self.name()
        self.take(";")

    def procedure(self, kind, name, is_extern):
        self.take("(")
        params = []
        while not self.has(")"):
            if self.skip("void"):
                break
            self.take("int")
            if self.peek().kind == "word":
                params.append(self.name())
            if not self.skip(","):
                break
        self.take(")")
        if is_extern or self.has(";"):
            self.take(";")
            return
        body = self.block()
        made = Procedure(name.text, name.at, kind.text == "int", [(it.text, it.at) for it in params], body, body.end)
        self.program.procedures[name.text] = made

    def read(self):
        while self.peek().kind != "end":
            self.item()
        return self.program


def read(text):
    """The program of a text that is decoded byte by byte."""
    return Reader(text).read()


def walk(node):
    """A node and all nodes below it, in the order of the text."""
    yield node
    for it in node.parts:
        if isinstance(it, Node):
            yield from walk(it)


def loops(procedure):
    return [it for it in walk(procedure.body) if it.kind in ("while", "do", "for")]


def procedure_at(program, at):
    """The procedure in whose body an offset lies, or None."""
    return next((it for it in program.procedures.values() if it.at <= at < it.end), None)
