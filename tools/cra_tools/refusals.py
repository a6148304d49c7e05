"""What a refusal word means at a token, and what to write instead."""
from . import language

WIDTHS = {"unsigned", "signed", "long", "short", "char", "_Bool"}
TOKENS = {
    "?": "`?:` is not in the language: write an if",
    ":": "labels and `?:` are not in the language: write an if",
    "[": "arrays are not in the language: write one variable for each element that matters",
    "]": "arrays are not in the language: write one variable for each element that matters",
    "&": "addresses and bitwise operators are not in the language: return values, or use globals",
    "->": "structs and pointers are not in the language: write one variable for each field",
    ".": "structs are not in the language: write one variable for each field",
    "|": "bitwise operators are not in the language: write tests, or sums of powers of two",
    "^": "bitwise operators are not in the language: write tests, or sums of powers of two",
    "~": "bitwise operators are not in the language: -x - 1 has the value of ~x",
    "<<": "shifts are not in the language: x * 8 has the value of x << 3",
    ">>": "shifts are not in the language: write a division, and mind that / rounds towards zero",
    "const": "`const` is not in the language: leave it out",
    "static": "`static` is not in the language: leave it out; a static variable inside a procedure becomes a global",
    "inline": "`inline` is not in the language: leave it out",
    "volatile": "`volatile` is not in the language: read a new value with __VERIFIER_nondet_int() where it may change",
    "register": "`register` is not in the language: leave it out",
    "auto": "`auto` is not in the language: leave it out",
    "switch": "`switch` is not in the language: write ifs",
    "case": "`switch` is not in the language: write ifs",
    "default": "`switch` is not in the language: write ifs",
    "goto": "`goto` and labels are not in the language: write a loop, with break or continue",
    "enum": "`enum` is not in the language: write its numbers, or globals with these values",
    "struct": "structs are not in the language: write one variable for each field",
    "union": "unions are not in the language",
    "typedef": "`typedef` is not in the language: write int",
    "sizeof": "`sizeof` is not in the language: the numbers have no width",
    "float": "fractions are not in the language: count in small units, as cents",
    "double": "fractions are not in the language: count in small units, as cents",
    "bool": "`bool` is not in the language: write int, with 1 and 0",
    "true": "`true` is no name here: write 1",
    "false": "`false` is no name here: write 0",
    "<<=": "shifts are not in the language: x = x * 8 has the value of x <<= 3",
    ">>=": "shifts are not in the language: write a division, and mind that / rounds towards zero",
    "&=": "bitwise operators are not in the language: write tests, or sums of powers of two",
    "|=": "bitwise operators are not in the language: write tests, or sums of powers of two",
    "^=": "bitwise operators are not in the language: write tests, or sums of powers of two",
    "NULL": "pointers are not in the language",
    "printf": "there is no output: leave the call out",
    "_Static_assert": "`_Static_assert` is not in the language: write assert inside a procedure",
}
WORDS = {
    "byte": "this byte begins nothing that the language has: # begins only #include lines, and there are no strings and characters",
    "comment": "this comment does not end",
    "literal": "a number is decimal without a leading zero, or hexadecimal, without a suffix, a fraction or an exponent, and below 2 to the 63rd",
    "tokens": "the text has more than 200,000 tokens",
    "syntax": "no text of the language has this token here",
    "unsupported": "this part of C is not in the language",
    "deep": "at most 64 levels of blocks, statements, brackets and signs, and 256 operators in one expression",
    "unknown": "this name is not declared here",
    "twice": "this name is declared twice, or is one of the special names, which have a fixed meaning and take no body",
    "arity": "the number of arguments or parameters differs, main has parameters or is called, or a void procedure returns a value",
    "void": "this call has no value, and one is wanted",
    "place": "a call of a procedure to the right of && or || would run only sometimes: make it before, into a variable, or write an if",
    "main": "there is no procedure main",
}
MANY = {
    "procedures": "at most 256 procedures",
    "parameters": "at most 8 parameters",
    "globals": "at most 16 globals",
    "slots": "at most 24 columns a procedure: its parameters, its variables, and one for each call inside an expression, __VERIFIER_nondet_int() in a condition too",
    "nodes": "at most 512 nodes a procedure: make two of it",
    "assertions": "at most 1,024 assertions",
    "cases": "a value or a condition has more than 256 cases: store parts of it in variables",
}


def of_width(word):
    return f"`{word}`: the numbers have no width, so overflow and wrapping do not exist: write int where that is meant"


def literal(token):
    if token[-1:] in "uUlL" and token.rstrip("uUlL").isdigit():
        return f"`{token}`: a number has no suffix, since the numbers have no width: write {token.rstrip('uUlL')}"
    if token.startswith("0") and token.isdigit():
        return f"`{token}` is octal in C: write {int(token, 8) if set(token) <= set('01234567') else 'it'} in decimal"
    return f"`{token}`: {WORDS['literal']}"


def of_token(tokens, at):
    """A sentence for a token that the language has not, or None."""
    it = tokens[at]
    before, after = tokens[at - 1] if at else None, tokens[at + 1] if at + 1 < len(tokens) else None
    if it.kind == "directive":
        name = it.text[1:].split()[0] if it.text[1:].split() else ""
        return f"`#{name}`: of the directives only #include is read over: let tools/prepare expand it, or write the number"
    if it.kind == "string":
        return "strings and characters are not in the language: leave the message out, and write a character's number"
    if it.text in WIDTHS:
        return of_width(it.text)
    if it.text == "*" and before and before.text in ("int", "void", "*"):
        return "pointers are not in the language: return values, or use globals"
    if it.text == "int" and before and before.text == "(" and after and after.text == ")" and at + 2 < len(tokens):
        following = tokens[at + 2]
        if following.kind in ("word", "number") or following.text in ("(", "-"):
            return "casts are not in the language: the numbers have no width, so leave it out"
    return TOKENS.get(it.text)


def sentence(word, text, at):
    """What a refusal at an offset means, and what to write instead."""
    if word.startswith("many "):
        return MANY.get(word[5:], "a limit of the program is passed")
    tokens = language.tokens(text)
    here = next((number for number, it in enumerate(tokens) if it.at <= at < it.end), None)
    if here is not None and word == "literal":
        return literal(tokens[here].text)
    if here is not None and word in ("byte", "unsupported", "syntax", "unknown"):
        special = of_token(tokens, here) or (of_syntax(tokens, here) if word == "syntax" else None)
        if special or tokens[here].text in ("break", "continue"):
            return special or f"`{tokens[here].text}` stands in no loop"
    return WORDS.get(word, "the text is refused")


def of_syntax(tokens, at):
    """A sentence for a token that the grammar has not there, or None."""
    before = tokens[at - 1].text if at else ""
    if before == "bool":
        return TOKENS["bool"]
    found = {
        "=": "an assignment is a statement of its own here, and stands in no expression",
        ",": "the comma operator is not in the language, nor several prototypes on one line: write two statements",
        "++": "`x++` and `x--` are statements of their own here, and stand in no expression",
        "--": "`x++` and `x--` are statements of their own here, and stand in no expression",
        "*": "pointers are not in the language: return values, or use globals",
    }
    return found.get(tokens[at].text)
