#!/usr/bin/env python3
"""Times an edit of a chain of procedures with nested loops, each of which calls the one before it, beside a fresh analysis of the
edited text: a change of what the first, the middle or the last of them returns, which changes the summaries of those behind it too, a
change of a constant in the middle one that leaves its summary as it was, and a comment at the top. For each: how many groups are summed up anew, the seconds of processor time that
`analyse` takes of the edited text, and those that the second version of an edit takes, with their share.

usage: time_edits.py [--only SIZE] PROGRAM [MODEL_FOLDER]

The second version's time is that of `edit` with one edit less that of `edit` without one; each is the least of three runs. With the
folder of an independent model of the rules, the questions of a fresh analysis are told too, which are those that `certify` lists (0 where
its file would be too long), and those that the second version asks anew, as the model counts them; that takes minutes for the long chains.
"""
import json, os, re, sys

from time_programs import seconds

SIZES = (16, 64, 200)


def chain(count):
    """A chain of procedures, and behind it main, which calls the last of them."""
    text = ""
    for k in range(count):
        call = f"  x = x + p{k - 1}(n);\n" if k else ""
        text += (f"int p{k}(int n) {{\n  int u = 7;\n  int i = 0;\n  int x = 0;\n  while (i < n) {{\n    int j = 0;\n"
                 f"    while (j < i) {{ j++; x++; }}\n    i++;\n  }}\n{call}  assert(x >= 0);\n  return x;\n}}\n")
    return text + f"int main(void) {{\n  int m = __VERIFIER_nondet_int();\n  assume(m >= 0);\n  int y = p{count - 1}(m);\n  assert(y >= 0);\n}}\n"


def change(text, name, old, new):
    """The edit that puts `new` in the place of the first `old` of a procedure."""
    at = text.index(old, text.index(f"int {name}("))
    return {"at": at, "remove": len(old), "insert": new}


def changes(text, count):
    middle = f"p{count // 2}"
    return [("first", change(text, "p0", "return x;", "return x + 1;")), ("middle", change(text, middle, "return x;", "return x + 1;")),
            ("last", change(text, f"p{count - 1}", "return x;", "return x + 1;")), ("constant", change(text, middle, "u = 7", "u = 8")),
            ("comment", {"at": 0, "remove": 0, "insert": "/* A chain. */\n"})]


def script(text, *edits):
    return json.dumps({"text": text, "edits": edits}).encode()


def after(text, edit):
    return text[:edit["at"]] + edit["insert"] + text[edit["at"] + edit["remove"]:]


def least(program, word, given):
    """The least time of three runs, and what the last of them prints."""
    runs = [seconds([program, word], given) for _ in range(3)]
    return min(took for took, _ in runs), runs[-1][1]


def listed(program, text):
    """How many questions `certify` lists for a text; 0 where its file would be too long."""
    _, told = seconds([program, "certify"], text.encode())
    return len(json.loads(told)["order"]) if told.startswith(b"{") else 0


class Model:
    """The model's session of a text, which counts questions."""

    def __init__(self, folder, text):
        sys.path.insert(0, folder)
        import session, solve
        self.held, self.finder = session.Session(), solve.Finder()
        self.held.submit(text.encode(), self.finder)

    def asked(self, text):
        """How many questions are asked for a text behind the first one; the session stays as it is."""
        ours, theirs = os.pipe()
        child = os.fork()
        if child == 0:
            before = self.finder.asked
            self.held.submit(text.encode(), self.finder)
            os.write(theirs, b"%d" % (self.finder.asked - before))
            os._exit(0)
        os.close(theirs)
        with os.fdopen(ours) as told:
            count = int(told.read())
        os.waitpid(child, 0)
        return count


def main():
    words = sys.argv[1:]
    only = words.pop(words.index("--only") + 1) if "--only" in words else None
    words = [it for it in words if it != "--only"]
    program, folder = os.path.abspath(words[0]), words[1] if len(words) > 1 else None
    print("%6s %-9s %11s %9s %9s %7s%s" % ("size", "change", "work", "analyse", "edit", "share", "     fresh     asked" if folder else ""))
    for count in SIZES:
        if only not in (None, str(count)):
            continue
        text = chain(count)
        begun, _ = least(program, "edit", script(text))
        model = Model(folder, text) if folder else None
        for name, edit in changes(text, count):
            fresh, _ = least(program, "analyse", after(text, edit).encode())
            took, told = least(program, "edit", script(text, edit))
            work = re.search(rb"version 1 work (\d+ of \d+) ", told)[1].decode()
            edited = after(text, edit)
            more = "%9d %9d" % (listed(program, edited), model.asked(edited)) if model else ""
            print("%6d %-9s %11s %9.2f %9.2f %6.0f%% %s" % (count, name, work, fresh, took - begun, 100 * (took - begun) / max(fresh, 0.01), more), flush=True)


if __name__ == "__main__":
    main()
