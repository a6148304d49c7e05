"""Has the system's preprocessor expand `#define` and conditional lines, and keeps each line where it was."""
import re
import subprocess

from . import language

INCLUDE = re.compile(r"(?m)^([ \t\v\f\r]*)#[ \t]*include[^\n]*")
MARKER = re.compile(r'# (\d+) "([^"]*)"')


def wanted(text):
    """Whether a directive other than #include stands in a text."""
    return any(it.kind == "directive" for it in language.tokens(text))


def expanded(text, defines):
    """The expanded text, or the preprocessor's complaint: (text, None) or (None, complaint)."""
    words = ["cpp", "-undef", "-nostdinc", "-C", *(f"-D{it}" for it in defines), "-"]
    try:
        ran = subprocess.run(words, input=INCLUDE.sub("", text).encode("latin-1"), capture_output=True)
    except OSError:
        return None, "the command cpp is not there: install a C compiler (Debian: apt install cpp)"
    if ran.returncode:
        return None, ran.stderr.decode("utf-8", "replace").strip()
    return in_place(ran.stdout.decode("latin-1"), text.count("\n")), None


def in_place(printed, count):
    """The lines of the source in what cpp printed, each at its own number."""
    lines, now, is_source = [], 1, False
    for line in printed.split("\n"):
        marker = MARKER.match(line)
        if marker:
            now, is_source = int(marker[1]), marker[2] == "<stdin>"
        elif is_source:
            while len(lines) < now - 1:
                lines.append("")
            if len(lines) == now - 1:
                lines.append(line)
            elif line.strip():
                lines[now - 1] += line
            now += 1
    while len(lines) > count + 1 and not lines[-1]:
        lines.pop()
    return "\n".join(lines).rstrip("\n") + "\n"
