"""Runs the program: by way of ./cra, so that what is not built gets built."""
import json
import os
import subprocess
import sys

TOP = os.path.dirname(os.path.dirname(os.path.dirname(os.path.abspath(__file__))))
WORDS = {
    2: "the words are wrong",
    3: "the text is refused",
    4: "a read failed",
    5: "a write failed",
    6: "memory was wanting",
    7: "the input has a wrong shape",
    8: "the file does not pass",
    9: "the input is too long",
}


class Cra:
    """The built program, proved or not."""

    def __init__(self, unproved=False):
        words = [f"{TOP}/cra", *["--unproved"] * unproved, "--where"]
        ran = subprocess.run(words, stdout=subprocess.PIPE, stdin=subprocess.DEVNULL, text=True)
        if ran.returncode:
            sys.exit(ran.returncode)
        self.file = ran.stdout.strip()
        self.is_proved = "/out/unproved/" not in self.file

    def run(self, word, data):
        """The status and the output of one word on an input of bytes."""
        ran = subprocess.run([self.file, word], input=data, stdout=subprocess.PIPE)
        return ran.returncode, ran.stdout.decode("utf-8", "replace")

    def replay(self, text, values, turns):
        """The status and the trace of one execution; the text is decoded byte by byte."""
        return self.run("replay", replay_input(text, values, turns).encode())


def replay_input(text, values, turns):
    """What `replay` reads, on one line."""
    whole = text.encode("latin-1").decode("utf-8")
    return json.dumps({"text": whole, "values": [str(it) for it in values], "turns": turns}, ensure_ascii=False, separators=(",", ":"))


def source_of(file):
    """The bytes of a file, decoded byte by byte, so that an offset is one of bytes."""
    try:
        with open(file, "rb") as it:
            return it.read().decode("latin-1")
    except OSError as it:
        sys.exit(f"{file} cannot be read: {it.strerror}")
