"""A session that grows line by line. The program answers its beginning the same each time, so each runs it again."""
import importlib.machinery
import os
import subprocess
import types

from shared import TOP

# `replies_of` of tools/trace tells apart which replies are of which line; `lines_of` knows the ends of lines.
trace = types.ModuleType("trace")
importlib.machinery.SourceFileLoader("trace", os.path.join(TOP, "tools", "trace")).exec_module(trace)

ENDINGS = {3: "the session could not be read", 4: "the replies could not be written", 5: "memory ran out",
           6: "the session has more than 1,048,576 bytes"}


class Stopped(Exception):
    """The program ended without running the session: why, and with which status."""

    def __init__(self, status):
        super().__init__(ENDINGS.get(status, f"the program ended with status {status}"))
        self.status = status


class Program:
    """The program, with the words that limit it, in the folder in which the locations begin."""

    def __init__(self, path, folder, budget=None, handings=None):
        limits = {"budget": budget, "handings": handings}
        self.command = [path, "run", *(f"--{name}={value}" for name, value in limits.items() if value is not None)]
        self.folder = folder

    def __call__(self, text):
        """What the program writes on a session."""
        ran = subprocess.run(self.command, cwd=self.folder, input=text, stdout=subprocess.PIPE,
                             stderr=subprocess.DEVNULL, check=False)
        if ran.returncode not in (0, 1, 7):
            raise Stopped(ran.returncode)
        return ran.stdout


def ended(line):
    """A line with its end; after a CR stands a space, so that it stays a byte of the line."""
    return line + b" " * line.endswith(b"\r") + b"\n"


class Session:
    """The lines so far, and the replies to each."""

    def __init__(self, program):
        self.program, self.lines, self.replies, self.changed = program, [], [], []

    def load(self, lines):
        """Takes lines as they are, also faulty ones."""
        self.lines, self.replies = list(lines), trace.replies_of(lines, self.program)

    def add(self, line):
        """The replies to one more line, which is kept. Lines whose replies are others than before are in `changed`."""
        written = self.program(b"".join(map(ended, [*self.lines, line]))).split(b"\n")[:-1]
        before = [it for replies in self.replies for it in replies]
        if written[:len(before)] == before:
            self.changed = []
            replies = [*self.replies, written[len(before):]]
        else:
            replies = trace.replies_of([*self.lines, line], self.program)
            self.changed = [at for at, (old, new) in enumerate(zip(self.replies, replies)) if old != new]
        self.lines, self.replies = [*self.lines, line], replies
        return replies[-1]

    def take_back(self):
        """The last line, which is taken back."""
        self.replies.pop()
        return self.lines.pop()

    def ask(self, line):
        """The replies to a line that is not kept; none if those to earlier lines are others than before."""
        written = self.program(b"".join(map(ended, [*self.lines, line]))).split(b"\n")[:-1]
        before = [it for replies in self.replies for it in replies]
        return written[len(before):] if written[:len(before)] == before else []
