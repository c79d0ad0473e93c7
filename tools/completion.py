"""What Tab completes at the shell: commands, folders of bundles, ids of bundles and services, and classes."""
import glob
import os

import manual
from replay import Stopped

try:
    import readline
except ImportError:  # a Python without it has no history and no Tab
    readline = None

BUNDLES = ["resolve", "wires", "load", "start", "stop", "update", "uninstall", "refresh", "blevel"]
SERVICES = ["modify", "unregister", "get", "unget"]


class Completion:
    """Completes words of a session's next line. `own` are the shell's own commands."""

    def __init__(self, session, own):
        self.session, self.own, self.found = session, own, []

    def complete(self, text, at):
        """The `at`-th way to go on, as readline asks for it; none ends the ways."""
        if at == 0:
            words = readline.get_line_buffer()[:readline.get_begidx()].split()
            try:
                self.found = [it for it in self.candidates(words, text) if it.startswith(text)]
            except (Stopped, OSError):
                self.found = []
        return self.found[at] if at < len(self.found) else None

    def rows(self, question):
        """The words of each reply to a line that asks."""
        replies = [it.decode("utf-8", "surrogateescape") for it in self.session.ask(question)]
        return [it.split() for it in replies if it != "none"]

    def candidates(self, words, text):
        """What may stand after these words, each with what follows it."""
        first, more = (words or [""])[0], words[1:]
        if not words or first == "help" and not more:
            return [f"{it} " for it in manual.names() + self.own]
        if (first in ("install", "save") and not more) or (first == "update" and len(more) == 1):
            return folders(self.session.program.folder, text)
        if first in BUNDLES and more in ([], ["-t"]):
            return [f"{it[1]} " for it in self.rows(b"bundles") if it[1] != "0"]
        if first in SERVICES and not more:
            return [f"{it[1]} " for it in self.rows(b"services")]
        if first in ("find", "findall") and not more:
            return sorted({f"{name} " for it in self.rows(b"services") for name in it[4].split(",")})
        return []


def folders(start, text):
    """The folders, from a folder on, whose paths begin so: those of bundles, and those on the way to others."""
    found = []
    for path in sorted(glob.glob(os.path.join(glob.escape(start), glob.escape(text) + "*", ""))):
        name = text[:len(text) - len(os.path.basename(text))] + os.path.basename(path[:-1])
        if " " not in name:  # no location has a space
            found.append(name + (" " if os.path.isfile(f"{path}META-INF/MANIFEST.MF") else "/"))
    return found


def prepare(session, history, own):
    """History and Tab at a terminal. The history begins with that of a file, if there is one, and the lines so far."""
    if not readline:
        return
    if history and os.path.exists(history):
        readline.read_history_file(history)
    for line in session.lines:
        readline.add_history(line.decode("utf-8", "surrogateescape"))
    readline.set_completer_delims(" ")
    readline.set_completer(Completion(session, own).complete)
    is_libedit = "libedit" in (readline.__doc__ or "")
    for line in ["bind ^I rl_complete"] if is_libedit else ["tab: complete", "set show-all-if-ambiguous on"]:
        readline.parse_and_bind(line)


def keep_history(path):
    if path and readline:
        readline.write_history_file(path)
