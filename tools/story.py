"""What a session's replies tell, step by step: states, wires, services, listeners, and what was handed.

A step is a line with its replies and what is other after it. `of_session` reads a session, and `of_folders` makes one
that installs folders and resolves each. A journal, once the program writes one, is a third kind: what reads it has to
give the same steps, and the page needs nothing else.
"""
import os

from names import EVENTS
from replay import Session, ended, trace
from wires import fragment_of, wire_of

REWIRING = (b"refresh", b"update", b"uninstall")  # commands after which the wires of all bundles may be others
ASKED = [b"bundles", b"services"]


class Story:
    """The title, the steps, and all bundles that there ever were, by id: name and version."""

    def __init__(self, title, lines, program):
        session = Session(program)
        session.load(lines)
        self.title, self.steps, self.bundles = title, [], {}
        states, services = self.ask_states(lines, program)
        wires = self.ask_wires(lines, program, states)
        listeners, last = {}, {"states": {}, "services": {}, "wires": {}, "listeners": {}}
        for at, (line, replies) in enumerate(zip(lines, session.replies)):
            told = [it.decode("utf-8", "replace") for it in replies]
            listeners, handed = heard(told, listeners)
            new = {"states": states[at], "services": services[at], "wires": wires[at], "listeners": listeners}
            step = {"line": line.decode("utf-8", "replace"), "replies": told, "handed": handed,
                    "faults": [bool(trace.fault_of(it)) for it in replies]}
            self.steps.append({**step, **{key: changes(last[key], new[key]) for key in new}})
            last = new

    def ask_states(self, lines, program):
        """After each line the states of bundles and the rows of services, both by id."""
        states, services = [{}], [{}]
        for line, answers in zip(lines, asked(lines, [ASKED] * len(lines), program)):
            state, offered = states[-1], services[-1]
            if answers and answers[0] != ["full"]:
                rows = [it.split(" ") for it in answers[0]]
                self.bundles.update((it[1], f"{it[4]} {it[5]}") for it in rows)
                state = {it[1]: it[2] for it in rows}
                offered = {it.split(" ")[1]: it.partition(" ")[2] for it in answers[1] if it not in ("none", "full")}
            states.append(state)
            services.append(offered)
        return states[1:], services[1:]

    def ask_wires(self, lines, program, states):
        """After each line what leads from one bundle to another, by the pair: kinds and names."""
        questions, before = [], {}
        for line, state in zip(lines, states):
            is_any = line.strip(b" ").split(b" ")[0] in REWIRING
            questions.append([it for it in state if is_any or (state[it] == "2") != (before.get(it, "2") == "2")])
            before = state
        wired, rows = [{}], {}
        answers = asked(lines, [[f"wires {it}".encode() for it in some] for some in questions], program)
        for some, texts, state in zip(questions, answers, states):
            rows = {it: row for it, row in rows.items() if it in state}
            rows.update((bundle, text) for bundle, text in zip(some, texts) if text != ["full"])
            wired.append(pairs(rows) if some else wired[-1])
        return wired[1:]


def asked(lines, questions, program):
    """The answers to questions after each line that says something, each a list of texts; none after the others."""
    text, answers, at = b"", [], 0
    for line, some in zip(lines, questions):
        text += ended(line) + b"".join(b"?\n" + it + b"\n" for it in some + [b""]) * trace.says_something(line)
    written = program(text).decode("utf-8", "replace").split("\n")
    for line, some in zip(lines, questions):
        found = []
        if trace.says_something(line):
            at = written.index("syntax", at + 1) + 1  # a line has at least one reply, which may be `syntax` too
            for _ in some:
                end = written.index("syntax", at)
                found.append(written[at:end])
                at = end + 1
        answers.append(found)
    return answers


def pairs(rows):
    """What leads from one bundle to another, of the rows of `wires` of each: kinds and names by the pair."""
    found = {}
    for bundle, texts in rows.items():
        for row in texts:
            fragment, wire = fragment_of(row), wire_of(row)
            if fragment:
                found.setdefault(f"{fragment}-{bundle}", []).append(["fragment", "fragment of"])
            elif wire and list(wire[1:]) not in found.setdefault(f"{bundle}-{wire[0]}", []):
                found[f"{bundle}-{wire[0]}"].append(list(wire[1:]))
    return found


def changes(old, new):
    """What is other in a new table: the new values, and None for what is gone."""
    changed = {key: it for key, it in new.items() if old.get(key) != it}
    return {**changed, **{key: None for key in old if key not in new}}


def heard(replies, listeners):
    """The listeners after a line, each with its bundle, and what was handed to each, as rows for people.

    The bundle whose script runs is that of the start or stop, of the event, or of the job, under which a reply stands. Which
    listener an `unlisten` takes out is told only where its bundle has a single one: else all of them may be gone.
    """
    listeners, handed, inside, open_ones = dict(listeners), [], {}, {}
    for reply in replies:
        depth, words = (len(reply) - len(reply.lstrip(" "))) // 2, reply.split()
        first, rest = (words or [""])[0], words[1:]
        runner = inside.get(depth - 1, "0")
        if first in ("starting", "stopping") and len(rest) == 1:
            open_ones[depth] = inside[depth] = rest[0]
            if first == "stopping":
                open_ones[depth] = f"-{rest[0]}"
        elif first in ("started", "stopped") or reply.strip() == "refused 11 ActivatorError":
            bundle = open_ones.pop(depth, "")
            if first != "started":
                listeners = {it: owner for it, owner in listeners.items() if owner.rstrip("?") != bundle.lstrip("-")}
        elif depth == 0 and first == "job" and len(rest) == 2:
            inside[depth] = rest[0]
        elif first == "listener" and len(rest) == 1:
            listeners[rest[0]] = runner
        elif reply.strip() == "unlisten true":
            mine = [it for it, owner in listeners.items() if owner.rstrip("?") == runner]
            listeners.update((it, f"{runner}?") for it in mine)
            if len(mine) == 1:
                del listeners[mine[0]]
        elif first == "event" and len(rest) in (2, 3, 4) and rest[1] in EVENTS:
            owner = listeners.get(rest[0], "?").rstrip("?")
            if depth not in open_ones:
                inside[depth] = owner
            what = [rest[1], *rest[3:], EVENTS[rest[1]].get(rest[2], rest[2])]
            handed.append(f"listener {rest[0]} of bundle {owner}: {' '.join(what)}")
    return listeners, handed


def of_session(path, program):
    with open(path, "rb") as it:
        lines = trace.lines_of(it.read())
    return Story(path, lines, program)


def of_folders(paths, program):
    """Folders, installed in their order and resolved. Links stand for them in the program's folder."""
    shown = {}
    for at, path in enumerate(paths):
        os.symlink(os.path.abspath(path), f"{program.folder}/link-{at}")
        shown[f"install link-{at}"] = f"install {path}"
    lines = [*shown, *(f"resolve {at + 1}" for at in range(len(paths)))]
    story = Story(" ".join(paths), [it.encode() for it in lines], program)
    for step in story.steps:
        step["line"] = shown.get(step["line"], step["line"])
    return story
