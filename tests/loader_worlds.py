#!/usr/bin/env python3
"""Random small worlds, resolved by the plain model of the resolver, with questions about loading and assignability and the answers of
`loader_model.py`.

    tests/loader_worlds.py SEED COUNT             prints so many rows for cases_resolver
    tests/loader_worlds.py SEED COUNT answers     prints them with their answers
    tests/loader_worlds.py SEED COUNT stats       says how often each answer came up"""
import sys
from collections import Counter
from dataclasses import replace

sys.dont_write_bytecode = True
from resolver_rows import Teller
from resolver_worlds import FAMILIES, MOST, Draws
from space_rows import spelled_revision

CLASSES = ["p.A", "p.B", "q.A", "s.A", "p.q.A", "A", "z.A"]
FEW = 12  # questions of each kind


def with_files(draws, known):
    """The revision with some files of these classes."""
    return replace(known, files=tuple(name.replace(".", "/") + ".osc" for name in CLASSES if draws.chance(35)))


def row(draws):
    """What is known, the steps of a row, and their answers."""
    known, steps = draws.row()
    teller = Teller(MOST)
    known = [with_files(draws, revision) for revision in known]
    for revision in known:
        teller.add(revision)
    told = []
    for word, what in steps:
        told.append(f"add {spelled_revision(with_files(draws, what))}" if word == "add" else f"resolve {what} {MOST}")
    answers = [teller.take(step) for step in told]
    numbers = range(len(teller.world.known) + 1)
    questions = [f"load {r} {name}" for r in numbers for name in CLASSES]
    questions += [f"assignable {r} {s} {name}" for r in numbers for s in numbers for name in CLASSES]
    asked = draws.shuffled(questions[:len(numbers) * len(CLASSES)])[:FEW] + draws.shuffled(questions[len(numbers) * len(CLASSES):])[:FEW]
    answers += [teller.take(step) for step in asked]
    return known, told + asked, answers


def main(seed, count, mode=""):
    had = Counter()
    draws = [Draws(seed * 100 + at, family) for at, family in enumerate(FAMILIES)]
    for at in range(count):
        known, steps, answers = row(draws[at % len(draws)])
        text = f"{'; '.join(map(spelled_revision, known))} | {'; '.join(steps)}"
        if mode == "answers":
            print(f"{text} => {'; '.join(answer for answer in answers if answer is not None)}")
        elif mode == "stats":
            had.update(f"{step.split()[0]}: {'a revision' if answer.isdigit() else answer}" for step, answer in zip(steps, answers)
                       if step.split()[0] in ("load", "assignable"))
        else:
            print(text)
    for what, often in sorted(had.items()):
        print(f"{often:7} {what}")


if __name__ == "__main__":
    main(int(sys.argv[1]), int(sys.argv[2]), *sys.argv[3:])
