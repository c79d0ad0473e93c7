#!/usr/bin/env python3
"""The rows of cases_resolver: worlds and steps as text, and the answers that the model gives. The form of a row is explained
in crates/cases_resolver/src/main.rt.

    tests/resolver_rows.py FILE

compares the model with rows that have answers (`ROW => ANSWER; ANSWER`), as crates/cases_resolver/stdout has them. Its
status is 1 where one is different."""
import sys

sys.dont_write_bytecode = True
from loader_model import is_assignable, loaded
from resolver_model import FIRST, Found, Problem, Spent, Walk, extended
from space_model import Space, World
from space_rows import parts, read_revision, spelled_place, spelled_wiring

AMPLE = 1000000


# ---------------------------------------------------------------- answers as text

def spelled_wirings(wirings):
    return ", ".join(map(spelled_wiring, wirings)) or "none"


def spelled_answer(problem, answer):
    if isinstance(answer, Found):
        return f"found [{' '.join(map(str, answer.word))}] {spelled_wirings(answer.added)}"
    if isinstance(answer, Spent):
        return f"spent {answer.visited}"
    if answer.lacking is None:
        return "clash"
    asked = problem.before.requirement(*answer.lacking)
    return f"no candidate {asked.namespace} {asked.name}"


def spelled_problem(problem):
    """What can be asked for in the world of the problem, each requirement with its candidates."""
    places = [(known.id, index) for known in problem.world.known if known.current for index in range(len(known.requirements))]
    asked = [place for place in places if problem.before.is_effective(*place)]
    return ", ".join(" ".join([f"{owner}.{index}>", *map(spelled_place, problem.candidates((owner, index)))]) for owner, index in asked) or "none"


def spelled_slowly(answer):
    """The same as the slow search answers it."""
    if isinstance(answer, Found):
        return f"found [{' '.join(map(str, answer.word))}]"
    return f"spent {answer.visited}" if isinstance(answer, Spent) else "none"


# ---------------------------------------------------------------- steps

class Teller:
    """What the model answers to one step after another. Efforts are counted up to `most`, and no budget may be above that."""

    def __init__(self, most=AMPLE):
        self.world = FIRST
        self.most = most
        self.walks = {}  # of the world as it stands, by roots

    def add(self, known):
        """Makes a revision known, unless it has another id than the next or its bundle has one; whether it did."""
        if known.id != len(self.world.known) or any(other.bundle == known.bundle for other in self.world.known):
            return False
        self.world = World(self.world.known + (known,), self.world.wirings)
        self.walks = {}
        return True

    def obstacle(self, root):
        """Why a revision cannot be resolved, or None."""
        problem = Problem(self.world, root)
        if problem.before.known(root) is None:
            return "not known"
        if not problem.before.is_current(root):
            return "not current"
        if problem.is_fragment(root):
            return "a fragment"
        return "in force" if root in problem.in_force else None

    def walk(self, root):
        """The walk that resolves a revision, and what it answers where there is budget enough."""
        if root not in self.walks:
            walk = Walk(Problem(self.world, root), self.most)
            self.walks[root] = walk, walk.answer()
        return self.walks[root]

    def resolve(self, word, root, budget):
        """The answer to `resolve`, `anew`, `solve`, `slowly` or `problem`. The effort is within the budget, or the budget is spent."""
        obstacle = self.obstacle(root)
        if obstacle is not None:
            return obstacle
        if word == "problem":
            return spelled_problem(Problem(self.world, root))
        walk, answer = self.walk(root)
        if walk.effort > budget:
            answer = Spent(budget + 1)
        if word == "slowly":
            return spelled_slowly(answer)
        if not isinstance(answer, Found) or word in ("anew", "solve"):
            return spelled_answer(walk.problem, answer)
        self.world = extended(self.world, answer.added)
        self.walks = {}
        return f"{spelled_answer(walk.problem, answer)}: taken"

    def take(self, step):
        """The answer to a step, or None."""
        word, *rest = step.split(" ", 1)
        if word == "add":
            return None if self.add(read_revision(rest[0])) else "cannot be known"
        if word == "wires":
            return spelled_wirings(self.world.wirings[1:])
        if word == "load":
            revision, _, name = rest[0].partition(" ")
            by = loaded(Space(self.world), int(revision), name)
            return "none" if by is None else str(by)
        if word == "assignable":
            registrant, asker, name = (rest[0] + " ").split(" ")[:3]
            return "yes" if is_assignable(Space(self.world), int(registrant), int(asker), name) else "no"
        root, *budget = map(int, rest[0].split())
        return self.resolve(word, root, budget[0] if budget else AMPLE)


def answer_row(row):
    """The answers to the steps of a row."""
    known, steps = row.split("|")
    teller = Teller()
    if not all(teller.add(read_revision(text)) for text in parts(known)):
        return "cannot be known"
    return "; ".join(answer for answer in map(teller.take, parts(steps)) if answer is not None)


def main(path):
    rows = [line.split(" => ") for line in open(path).read().splitlines() if line and not line.startswith("#")]
    wrong = [(row, answer, answer_row(row)) for row, answer in rows if answer_row(row) != answer]
    for row, answer, told in wrong:
        print(f"{row}\n  file:  {answer}\n  model: {told}")
    print(f"{len(rows)} rows, {len(wrong)} of them with another answer")
    return 1 if wrong else 0


if __name__ == "__main__":
    sys.exit(main(sys.argv[1]))
