#!/usr/bin/env python3
"""Random small problems of the resolver, with the answers of the plain model (`resolver_model.py`).

    tests/resolver_worlds.py SEED COUNT             prints rows for cases_resolver
    tests/resolver_worlds.py SEED COUNT --stats     says how often each answer and each feature came up
    tests/resolver_worlds.py SEED COUNT --laws      looks at the first words of each problem, at those below hopeless ones too
    tests/resolver_worlds.py SEED COUNT PROGRAM     asks the program, built from cases_resolver, and compares

A row makes revisions known and resolves some of them, each with a budget that is one too small, and then with one that is just
enough; so what is in force is what the model has found before, and is consistent. Where the effort is above MOST, the budget is
that, and both have to say that it was spent. Where few words come up to the first good one, hopeless ones among them, the slow
search over all words is asked as well. A row that the program answers in another way is made as small as it can be, and printed,
and then the status is 1.

All revisions are current: the rows of cases_resolver have no step after which one is not."""
import itertools
import subprocess
import sys
from collections import Counter
from dataclasses import replace

sys.dont_write_bytecode = True
from resolver_model import Found, Spent, broken_laws, has_few_words, version_in
from resolver_rows import Teller
from space_model import BUNDLE, PACKAGE, Capability, Host, Requirement, Revision, parts
from space_rows import spelled_revision
from space_worlds import Makers

MOST = 40  # the largest effort that is counted
FEW = 2000  # the slow search is asked where it has to look at no more words than these
BATCH = 200

PACKAGES = ["p", "q", "r", "s", "t"]
NAMES = ["a", "b", "c", "d", "e", "f"]
OTHERS = ["x", "y"]

# What the framework itself offers, or nearly so.
FRAMEWORK = [
    Requirement(PACKAGE, "org.osgi.framework"), Requirement(PACKAGE, "org.osgi.framework", range="[1.8,2)"),
    Requirement(BUNDLE, "system.bundle", reexport=True), Requirement(BUNDLE, "system.bundle", optional=True, range="[2,3)"),
    Requirement("osgi.ee", "osgi.ee", filter="(&(osgi.ee=JavaSE)(version=1.8))"),
    Requirement("osgi.ee", "osgi.ee", optional=True, filter="(&(osgi.ee=JavaSE)(version>=18))")]

# In percent, how often something is drawn. A family has its own numbers for what it is about.
MIXED = dict(
    fewest=4, most=8, names=5, packages=4, fragment=22, bundle=55, exports=3, other=25, version=65, uses=40, sees=75, again=12,
    attributes=8, required=30, reexport=50, imports=2, needs=25, own=18, optional=18, several=45, several_packages=4, idle=4,
    range=35, exporter=6, missing=2, single=20, same=25, shut=4, dynamic=5, late=25, shuffled=50, roots=4, framework=4)
FAMILIES = {
    "mixed": {},
    "uses": dict(fragment=8, uses=75, sees=95, version=90, range=45, required=12, imports=3, other=5, needs=5, packages=3, single=5),
    "split": dict(fragment=10, bundle=95, required=75, reexport=65, uses=60, sees=40, imports=1, other=5, needs=5, packages=3, version=30),
    "chains": dict(late=15, roots=3),
    "parts": dict(late=15, roots=3),
    "substitution": dict(own=65, fragment=20, range=50, packages=3, uses=35, exports=2, imports=2, version=85, bundle=80, required=50),
    "singletons": dict(single=80, same=70, names=3, fragment=30, bundle=80, required=50, version=70, imports=2, optional=25),
    "fragments": dict(fragment=50, names=4, shut=8, same=40, late=45, imports=2, exports=2, uses=45),
    "several": dict(other=80, needs=90, several=80, several_packages=35, fragment=25, optional=35, most=7),
    "order": dict(exports=3, packages=2, version=45, other=60, needs=60, range=15, late=40, bundle=80, required=45, names=3, same=60,
                  fragment=30, missing=5),
    "late": dict(late=70, fragment=35, roots=5, own=35, single=30),
}


class Draws(Makers):
    """Random problems of one family."""

    def __init__(self, seed, family):
        super().__init__(seed)
        self.percent = {**MIXED, **FAMILIES[family]}
        self.family = family

    def wants(self, what):
        return self.chance(self.percent[what])

    def up_to(self, what):
        """A number from 0 to this one."""
        return self.below(self.percent[what] + 1)

    def shuffled(self, items):
        items = list(items)
        for at in range(len(items) - 1, 0, -1):
            other = self.below(at + 1)
            items[at], items[other] = items[other], items[at]
        return items

    # ---- what is offered

    def version(self):
        return self.one_of([1, 1, 2, 2, 3]) if self.wants("version") else None

    def export(self, packages):
        attributes = (("k", self.one_of("vw")),) if self.wants("attributes") else ()
        mandatory = ("k",) if attributes and self.chance(60) else ()
        uses = tuple(self.some(packages, 55)) if self.wants("uses") else ()
        return Capability(PACKAGE, self.one_of(packages), uses, self.version(), attributes, mandatory)

    def capabilities(self, name, packages, is_fragment):
        made = [self.export(packages) for _ in range(self.up_to("exports"))]
        if made and self.wants("again"):
            made.append(replace(self.export(packages), name=made[0].name))
        if self.wants("bundle") and (not is_fragment or self.chance(25)):
            made.append(Capability(BUNDLE, name, (), self.version() if self.chance(20) else None))
        if self.wants("other"):
            attributes = (("k", self.one_of("vw")),) if self.chance(30) else ()
            made.append(Capability(self.one_of(OTHERS), "", (), self.version(), attributes))
            made[-1] = replace(made[-1], name=made[-1].namespace)
        return tuple(self.shuffled(made))

    def draw_known(self):
        """Revisions without what they need."""
        names, packages = NAMES[:self.percent["names"]], PACKAGES[:self.percent["packages"]]
        count = self.percent["fewest"] + self.below(self.percent["most"] - self.percent["fewest"] + 1)
        bundles = list(range(1, count + 1))
        bundles = self.shuffled(bundles) if self.wants("shuffled") else bundles
        made = []
        for number in range(1, count + 1):
            is_fragment = number > 1 and self.wants("fragment")
            name = self.one_of(made).name if made and self.wants("same") else self.one_of(names)
            host = None
            if is_fragment:
                hosts = [known for known in made if known.host is None]
                named = self.one_of(hosts) if hosts and self.chance(92) else self.one_of(made)
                host = Host(named.name, self.range(parts(named.version)[0]) if self.chance(30) else "0")
            made.append(Revision(
                number, bundles[number - 1], name, version=self.version() or 0, singleton=self.wants("single"),
                attach=not self.wants("shut"), host=host, capabilities=self.capabilities(name, packages, is_fragment)))
        return [replace(known, id=at + 1) for at, known in enumerate(self.shuffled(made))]

    # ---- what is needed

    def range(self, version):
        """One that has the version, mostly."""
        if self.chance(5):
            return self.one_of(["[0,1)", "[1,2)", "[2,3)", "(1,9]"])
        return self.one_of([f"[{version},{version + 1})", f"[{version},{version}]", f"[0,{version}]", f"{version}", f"[{version},9)"])

    def flags(self, namespace):
        several = "several_packages" if namespace in (BUNDLE, PACKAGE) else "several"
        return dict(optional=self.wants("optional"), multiple=self.wants(several), effective=not self.wants("idle"),
                    reexport=self.wants("reexport") if namespace == BUNDLE else self.chance(2))

    def offers(self, made, namespace):
        """Pairs of a revision and what it offers in this namespace, or, for None, in one that is not of bundles or packages."""
        return [(known, given) for known in made for given in known.capabilities
                if given.namespace == namespace or namespace is None and given.namespace not in (BUNDLE, PACKAGE)]

    def asked_for(self, known, given):
        """A requirement that the capability of the revision satisfies, mostly."""
        span, exporter, from_range, equal, filter = "0", None, "0", given.attributes if given.mandatory else (), ""
        if given.namespace == BUNDLE:
            span = self.range(parts(known.version)[0]) if self.wants("range") else "0"
        elif given.namespace == PACKAGE:
            span = self.range(version_in(given)[0]) if self.wants("range") else "0"
            if self.wants("exporter"):
                exporter, from_range = known.name, self.range(parts(known.version)[0]) if self.chance(40) else "0"
            if given.attributes and self.chance(30):
                equal = given.attributes
        else:
            filter = "(k=v)" if given.attributes and self.chance(40) else "(version>=2)" if self.chance(10) else ""
        return Requirement(given.namespace, given.name, range=span, from_name=exporter, from_range=from_range, equal=equal,
                           filter=filter, **self.flags(given.namespace))

    def some_offer(self, made, known, namespace):
        """Requirements of one of what others offer, or of nothing that is offered; none where there is nothing."""
        offers = [(other, given) for other, given in self.offers(made, namespace) if other.id != known.id or self.chance(5)]
        if self.wants("missing"):
            return [replace(Requirement(namespace or "z", "z", **self.flags(namespace or "z")), optional=self.chance(60))]
        return [self.asked_for(*self.one_of(offers))] if offers else []

    def requirements(self, made, known):
        asked = []
        if self.wants("required"):
            asked += self.some_offer(made, known, BUNDLE)
            asked += self.some_offer(made, known, BUNDLE) if self.chance(40) else []
        for _ in range(self.up_to("imports")):
            asked += self.some_offer(made, known, PACKAGE)
        if self.wants("needs"):
            asked += self.some_offer(made, known, None)
        # a package that it exports, from itself or from another
        exports = [given for given in known.capabilities if given.namespace == PACKAGE]
        if exports and self.wants("own"):
            name = self.one_of(exports).name
            asked.append(self.asked_for(*self.one_of([offer for offer in self.offers(made, PACKAGE) if offer[1].name == name])))
        # what its exports use
        for used in sorted({u for given in exports for u in given.uses}):
            offers = [offer for offer in self.offers(made, PACKAGE) if offer[1].name == used and offer[0].id != known.id]
            if offers and used not in {given.name for given in exports} and self.wants("sees"):
                asked.append(self.asked_for(*self.one_of(offers)))
        if self.wants("framework"):
            asked.append(self.one_of(FRAMEWORK))
        # not two imports of one package, mostly
        kept = []
        for one in asked:
            if one.namespace != PACKAGE or one.name not in {other.name for other in kept if other.namespace == PACKAGE} or self.chance(15):
                kept.append(one)
        return tuple(self.shuffled(kept))

    def chain(self):
        """A package that comes through bundles of which each requires the one before, with reexport or not; a user of what comes
        so, and a revision that sees both and may get the package from elsewhere."""
        length = self.one_of([2, 3, 4, 4, 5])
        made = []
        for at in range(length):
            asked = [Requirement(BUNDLE, NAMES[at - 1], reexport=self.chance(75), optional=self.chance(8))] if at > 0 else []
            if self.chance(20):
                asked.append(Requirement(BUNDLE, self.one_of(NAMES[:length]), reexport=self.chance(50), optional=self.chance(50)))
            given = [Capability(PACKAGE, "p", (), self.version())] if at == 0 or self.chance(15) else []
            given += [Capability(PACKAGE, "s", ("p",))] if self.chance(15) else []
            made.append((NAMES[at], [Capability(BUNDLE, NAMES[at]), *given], asked))
        if self.chance(65):
            made.append(("u", [Capability(PACKAGE, "q", self.one_of([("p",), ("p",), ("p", "s")]))],
                         [Requirement(BUNDLE, NAMES[length - 1])] + [Requirement(BUNDLE, self.one_of(NAMES[:length]))] * self.chance(20)))
        else:
            made.append(("u", [Capability(PACKAGE, "q", ("p",)), Capability(PACKAGE, "p")], []))
        made.append(("k", [Capability(PACKAGE, "p", (), 2 if self.chance(60) else None)], []))
        sees = [Requirement(PACKAGE, "q"), Requirement(PACKAGE, "p", optional=self.chance(30), range=self.one_of(["0", "0", "[0,2)", "2"]))]
        sees += [Requirement(BUNDLE, self.one_of(NAMES[:length] + [NAMES[length - 1]] * 3), optional=self.chance(20))] * self.chance(65)
        made.append(("v", [Capability(PACKAGE, "r", ("q",))] * self.chance(30), sees))
        if self.chance(25):
            made.append(("w", [], [Requirement(BUNDLE, self.one_of(NAMES[:length])), Requirement(PACKAGE, self.one_of("pqr"))]))
        return self.numbered(made)

    def required(self, least, names):
        """Some bundles, each with reexport or not."""
        chosen = self.shuffled(names)[:least + self.below(3)]
        return [Requirement(BUNDLE, name, reexport=self.chance(60), optional=self.chance(12)) for name in chosen]

    def sees_p(self, percent):
        """An import of p, so often."""
        return [Requirement(PACKAGE, "p", optional=self.chance(25), range=self.one_of(["0", "0", "[1,2)", "2"]))] * self.chance(percent)

    def parts_of_package(self):
        """A package that is split between several bundles, of which its users see different ones."""
        names = NAMES[:self.one_of([2, 3, 3])]
        made = [(name, [Capability(BUNDLE, name), Capability(PACKAGE, "p", (), self.version())],
                 (self.required(0, names)[:1] if self.chance(20) else []) + self.sees_p(25)) for name in names]
        made.append(("m", [Capability(BUNDLE, "m")] + [Capability(PACKAGE, "p")] * self.chance(20), self.required(1, names)))
        for at, name in enumerate("uv"[:1 + self.below(2)]):
            own = [Capability(PACKAGE, "p", (), self.version())] * self.chance(15)
            made.append((name, [Capability(PACKAGE, "qs"[at], ("p",)), Capability(BUNDLE, name), *own],
                         self.required(1, names + ["m"]) + self.sees_p(15)))
        own = [Capability(PACKAGE, "p", (), self.version())] * self.chance(15)
        asked = [Requirement(PACKAGE, "q"), *[Requirement(PACKAGE, "s")] * self.chance(25)]
        made.append(("w", own, asked + self.sees_p(20) + self.required(1, names + ["m"])))
        return self.numbered(made)

    def numbered(self, made):
        """The revisions that have these names, capabilities and requirements, in some order."""
        bundles = self.shuffled(range(1, len(made) + 1))
        return [Revision(at + 1, bundles[at], name, capabilities=tuple(given), requirements=tuple(self.shuffled(asked)))
                for at, (name, given, asked) in enumerate(self.shuffled(made))]

    def known(self):
        if self.family == "chains":
            return self.chain()
        if self.family == "parts":
            return self.parts_of_package()
        made = self.draw_known()
        dynamics = [tuple(Requirement(PACKAGE, p) for p in PACKAGES[:2] if self.wants("dynamic")) for _ in made]
        return [replace(known, requirements=self.requirements(made, known), dynamics=dynamics[at]) for at, known in enumerate(made)]

    # ---- steps

    def row(self):
        """What is known at first, and what is done: `("add", REVISION)`, `("resolve", ID)` or `("anew", ID)`."""
        known = self.known()
        late = 1 + self.below(2) if self.wants("late") else 0
        first, later = known[:len(known) - late], known[len(known) - late:]
        steps = []
        for _ in range(self.up_to("roots")):
            steps += self.resolves(first)
        for revision in later:
            steps.append(("add", revision))
            first = first + [revision]
            if self.chance(40):
                steps += self.resolves(first)
        for _ in range(1 + self.up_to("roots")):
            steps += self.resolves(first)
        return first[:len(known) - late], steps

    def resolves(self, known):
        """Resolves one that is no fragment, mostly; of a chain or of parts often one for which all the rest is there."""
        hosts = [revision.id for revision in known if revision.host is None]
        last = [revision.id for revision in known if revision.name in ("v", "w")]
        root = self.one_of(hosts) if hosts and self.chance(97) else self.below(len(known) + 2)
        root = self.one_of(last) if last and self.chance(50) else root
        return [("anew", root)] * self.chance(25) + [("resolve", root)]


# ---------------------------------------------------------------- rows with budgets and answers

class Row:
    """A row with budgets, the answers to its steps, and the problems that it has."""

    def __init__(self, known, steps):
        self.teller = Teller(MOST)
        self.known = known
        self.drawn = steps
        self.steps = []
        self.answers = []
        self.problems = []  # each a walk and its answer
        self.slow = 0  # problems of which the slow search is asked
        for revision in known:
            self.teller.add(revision)
        for word, what in steps:
            self.add(what) if word == "add" else self.resolve(word, what)
        self.take("wires")

    def add(self, revision):
        self.take(f"add {spelled_revision(revision)}")

    def take(self, step):
        self.steps.append(step)
        answer = self.teller.take(step)
        if answer is not None:
            self.answers.append(answer)

    def resolve(self, word, root):
        """With a budget that is one too small, and with just enough; first by the slow search, if few words come up. A resolve anew
        is asked for by the problem too, whose rows are shown."""
        if self.teller.obstacle(root) is not None:
            return self.take(f"{word} {root}")
        walk, answer = self.teller.walk(root)
        self.problems.append((walk, answer))
        is_slow = not isinstance(answer, Spent) and has_few_words(walk, FEW)
        self.slow += is_slow
        if word == "anew":
            self.take(f"problem {root}")
        for budget in [MOST] if isinstance(answer, Spent) else [walk.effort - 1, walk.effort] if walk.effort > 0 else [0]:
            if is_slow:
                self.take(f"slowly {root} {budget}")
            if word == "anew":
                self.take(f"solve {root} {budget}")
            self.take(f"{word} {root} {budget}")

    def text(self):
        return f"{'; '.join(map(spelled_revision, self.known))} | {'; '.join(self.steps)}"


def rows(seed, count):
    """Rows of all families in turn, so that there are this many problems, or a few more; each with its family."""
    draws = [Draws(seed * 100 + at, family) for at, family in enumerate(FAMILIES)]
    problems = 0
    for drawn in itertools.cycle(draws):
        if problems >= count:
            return
        row = Row(*drawn.row())
        problems += len(row.problems)
        if row.problems:
            yield drawn.family, row


# ---------------------------------------------------------------- what came up

def kind(walk, answer):
    if isinstance(answer, Found):
        return "found"
    if isinstance(answer, Spent):
        return "spent"
    return "clash" if answer.lacking is None else "no candidate"


def features(walk, answer):
    """What a problem and its answer have."""
    space = walk.problem.before
    told = {f"hopeless: {clause}" for clause in walk.reasons}
    told |= {"something in force before"} if len(walk.problem.world.wirings) > 1 else set()
    if walk.effort >= 3:
        told.add("effort of 3 or more")
    if walk.effort >= 20:
        told.add("effort of 20 or more")
    if not isinstance(answer, Found):
        return told
    wires = [wire for wiring in answer.added for wire in wiring.wires]
    told |= {"turned back"} if walk.reasons else set()
    told |= {"several members"} if len(answer.added) > 1 else set()
    told |= {"a fragment attached"} if any(wiring.fragments for wiring in answer.added) else set()
    told |= {"two fragments attached"} if any(len(wiring.fragments) > 1 for wiring in answer.added) else set()
    left = any(walk.problem.matching(wiring.revision) != list(wiring.fragments) for wiring in answer.added)
    told |= {"a fragment left out"} if left else set()
    told |= {"a wire to a fragment's capability"} if any(wire.owner != wire.provider for wire in wires) else set()
    told |= {"a wire to a provider in force"} if any(wire.provider in walk.problem.in_force for wire in wires) else set()
    own = any(wire.provider == wiring.revision for wiring in answer.added for wire in wiring.wires)
    told |= {"a wire to itself"} if own else set()
    told |= {"a bundle wire"} if any(space.capability(wire.owner, wire.given).namespace == BUNDLE for wire in wires) else set()
    told |= {"a reexport"} if any(space.is_reexport(wire.asker, wire.asked) for wire in wires) else set()
    told |= {"a requirement with several wires"} if len({(wire.asker, wire.asked) for wire in wires}) < len(wires) else set()
    told |= {"a singleton"} if any(space.is_singleton(wiring.revision) for wiring in answer.added) else set()
    exported = {(wiring.revision, given.name) for wiring in answer.added for owner in (wiring.revision, *wiring.fragments)
                for given in space.capabilities(owner) if given.namespace == PACKAGE}
    substituted = any((wiring.revision, space.capability(wire.owner, wire.given).name) in exported and wire.provider != wiring.revision
                      for wiring in answer.added for wire in wiring.wires)
    told |= {"a substituted export"} if substituted else set()
    for wiring in answer.added:
        for place in space.payload_requirements(wiring.revision, wiring.fragments):
            got = {(wire.asker, wire.asked) for wire in wiring.wires}
            if place not in got and space.is_effective(*place) and walk.problem.candidates(place):
                told.add("an optional requirement left without a wire")
    return told


def stats(seed, count):
    answers, had = Counter(), Counter()
    total = 0
    for family, row in rows(seed, count):
        for walk, answer in row.problems:
            total += 1
            answers[f"{kind(walk, answer)}"] += 1
            answers[f"{family}: {kind(walk, answer)}"] += 1
            had.update(features(walk, answer))
    for what, often in [*sorted(answers.items()), *sorted(had.items())]:
        print(f"{often:7} {100 * often / total:5.1f} %  {what}")
    return 0


# ---------------------------------------------------------------- comparing

def ask(program, asked):
    """What the program prints for rows, a line each; nothing for those that it did not come to."""
    ran = subprocess.run([program], input="".join(f"{row.text()}\n" for row in asked), stdout=subprocess.PIPE, universal_newlines=True)
    told = ran.stdout.splitlines()
    return told + [""] * (len(asked) - len(told))


def difference(row, told):
    """The first answer of the model, and of the program, that the other does not give; None where there is none."""
    answers = told.split(" => ")[-1].split("; ")
    pairs = zip(row.answers + [""] * len(answers), answers + [""] * len(row.answers))
    return next(((model, program) for model, program in pairs if model != program), None)


def without_revision(known, steps, r):
    def renumbered(revision):
        return replace(revision, id=revision.id - (revision.id > r))

    kept = [(word, renumbered(what) if word == "add" else what - (what > r))
            for word, what in steps if (what.id if word == "add" else what) != r]
    return [renumbered(revision) for revision in known if revision.id != r], kept


def with_revision(known, steps, changed):
    """What is left where a revision is another one."""
    return ([changed if revision.id == changed.id else revision for revision in known],
            [(word, changed if word == "add" and what.id == changed.id else what) for word, what in steps])


def smaller(known, steps):
    """Rows that are smaller by a step, a revision, or a part of one."""
    revisions = known + [what for word, what in steps if word == "add"]
    for revision in revisions:
        yield without_revision(known, steps, revision.id)
    for at, (word, _) in enumerate(steps):
        if word != "add":
            yield known, steps[:at] + steps[at + 1:]
    for revision in revisions:
        for part in ("capabilities", "requirements", "dynamics"):
            items = getattr(revision, part)
            for at in range(len(items)):
                yield with_revision(known, steps, replace(revision, **{part: items[:at] + items[at + 1:]}))
        for at, given in enumerate(revision.capabilities):
            if given.uses:
                less = revision.capabilities[:at] + (replace(given, uses=()),) + revision.capabilities[at + 1:]
                yield with_revision(known, steps, replace(revision, capabilities=less))


def smallest(program, row):
    """A row that the program answers in another way than the model, while it does so for none that is smaller by one thing."""
    for known, steps in smaller(row.known, row.drawn):
        other = Row(known, steps)
        if difference(other, ask(program, [other])[0]) is not None:
            return smallest(program, other)
    return row


def compare(program, seed, count, shown=3):
    """Asks the program in batches, and prints the first rows that it answers in another way, made as small as they can be."""
    drawn = rows(seed, count)
    problems = slow = wrong = 0
    while True:
        batch = [row for _, row in itertools.islice(drawn, BATCH)]
        if not batch:
            return 1 if wrong else 0
        for row, told in zip(batch, ask(program, batch)):
            problems += len(row.problems)
            slow += row.slow
            if difference(row, told) is not None:
                wrong += 1
                if wrong <= shown:
                    least = smallest(program, row)
                    model, other = difference(least, ask(program, [least])[0])
                    print(f"{least.text()}\n  model:   {model}\n  program: {other}", flush=True)
        print(f"{problems} problems, {slow} of them by the slow search too; {wrong} rows have another answer", flush=True)


def check_laws(seed, count):
    """Whether the two laws hold that the model's walk takes for granted, of the first words of each problem."""
    broken = 0
    for _, row in rows(seed, count):
        for walk, _ in row.problems:
            for word in broken_laws(walk.problem, 300):
                broken += 1
                print(f"{row.text()}\n  root {walk.problem.root}: {word}")
    return 1 if broken else 0


def main(seed, count, *rest):
    if rest == ("--stats",):
        return stats(int(seed), int(count))
    if rest == ("--laws",):
        return check_laws(int(seed), int(count))
    if rest:
        return compare(rest[0], int(seed), int(count))
    for _, row in rows(int(seed), int(count)):
        print(row.text())
    return 0


if __name__ == "__main__":
    sys.exit(main(*sys.argv[1:]))
