"""A plain, slow model of the resolver: the words of the search tree, which of them are hopeless and which are good, and what a
resolve answers. What class spaces hold is asked of their model (`space_model.py`).

It follows the definitions of osgi_world and osgi_resolver (`Candidates`, `Decisions`, `DueDecisions`, `Partial`, `ChoiceWords`,
`Hopeless`, `Effort`, `Answers`) sentence by sentence, and walks the words in the order of the tree. A world is that of
`space_model.py`, with known revisions by rising id, of which a bundle has one current at most; what is in force in it has to be
consistent. A place is a pair, the owner and the index of a requirement, or a triple, the provider, owner and index of a
capability. A decision is one of `("attaching", host, fragment)`, `("choose", host, place)` and `("pick", host, place,
capability)`.
"""
from dataclasses import dataclass, replace

from space_model import BUNDLE, PACKAGE, Capability, Revision, Space, Wire, Wiring, World, has_two, is_within, kept, parts

# The revision of the framework, and its wiring.
SYSTEM = Revision(0, 0, "system.bundle", version=1, attach=False, capabilities=(
    Capability(BUNDLE, "system.bundle"), Capability(PACKAGE, "org.osgi.framework", version="1.10"),
    Capability("osgi.ee", "osgi.ee", version=("1.8", "11", "17"), attributes=(("osgi.ee", "JavaSE"),))))
FIRST = World((SYSTEM,), (Wiring(0),))


# ---------------------------------------------------------------- what satisfies a requirement

def attributes(capability):
    """The values by their names: texts, a version in three parts, or a list of such."""
    values = dict(capability.attributes)
    if isinstance(capability.version, tuple):
        values["version"] = [parts(version) for version in capability.version]
    elif capability.version is not None:
        values["version"] = parts(capability.version)
    return values


def version_in(capability):
    """The attribute `version` where it is a version, else 0.0.0."""
    value = attributes(capability).get("version")
    return value if isinstance(value, tuple) else (0, 0, 0)


def cut_filters(text):
    """The filters of a list of them, each in its brackets."""
    found, depth, start = [], 0, 0
    for at, letter in enumerate(text):
        depth += {"(": 1, ")": -1}.get(letter, 0)
        if depth == 0:
            found.append(text[start:at + 1])
            start = at + 1
    return found


def compares(operator, value, text):
    """Whether a value, or one of a list, is as a comparison asks. Texts are asked for equality alone."""
    if isinstance(value, list):
        return any(compares(operator, one, text) for one in value)
    if isinstance(value, str):
        return operator == "=" and value == text
    return {"=": value == parts(text), ">=": value >= parts(text), "<=": value <= parts(text)}[operator]


def matches(text, values):
    """Whether a filter of `&`, `|`, `!`, `=`, `>=` and `<=` matches attributes."""
    inner = text[1:-1]
    if inner[0] in "&|!":
        parts_match = [matches(part, values) for part in cut_filters(inner[1:])]
        return all(parts_match) if inner[0] == "&" else any(parts_match) if inner[0] == "|" else not parts_match[0]
    name, _, asked = inner.partition("=")
    operator = name[-1] + "=" if name[-1] in "<>" else "="
    name = name.rstrip("<>")
    return name in values and compares(operator, values[name], asked)


def is_given(asked, name):
    """The import gives an attribute of this name."""
    if name == "version":
        return asked.range != "0"
    if name == "bundle-version":
        return asked.from_range != "0"
    if name == "bundle-symbolic-name":
        return asked.from_name is not None
    return name in dict(asked.equal)


def satisfies_import(asked, capability, provider):
    return (is_within(asked.range, ".".join(map(str, version_in(capability))))
            and (asked.from_name is None or asked.from_name == provider.name)
            and is_within(asked.from_range, provider.version)
            and all(attributes(capability).get(name) == value for name, value in asked.equal)
            and all(is_given(asked, name) for name in capability.mandatory))


def satisfies(asked, capability, provider):
    """The capability, which the revision provides, satisfies the requirement."""
    if (asked.namespace, asked.name) != (capability.namespace, capability.name):
        return False
    if asked.namespace == BUNDLE:
        return is_within(asked.range, provider.version)
    if asked.namespace == PACKAGE:
        return satisfies_import(asked, capability, provider)
    return asked.filter == "" or matches(asked.filter, attributes(capability))


def stands_for(name, package):
    """The name in `DynamicImport-Package` stands for the package."""
    return name in ("*", package) or name.endswith(".*") and package.startswith(name[:-1])


# ---------------------------------------------------------------- problems

class Problem:
    """A root to resolve in a world, with the candidates of each requirement."""

    def __init__(self, world, root):
        self.world = world
        self.root = root
        self.before = Space(world)
        self.in_force = self.before.in_force()

    # ---- look-ups

    def is_fragment(self, r):
        return self.before.known(r) is not None and self.before.known(r).host is not None

    def bundle(self, r):
        return self.before.known(r).bundle if self.before.known(r) is not None else 0

    @kept
    def namespace(self, place):
        asked = self.before.requirement(*place)
        return asked.namespace if asked is not None else ""

    @kept
    def is_multiple(self, place):
        return self.before.is_multiple(*place)

    @kept
    def is_needed(self, place):
        """Effective and mandatory."""
        return self.before.is_effective(*place) and not self.before.is_optional(*place)

    def satisfies_at(self, place, given):
        """The capability at its place satisfies the requirement at its own. A dynamic import is asked for the package, if its
        name stands for it."""
        provider, owner, index = given
        asked, capability, known = self.before.requirement(*place), self.before.capability(owner, index), self.before.known(provider)
        if asked is None or capability is None or known is None:
            return False
        if self.before.is_dynamic(*place):
            return stands_for(asked.name, capability.name) and satisfies(replace(asked, name=capability.name), capability, known)
        return satisfies(asked, capability, known)

    # ---- candidates

    @kept
    def matching(self, h):
        """The current fragments that match the host, by bundle id."""
        fragments = [known for known in self.world.known if known.current and known.host is not None]
        by_bundle = sorted(fragments, key=lambda known: known.bundle)
        return [known.id for known in by_bundle if self.before.is_host_of(known.id, h)]

    def stands(self, given):
        """A provider in force has the capability on offer; of another it is its own, or that of a matching current fragment."""
        provider, owner, index = given
        if provider in self.in_force:
            return self.before.is_on_offer(provider, owner, index)
        return owner == provider or owner in self.matching(provider)

    def not_owner(self, place, given):
        """The provider of a bundle is not the owner of the requirement."""
        provider, owner, index = given
        return self.before.capability(owner, index).namespace != BUNDLE or provider != place[0]

    @kept
    def offered(self):
        """What may be a candidate, if it satisfies what is asked: capabilities of current providers that are no fragments."""
        places = [(provider.id, owner.id, index) for provider in self.world.known for owner in self.world.known
                  for index in range(len(owner.capabilities)) if provider.current and provider.host is None]
        return [given for given in places if self.stands(given)]

    def preference_version(self, given):
        """The version by which a capability is preferred: a bundle's is its provider's."""
        provider, owner, index = given
        capability = self.before.capability(owner, index)
        return parts(self.before.known(provider).version) if capability.namespace == BUNDLE else version_in(capability)

    def is_preferred(self, c, d):
        """In force; else the higher version; else the lower bundle id of the provider, id of the owner, place."""
        if (c[0] in self.in_force) != (d[0] in self.in_force):
            return c[0] in self.in_force
        if self.preference_version(c) != self.preference_version(d):
            return self.preference_version(c) > self.preference_version(d)
        if c[0] != d[0]:
            return self.bundle(c[0]) < self.bundle(d[0])
        if c[1] != d[1]:
            return c[1] < d[1]
        return c[2] < d[2]

    @kept
    def candidates(self, place):
        """The candidates of a requirement, the preferred first."""
        found = [given for given in self.offered() if self.not_owner(place, given) and self.satisfies_at(place, given)]
        return sorted(found, key=lambda c: sum(self.is_preferred(d, c) for d in found))

    # ---- what is asked

    def is_unresolved(self, r):
        return self.before.is_current(r) and not self.is_fragment(r) and r not in self.in_force

    def first_lacking(self):
        """The first mandatory effective requirement of the root itself that has no candidate, or None."""
        places = [(self.root, index) for index in range(self.before.requirement_count(self.root))]
        return next((place for place in places if self.is_needed(place) and self.candidates(place) == []), None)

    @kept
    def values(self, decision):
        """What each value of a decision adds: the fragment, or the capability of a wire; nothing where it is None."""
        if decision[0] == "choose":
            given = self.candidates(decision[2])
            return given + [None] if self.before.is_optional(*decision[2]) else given
        return [decision[-1], None]


# ---------------------------------------------------------------- what is decided

class Decided:
    """What the decisions that are made say: pairs of a decision and its value, in the order in which they were made."""

    def __init__(self, problem, made):
        self.problem = problem
        self.made = made
        self.value = dict(made)
        self.members = self.pulled_in()

    def is_yes(self, decision):
        return self.value.get(decision) == 0

    # ---- members and payloads

    def pulled_in(self):
        """The root, then the revisions that were pulled in, in order."""
        members = [self.problem.root]
        for decision, value in self.made:
            given = self.problem.values(decision)[value]
            if decision[0] != "attaching" and given is not None:
                if given[0] not in self.problem.in_force and given[0] not in members:
                    members.append(given[0])
        return members

    @kept
    def fragments(self, h):
        """The fragments that are attached to the host, by bundle id."""
        return tuple(f for f in self.problem.matching(h) if self.is_yes(("attaching", h, f)))

    @kept
    def payload(self, h):
        """The places of the requirements of the host and of its fragments, as far as decided."""
        return self.problem.before.payload_requirements(h, self.fragments(h))

    # ---- the queue

    def in_turn(self, places):
        """The effective ones: bundle requirements, then imports, then others."""
        effective = [place for place in places if self.problem.before.is_effective(*place)]
        bundles = [place for place in effective if self.problem.namespace(place) == BUNDLE]
        imports = [place for place in effective if self.problem.namespace(place) == PACKAGE]
        return bundles + imports + [place for place in effective if self.problem.namespace(place) not in (BUNDLE, PACKAGE)]

    def decisions_of(self, h, place):
        """One decision, or, where the requirement may have several wires, one for each candidate."""
        if self.problem.is_multiple(place):
            return [("pick", h, place, given) for given in self.problem.candidates(place)]
        return [("choose", h, place)]

    @kept
    def due(self, h):
        """The attachments of a host, and when these are made, the decisions of its payload's requirements."""
        attachments = [("attaching", h, f) for f in self.problem.matching(h)]
        if any(decision not in self.value for decision in attachments):
            return attachments
        return attachments + [decision for place in self.in_turn(self.payload(h)) for decision in self.decisions_of(h, place)]

    @kept
    def next(self):
        """The first decision of the queue that is not made, or None."""
        queue = [decision for m in self.members for decision in self.due(m)]
        return next((decision for decision in queue if decision not in self.value), None)

    # ---- wirings

    def chosen_for(self, h, place):
        """The capabilities that a requirement of the host's payload has, in the order of its candidates."""
        given = self.problem.candidates(place)
        if self.problem.is_multiple(place):
            return [c for c in given if self.is_yes(("pick", h, place, c))]
        value = self.value.get(("choose", h, place))
        return [given[value]] if value is not None and value < len(given) else []

    def wiring(self, m):
        wires = tuple(Wire(*place, *given) for place in self.payload(m) for given in self.chosen_for(m, place))
        return Wiring(m, wires, self.fragments(m))

    def added(self):
        """What the members add, as far as decided."""
        return tuple(self.wiring(m) for m in self.members)

    def partial(self):
        """The world with what is added."""
        return World(self.problem.world.known, self.problem.world.wirings + self.added())


# ---------------------------------------------------------------- words

class Hope:
    """Whether what is decided is hopeless, and whether it is good."""

    def __init__(self, decided):
        self.decided = decided
        self.problem = decided.problem
        self.world = decided.partial()
        self.space = Space(self.world)

    # ---- settled revisions

    def is_spatial(self, decision):
        """An attachment, or a decision of a bundle requirement or an import."""
        return decision[0] == "attaching" or self.problem.namespace(decision[2]) in (BUNDLE, PACKAGE)

    @kept
    def is_decided(self, c):
        """In force already, or a member whose attachments, bundle requirements and imports are decided."""
        if c in self.problem.in_force:
            return True
        return c in self.decided.members and all(
            decision in self.decided.value for decision in self.decided.due(c) if self.is_spatial(decision))

    def reached_from(self, r):
        """What is reached along a bundle wire, and after it along those with reexport."""
        reached = self.space.bundle_wires(r)
        while True:
            more = {d for c in reached for d in self.space.reexports(c)}
            if more <= reached:
                return reached
            reached = reached | more

    @kept
    def is_settled(self, r):
        return self.is_decided(r) and all(self.is_decided(c) for c in self.reached_from(r))

    # ---- hopeless

    def payloads(self):
        """The places of all requirements of the members' payloads, each with its member."""
        return [(m, place) for m in self.decided.members for place in self.decided.payload(m)]

    def no_candidate(self):
        """A mandatory effective requirement of a member's payload has no candidate."""
        return any(self.problem.is_needed(place) and self.problem.candidates(place) == [] for _, place in self.payloads())

    def all_refused(self):
        """All decisions of a mandatory effective requirement that may have several wires are made, and each is no."""
        return any(self.problem.is_needed(place) and self.problem.is_multiple(place)
                   and all(self.decided.value.get(("pick", m, place, c)) == 1 for c in self.problem.candidates(place))
                   for m, place in self.payloads())

    def two_providers(self):
        """One revision has two providers of one package."""
        return any(len(self.space.providers(r, p)) > 1 for r in self.space.in_force() for p, _ in self.space.package_wires(r))

    def two_versions(self):
        """One host has two fragments of one symbolic name."""
        return any(has_two(lambda e, f: self.space.name(e) == self.space.name(f), wiring.fragments) for wiring in self.world.wirings)

    def are_rivals(self, r, s):
        return (r != s and self.space.name(r) == self.space.name(s) and self.space.is_current(r) and self.space.is_current(s)
                and self.space.is_singleton(r) and self.space.is_singleton(s))

    def two_singletons(self):
        """Two current singletons of one symbolic name are in force or attached."""
        return any(self.are_rivals(r, s) for r in self.space.in_use() for s in self.space.in_use())

    def not_offered(self):
        """The provider of a member's wire is settled, and does not have the capability on offer."""
        wires = [wire for m in self.decided.members for wire in self.space.wires(m)]
        return any(self.is_settled(wire.provider) and not self.space.is_on_offer(wire.provider, wire.owner, wire.given) for wire in wires)

    def clashes(self):
        """An implied constraint that comes from settled revisions alone clashes."""
        settled = {r for r in self.space.in_force() if self.is_settled(r)}
        return any(self.space.is_clash(r, e, u) for r in settled for e, u in self.space.implied(r, settled))

    CLAUSES = (no_candidate, all_refused, two_providers, two_versions, two_singletons, not_offered, clashes)

    def reasons(self):
        """What makes it hopeless: the names of clauses; it is not hopeless where there is none."""
        return {clause.__name__ for clause in self.CLAUSES if clause(self)}

    # ---- good

    def is_world(self):
        """A wiring is of a known revision that is no fragment, and of no other revision that has one."""
        wired = [wiring.revision for wiring in self.world.wirings]
        return (len(set(wired)) == len(wired) and all(self.space.known(r) is not None for r in wired)
                and not any(self.problem.is_fragment(r) for r in wired))

    def may_join(self, wiring):
        """The wiring of a current revision, with current fragments, wires to current providers, and none of a dynamic import."""
        return (self.space.is_current(wiring.revision) and all(self.space.is_current(f) for f in wiring.fragments)
                and all(self.space.is_current(wire.provider) and not self.space.is_dynamic(wire.asker, wire.asked) for wire in wiring.wires))

    def is_consistent(self):
        satisfied = all(self.problem.satisfies_at((wire.asker, wire.asked), (wire.provider, wire.owner, wire.given))
                        for _, wire in self.space.all_wires())
        return satisfied and self.space.is_consistent()

    def extends(self):
        """The wirings have those before unchanged, and more that may be added, with the root in force; and are consistent."""
        before = self.problem.world.wirings
        return (self.is_world() and all(wiring in self.world.wirings for wiring in before)
                and all(wiring in before or self.may_join(wiring) for wiring in self.world.wirings)
                and self.problem.root in self.space.in_force() and self.is_consistent())

    def is_good(self):
        return self.decided.next() is None and self.extends()


# ---------------------------------------------------------------- answers

@dataclass(frozen=True)
class Found:
    """The first good word, and the wirings that it adds."""
    word: tuple
    added: tuple


@dataclass(frozen=True)
class NoWord:
    """The place of the requirement that has no candidate, or None for a clash."""
    lacking: object


@dataclass(frozen=True)
class Spent:
    """How many words were visited."""
    visited: int


class Walk:
    """The words of a problem in the order of the tree, up to the first good one, and how many of them are not hopeless."""

    def __init__(self, problem, budget):
        self.problem = problem
        self.budget = budget
        self.effort = 0
        self.found = None
        self.reasons = set()  # what made words hopeless

    def is_over(self):
        return self.found is not None or self.effort > self.budget

    def visit(self, word=(), made=()):
        """The word, and then what follows it. Below a hopeless word all are hopeless and none is good, so nothing is looked at."""
        decided = Decided(self.problem, made)
        hope = Hope(decided)
        reasons = hope.reasons()
        self.reasons |= reasons
        if hope.is_good():
            self.found = Found(word, decided.added())
        elif not reasons:
            self.effort += 1
            decision = decided.next()
            for value in range(len(self.problem.values(decision)) if decision is not None else 0):
                if not self.is_over():
                    self.visit(word + (value,), made + ((decision, value),))

    def answer(self):
        """What a resolve with the budget answers."""
        self.visit()
        if self.effort > self.budget:
            return Spent(self.budget + 1)
        return self.found if self.found is not None else NoWord(self.problem.first_lacking())


def has_few_words(walk, most):
    """At most so many words come up to the first good one, or where there is none are all words; those that are hopeless are among
    them."""
    found = walk.found.word if walk.found is not None else None
    left = [((), ())]
    while left:
        most -= 1
        word, made = left.pop()
        if word == found or most < 0:
            return most >= 0
        decision = Decided(walk.problem, made).next()
        for value in reversed(range(len(walk.problem.values(decision)) if decision is not None else 0)):
            left.append((word + (value,), made + ((decision, value),)))
    return True


def extended(world, added):
    return World(world.known, world.wirings + added)


# ---------------------------------------------------------------- two laws of the tree

def broken_laws(problem, most):
    """Of the first so many words, those below hopeless ones among them: the words that break what `Walk` takes for granted, that
    what follows a hopeless word is hopeless, and that a complete word is good exactly if it is not hopeless."""
    broken, left = [], [((), (), False)]
    while left and most > 0:
        most -= 1
        word, made, below = left.pop()
        decided = Decided(problem, made)
        hope = Hope(decided)
        is_hopeless, decision = bool(hope.reasons()), decided.next()
        if below and not is_hopeless or decision is None and hope.extends() == is_hopeless:
            broken.append(word)
        for value in reversed(range(len(problem.values(decision)) if decision is not None else 0)):
            left.append((word + (value,), made + ((decision, value),), is_hopeless))
    return broken
