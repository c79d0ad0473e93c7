"""Random small worlds, and random steps on them, with the answers of the plain model.

A world is made as a resolver might leave it: fragments are attached to hosts that they match, and requirements are wired to
what is on offer. Then a change or two may break it. Of the worlds that come so, a given number is taken of each kind: those
that are consistent, those that break one clause of consistency and no other, for each clause, and those that break several.
"""
from dataclasses import replace

from registry_rows import Random
from space_model import BUNDLE, PACKAGE, Capability, Host, Requirement, Revision, Space, Wire, Wiring, World, with_fragment, with_wire
from space_rows import answer_row, spelled_row, spelled_wire

PACKAGES = ["p", "q", "r", "p.a", "Z"]
NAMES = ["a", "b", "c", "d"]
OTHERS = ["x", "y"]
RANGES = ["0", "0", "0", "1", "[0,1)", "[0,1]", "(0,2]", "[1,3)"]


class Makers(Random):
    """Random parts of worlds."""

    def chance(self, percent):
        return self.below(100) < percent

    def some(self, items, percent):
        return [item for item in items if self.chance(percent)]

    # ---- revisions

    def capabilities(self, name, packages, likely_bundle):
        made = [Capability(BUNDLE, name)] if self.chance(likely_bundle) else []
        for _ in range(self.one_of([0, 1, 1, 2, 2, 3])):
            made.append(Capability(PACKAGE, self.one_of(packages), tuple(self.some(packages, 35))))
        if self.chance(25):
            made.append(Capability(PACKAGE, made[-1].name, tuple(self.some(packages, 35))) if made and made[-1].namespace == PACKAGE
                        else Capability(self.one_of(OTHERS), self.one_of(packages), ()))
        made += [Capability(other, other) for other in self.some(OTHERS, 25)]
        return tuple(made)

    def flags(self):
        return {"optional": self.chance(25), "multiple": self.chance(12), "reexport": self.chance(3), "effective": not self.chance(6)}

    def requirements(self, names, packages):
        made = []
        for _ in range(self.one_of([0, 0, 1, 1, 2])):
            made.append(Requirement(BUNDLE, self.one_of(names), **{**self.flags(), "reexport": self.chance(55)}))
        for _ in range(self.one_of([0, 0, 1, 1, 2, 3])):
            made.append(Requirement(PACKAGE, self.one_of(packages), **self.flags()))
        made += [Requirement(other, other, **self.flags()) for other in self.some(OTHERS, 15)]
        return tuple(made)

    def revision(self, number, bundle, name, current, names, packages):
        is_fragment = self.chance(22)
        return Revision(
            number, bundle, name, current=current, version=self.below(3), singleton=self.chance(20), attach=not self.chance(5),
            host=Host(self.one_of(names), self.one_of(RANGES)) if is_fragment else None,
            capabilities=self.capabilities(name, packages, 0 if is_fragment else 90),
            requirements=self.requirements(names, packages),
            dynamics=tuple(Requirement(PACKAGE, p) for p in self.some(packages, 8)))

    def known(self):
        """Revisions with rising ids, of bundles of which one revision is current, or none."""
        names, packages = NAMES[:2 + self.below(3)], PACKAGES[:2 + self.below(4)]
        bundles = 1 + self.below(6)
        made = []
        of = [1 + self.below(bundles) for _ in range(1 + self.below(7))]
        for at, bundle in enumerate(of):
            is_last = bundle not in of[at + 1:]
            name = names[bundle % len(names)] if self.chance(70) else self.one_of(names)
            made.append(self.revision(at + 1, bundle, name, is_last and not self.chance(8), names, packages))
        return tuple(made)

    def met(self, known):
        """The revisions without most of the mandatory requirements that nothing could meet."""
        given = {(capability.namespace, capability.name, r.id) for r in known for capability in r.capabilities}

        def is_met(r, asked):
            return any((asked.namespace, asked.name) == (namespace, name) and (namespace != BUNDLE or owner != r.id)
                       for namespace, name, owner in given)

        return tuple(replace(r, requirements=tuple(asked for asked in r.requirements if asked.optional or is_met(r, asked) or self.chance(4)))
                     for r in known)

    # ---- wirings

    def attachments(self, known):
        """Fragments of each revision in force, as a resolver would attach them, mostly."""
        space = Space(World(known))
        in_force = [r.id for r in known if r.host is None and self.chance(90)]
        fragments = {r: [] for r in in_force}
        for host in in_force:
            for fragment in known:
                there = {space.name(other) for other in fragments[host]}
                if space.is_host_of(fragment.id, host) and fragment.name not in there and self.chance(85):
                    fragments[host].append(fragment.id)
        return fragments

    def offers(self, space, asked, asker):
        """The capabilities of revisions in force that have the namespace and the name that are asked for."""
        return [(provider, owner, index) for provider in sorted(space.in_force()) for owner in sorted(space.owners(provider))
                for index, given in enumerate(space.capabilities(owner))
                if (given.namespace, given.name) == (asked.namespace, asked.name) and not (asked.namespace == BUNDLE and provider == asker)]

    def wires_for(self, space, owner, index):
        """Wires for a requirement, or for a dynamic import."""
        asked = space.requirement(owner, index)
        offers = self.offers(space, asked, owner)
        wanted = self.chance(30 if space.is_dynamic(owner, index) else 65 if asked.optional else 98)
        if not offers or not asked.effective or not wanted:
            return []
        chosen = [self.one_of(offers)]
        if space.is_multiple(owner, index):
            chosen += [offer for offer in self.some(offers, 40) if offer not in chosen]
        return [Wire(owner, index, *offer) for offer in chosen]

    def world(self):
        """A world as a resolver might leave it, or nearly so: providers that came to import what they export may be left."""
        known = self.met(self.known())
        fragments = self.attachments(known)
        world = World(known, tuple(Wiring(r, (), tuple(fragments[r])) for r in fragments))
        space = Space(world)
        for r in fragments:
            for owner in [r] + fragments[r]:
                count = space.requirement_count(owner)
                places = list(range(count)) + (list(range(count, count + len(space.known(r).dynamics))) if owner == r else [])
                for index in places:
                    for wire in self.wires_for(Space(world), owner, index):
                        world = with_wire(world, r, wire)
        return self.settled(world)

    def settled(self, world):
        """The world with wires to exports that are not on offer moved to those that are, a few times over."""
        for _ in range(3):
            space = Space(world)
            wirings = []
            for wiring in world.wirings:
                wires = []
                for wire in wiring.wires:
                    if not space.is_on_offer(wire.provider, wire.owner, wire.given):
                        asked = space.requirement(wire.asker, wire.asked)
                        offers = [offer for offer in self.offers(space, asked, wire.asker) if space.is_on_offer(*offer)]
                        if not offers:
                            continue
                        wire = Wire(wire.asker, wire.asked, *self.one_of(offers))
                    wires.append(wire)
                wirings.append(replace(wiring, wires=tuple(wires)))
            world = replace(world, wirings=tuple(wirings))
        return world

    # ---- changes that may break a world

    def any_wire(self, world):
        ids = [known.id for known in world.known] + [9] * self.chance(10)
        provider = self.one_of(ids)
        owner = self.one_of(ids) if self.chance(15) else provider
        return Wire(self.one_of(ids), self.below(4), provider, owner, self.below(4))

    def changed_wires(self, world, wiring):
        wires = list(wiring.wires)
        at = self.below(len(wires)) if wires else 0
        kind = self.below(7)
        if kind == 0 or not wires:
            wires.insert(at, self.any_wire(world))
        elif kind == 1:
            del wires[at]
        elif kind == 2:
            wires.append(wires[at])
        elif kind == 3:
            other = self.any_wire(world)
            wires[at] = replace(wires[at], provider=other.provider, owner=other.owner, given=other.given)
        elif kind == 4:
            other = self.one_of(wires)
            wires[at] = replace(wires[at], provider=other.provider, owner=other.owner, given=other.given)
        elif kind == 5:
            space = Space(world)
            asked = space.requirement(wires[at].asker, wires[at].asked)
            offers = self.offers(space, asked, 0) if asked is not None else []
            wires.append(Wire(wires[at].asker, wires[at].asked, *self.one_of(offers))) if offers else wires.pop()
        else:
            wires[at] = replace(wires[at], asked=self.below(5))
        return replace(wiring, wires=tuple(wires))

    def changed_fragments(self, world, wiring):
        fragments = list(wiring.fragments)
        if fragments and self.chance(50):
            fragments.pop(self.below(len(fragments)))
        else:
            fragments.append(self.one_of([known.id for known in world.known]))
        return replace(wiring, fragments=tuple(fragments))

    def changed_known(self, known):
        kind = self.below(5)
        if kind == 0:
            return replace(known, current=not known.current)
        if kind == 1:
            return replace(known, singleton=not known.singleton)
        if kind == 2:
            return replace(known, attach=not known.attach)
        if kind == 3 and known.host is not None:
            return replace(known, host=replace(known.host, range=self.one_of(RANGES)))
        if known.requirements:
            at = self.below(len(known.requirements))
            word = self.one_of(["optional", "multiple", "reexport", "effective"])
            asked = replace(known.requirements[at], **{word: not getattr(known.requirements[at], word)})
            return replace(known, requirements=known.requirements[:at] + (asked,) + known.requirements[at + 1:])
        return known

    def changed(self, world):
        """The world with one change, of its wirings mostly."""
        wirings, known = list(world.wirings), list(world.known)
        kind = self.below(12)
        at = self.below(len(wirings)) if wirings else 0
        if kind < 2 or not wirings:
            which = self.below(len(known))
            known[which] = self.changed_known(known[which])
        elif kind < 7:
            wirings[at] = self.changed_wires(world, wirings[at])
        elif kind < 10:
            wirings[at] = self.changed_fragments(world, wirings[at])
        elif kind == 10:
            del wirings[at]
        else:
            wirings.append(Wiring(self.one_of([known.id for known in world.known])))
        return World(tuple(known), tuple(wirings))

    # ---- changes that break one clause, mostly

    def with_known(self, world, r, **fields):
        return World(tuple(replace(known, **fields) if known.id == r else known for known in world.known), world.wirings)

    def with_flag(self, world, wire, word, value):
        """The world with another flag of the requirement that the wire is for."""
        known = Space(world).known(wire.asker)
        asked = list(known.requirements)
        if wire.asked < len(asked):
            asked[wire.asked] = replace(asked[wire.asked], **{word: value})
        return self.with_known(world, known.id, requirements=tuple(asked))

    def without_wire(self, world, wire):
        return World(world.known, tuple(replace(wiring, wires=tuple(other for other in wiring.wires if other != wire)) for wiring in world.wirings))

    def with_other_end(self, world, wire, end):
        """The world with the wire going to another provider, owner and place."""
        other = Wire(wire.asker, wire.asked, *end)
        return World(world.known, tuple(replace(wiring, wires=tuple(other if each == wire else each for each in wiring.wires)) for wiring in world.wirings))

    def broken_not_owner(self, world, wire):
        places = [at for at, given in enumerate(Space(world).capabilities(wire.asker)) if given.namespace == BUNDLE]
        return self.with_other_end(world, wire, (wire.asker, wire.asker, places[0])) if places else world

    def broken_offered(self, world, wire):
        if self.chance(40):
            return self.with_other_end(world, wire, (wire.provider, wire.provider, self.below(6)))
        fragments = tuple(fragment for wiring in world.wirings for fragment in wiring.fragments)
        gone = self.one_of(fragments) if fragments else 0
        return World(world.known, tuple(replace(wiring, fragments=tuple(f for f in wiring.fragments if f != gone)) for wiring in world.wirings))

    def broken_one_version(self, world):
        wiring = self.one_of(world.wirings)
        if not wiring.fragments:
            return world
        fragment = self.one_of(wiring.fragments)
        if len(wiring.fragments) > 1 and self.chance(80):
            return self.with_known(world, fragment, name=Space(world).name(self.one_of(wiring.fragments)))
        return with_fragment(world, wiring.revision, fragment)

    def broken_singletons(self, world):
        there = sorted(Space(world).in_use())
        first, second = self.one_of(there), self.one_of(there)
        name = Space(world).name(first)
        for r in (first, second):
            world = self.with_known(world, r, singleton=True, current=True, name=name)
        return world

    def broken(self, world, clause):
        """The world with a change that may well break this clause."""
        wire = self.one_of([wire for wiring in world.wirings for wire in wiring.wires])
        wiring = self.one_of(world.wirings)
        if clause == "asked":
            return self.with_flag(world, wire, "effective", False) if self.chance(60) else self.changed(world)
        if clause == "mandatory":
            return self.without_wire(world, wire) if self.chance(70) else self.with_flag(self.without_wire(world, wire), wire, "optional", False)
        if clause == "provided":
            return World(world.known, tuple(wiring for wiring in world.wirings if wiring.revision != wire.provider))
        if clause == "offered":
            return self.broken_offered(world, wire)
        if clause == "not_owner":
            return self.broken_not_owner(world, wire)
        if clause == "attached" and wiring.fragments and self.chance(70):
            fragment = Space(world).known(self.one_of(wiring.fragments))
            return self.with_known(world, fragment.id, host=Host(fragment.host.name, self.one_of(RANGES)))
        if clause == "one_version":
            return self.broken_one_version(world)
        if clause == "singletons":
            return self.broken_singletons(world)
        return self.changed(world)

    # ---- worlds that are not well made

    def malformed(self, world):
        """The world with two wirings of a revision, an id that is known twice, or ids that are not known."""
        kind = self.below(4)
        if kind == 0 and world.wirings:
            wiring = self.one_of(world.wirings)
            cut = self.below(len(wiring.wires) + 1)
            halves = (replace(wiring, wires=wiring.wires[:cut]), Wiring(wiring.revision, wiring.wires[cut:]))
            rest = tuple(other for other in world.wirings if other != wiring)
            return World(world.known, (halves[0], *rest, halves[1]))
        if kind == 1:
            twin = replace(self.one_of(world.known), id=self.one_of(world.known).id)
            return World((*world.known, twin) if self.chance(50) else (twin, *world.known), world.wirings)
        if kind == 2 and world.wirings:
            wiring = self.one_of(world.wirings)
            return with_wire(world, wiring.revision, self.any_wire(world))
        return World(tuple(known for known in world.known if self.chance(80)), world.wirings)

    # ---- steps

    def step(self, world):
        """A step's question, and the world after it: a wire as a resolver would choose it, mostly, or an attachment."""
        space = Space(world)
        ids = [known.id for known in world.known]
        r = self.one_of(ids)
        if self.chance(20):
            matching = [fragment for fragment in ids if space.is_host_of(fragment, r)]
            fragment = self.one_of(matching) if matching and self.chance(90) else self.one_of(ids)
            return f"attach {r} {fragment}", with_fragment(world, r, fragment)
        owner = self.one_of(sorted(space.owners(r)))
        count = len(space.known(owner).requirements + space.known(owner).dynamics)
        wire = self.any_wire(world)
        if count > 0:
            index = self.below(count)
            asked = space.requirement(owner, index)
            every = Space(World(world.known, world.wirings + tuple(Wiring(r) for r in ids)))
            offers = self.offers(every, asked, owner)
            if offers and self.chance(95):
                wire = Wire(owner, index, *self.one_of(offers))
        return f"wire {r} {spelled_wire(wire)}", with_wire(world, r, wire)

    def clash_question(self, world):
        ids = [known.id for known in world.known]
        settled = ids if self.chance(60) else self.some(ids, 75)
        if self.chance(20):
            settled = list(reversed(settled)) + self.some(ids, 20)
        return " ".join(["clash", *map(str, settled)])

    def steps(self, world, count):
        """Questions: steps, some of them taken back, with a question about clashes after each few."""
        worlds = [world]
        questions = []
        for _ in range(count):
            if len(worlds) > 1 and self.chance(25):
                worlds.pop()
                questions.append("undo")
            else:
                question, after = self.step(worlds[-1])
                worlds.append(after)
                questions.append(question)
            if self.chance(65):
                questions.append(self.clash_question(worlds[-1]))
        return [*questions, self.clash_question(worlds[-1])]


def packages_of(world):
    """The packages that the world names."""
    named = {capability.name for known in world.known for capability in known.capabilities if capability.namespace == PACKAGE}
    used = {u for known in world.known for capability in known.capabilities for u in capability.uses}
    asked = {asked.name for known in world.known for asked in known.requirements + known.dynamics if asked.namespace == PACKAGE}
    return sorted(named | used | asked)


def kind_of(world):
    """What a world is counted as."""
    broken = Space(world).broken()
    return "consistent" if not broken else broken[0] if len(broken) == 1 else "several"


def is_rich(world):
    """Whether there is much to ask of the world: wires, and constraints of some revision."""
    space = Space(world)
    return sum(len(wiring.wires) for wiring in world.wirings) >= 3 and any(space.implied(known.id) for known in world.known)


def worlds(seed, quotas, malformed):
    """Random worlds: so many of each kind, and so many that are not well made."""
    makers = Makers(seed)
    left = dict(quotas)
    found = []

    def take(world):
        kind = kind_of(world)
        if left[kind] > 0 and (is_rich(world) or makers.chance(8)):
            left[kind] -= 1
            found.append(world)
            return True
        return False

    while any(left.values()):
        world = makers.world()
        if take(world) or kind_of(world) != "consistent" or not is_rich(world):
            continue
        wanted = [kind for kind in left if left[kind] > 0]
        for _ in range(4):
            if wanted and take(makers.broken(world, makers.one_of(wanted))):
                break
    while malformed > 0:
        world = makers.malformed(makers.world())
        if is_rich(world):
            malformed -= 1
            found.append(world)
    return found


def world_rows(seed, quotas, malformed):
    rows = [spelled_row(world, ["all " + " ".join(packages_of(world))]) for world in worlds(seed, quotas, malformed)]
    return [(row, answer_row(row)) for row in rows]


def step_rows(seed, count):
    """Rows of steps, half of which begin where nothing is wired yet; a third of them at most sees no clash."""
    makers = Makers(seed)
    rows, quiet = [], count // 3
    while len(rows) < count:
        world = makers.world()
        if not is_rich(world):
            continue
        if makers.chance(50):
            world = World(world.known)
        row = spelled_row(world, makers.steps(world, 4 + makers.below(14)))
        answer = answer_row(row)
        is_quiet = set(answer.split("; ")) == {"none"}
        if is_quiet and quiet == 0:
            continue
        quiet -= is_quiet
        rows.append((row, answer))
    return rows
