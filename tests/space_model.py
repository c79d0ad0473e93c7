"""A plain, slow model of the class space: the sources of packages, the constraints that `uses` implies, and when the wirings
of a world are consistent, each wire's own match apart.

Nothing here is quick or clever: what holds is a set, and a least set is made by taking its rules again and again until they
give nothing new. A world is what is known of revisions and how some of them are wired; it need not be well made. Of what is
not known nothing holds: it has no capabilities and no requirements, is no fragment, is not current, and its name is empty.
"""
from dataclasses import dataclass
from functools import wraps
from typing import Optional

BUNDLE = "osgi.wiring.bundle"
PACKAGE = "osgi.wiring.package"


# ---------------------------------------------------------------- data

@dataclass(frozen=True)
class Capability:
    """What a revision offers; `uses` lists packages. The attribute `version` is a version, or a tuple of several; the others
    are pairs of a name and a text, and `mandatory` names those that an import has to give."""
    namespace: str
    name: str
    uses: tuple = ()
    version: object = None
    attributes: tuple = ()
    mandatory: tuple = ()


@dataclass(frozen=True)
class Requirement:
    """What a revision needs: one of these versions; an import may ask for an exporter and its versions, and for attributes,
    and what is neither an import nor a required bundle may have a filter."""
    namespace: str
    name: str
    optional: bool = False
    multiple: bool = False
    reexport: bool = False
    effective: bool = True
    range: str = "0"
    from_name: Optional[str] = None
    from_range: str = "0"
    equal: tuple = ()
    filter: str = ""


@dataclass(frozen=True)
class Host:
    """The host that a fragment asks for. The range is `FLOOR`, `[FLOOR,CEILING)` or the like."""
    name: str
    range: str = "0"


@dataclass(frozen=True)
class Revision:
    """A known revision with its requirements in order; the places of dynamic imports are those after all requirements. The files are
    paths in its folder."""
    id: int
    bundle: int
    name: str
    current: bool = True
    version: object = 0
    singleton: bool = False
    attach: bool = True
    host: Optional[Host] = None
    capabilities: tuple = ()
    requirements: tuple = ()
    dynamics: tuple = ()
    files: tuple = ()


@dataclass(frozen=True)
class Wire:
    """A wire: the place of a requirement, as its owner and index, and that of a capability with who provides it."""
    asker: int
    asked: int
    provider: int
    owner: int
    given: int


@dataclass(frozen=True)
class Wiring:
    """The wires of a revision in force, and the fragments that are attached to it."""
    revision: int
    wires: tuple = ()
    fragments: tuple = ()


@dataclass(frozen=True)
class World:
    """The known revisions, and the wirings."""
    known: tuple = ()
    wirings: tuple = ()


def has_two(relation, items):
    """Whether the items of two places stand in the relation, that of the earlier place first."""
    return any(relation(items[i], items[j]) for j in range(len(items)) for i in range(j))


def parts(version):
    """The three numbers of a version, which is a whole number or a text such as `1.8`."""
    numbers = [int(word) for word in str(version).split(".")]
    return tuple(numbers + [0] * (3 - len(numbers)))


def is_within(text, version):
    """Whether the range contains the version."""
    version = parts(version)
    if text[0] not in "[(":
        return version >= parts(text)
    floor, ceiling = map(parts, text[1:-1].split(","))
    above = version >= floor if text[0] == "[" else version > floor
    return above and (version <= ceiling if text[-1] == "]" else version < ceiling)


def kept(method):
    """The method, of an object that does not change: what it has answered once is not worked out again."""
    @wraps(method)
    def answer(self, *words):
        answers = self.__dict__.setdefault("answers", {})
        question = (method.__name__, *words)
        if question not in answers:
            answers[question] = method(self, *words)
        return answers[question]
    return answer


# ---------------------------------------------------------------- the class space

class Space:
    """What holds in one world."""

    def __init__(self, world):
        self.world = world
        self.wirings = world.wirings
        self.by_id = {known.id: known for known in reversed(world.known)}  # the first of each id

    # ---- what is known

    def known(self, r):
        """The first that is known by this id, or None."""
        return self.by_id.get(r)

    def is_current(self, r):
        return self.known(r) is not None and self.known(r).current

    def is_singleton(self, r):
        return self.known(r) is not None and self.known(r).singleton

    def name(self, r):
        return self.known(r).name if self.known(r) is not None else ""

    @kept
    def is_host_of(self, fragment, host):
        """The fragment matches the host by name and range, and the host, which is no fragment, permits fragments."""
        f, h = self.known(fragment), self.known(host)
        return (f is not None and h is not None and f.host is not None and f.host.name == h.name
                and is_within(f.host.range, h.version) and h.attach and h.host is None)

    def capabilities(self, r):
        return self.known(r).capabilities if self.known(r) is not None else ()

    def capability(self, owner, index):
        """The capability at the place, or None."""
        return self.capabilities(owner)[index] if index < len(self.capabilities(owner)) else None

    def requirement_count(self, r):
        return len(self.known(r).requirements) if self.known(r) is not None else 0

    @kept
    def requirement(self, owner, index):
        """The requirement or dynamic import at the place, or None."""
        known = self.known(owner)
        all_of_them = known.requirements + known.dynamics if known is not None else ()
        return all_of_them[index] if index < len(all_of_them) else None

    def is_dynamic(self, owner, index):
        return self.requirement(owner, index) is not None and index >= self.requirement_count(owner)

    def is_effective(self, owner, index):
        return self.requirement(owner, index) is not None and self.requirement(owner, index).effective

    def is_optional(self, owner, index):
        """What is not known counts as optional."""
        return self.requirement(owner, index) is None or self.requirement(owner, index).optional

    def is_multiple(self, owner, index):
        """A dynamic import always may have several wires."""
        asked = self.requirement(owner, index)
        return self.is_dynamic(owner, index) or asked is not None and asked.multiple

    def is_reexport(self, owner, index):
        return self.requirement(owner, index) is not None and self.requirement(owner, index).reexport

    # ---- payloads

    def payload_requirements(self, host, fragments):
        """Pairs of an owner and a place; those of the host first, then each fragment's. Dynamic imports are not among them."""
        return [(owner, place) for owner in [host, *fragments] for place in range(self.requirement_count(owner))]

    def payload_capabilities(self, host, fragments):
        """Likewise, each after the host, which provides it."""
        return [(host, owner, place) for owner in [host, *fragments] for place in range(len(self.capabilities(owner)))]

    # ---- wirings

    @kept
    def in_force(self):
        return {wiring.revision for wiring in self.wirings}

    @kept
    def wires(self, r):
        return {wire for wiring in self.wirings if wiring.revision == r for wire in wiring.wires}

    @kept
    def fragments(self, r):
        return {fragment for wiring in self.wirings if wiring.revision == r for fragment in wiring.fragments}

    @kept
    def in_use(self):
        """Those that are in force or attached."""
        return self.in_force() | {fragment for r in self.in_force() for fragment in self.fragments(r)}

    def owners(self, r):
        """Those whose capabilities and requirements are in the payload of r."""
        return {r} | self.fragments(r)

    @kept
    def exports(self, r):
        """The exports in the payload of r."""
        return {capability for owner in self.owners(r) for capability in self.capabilities(owner) if capability.namespace == PACKAGE}

    @kept
    def exported(self, r):
        """The packages that the payload of r exports."""
        return {export.name for export in self.exports(r)}

    @kept
    def used(self, r, p):
        """What the exports of p in the payload of r list in their `uses`."""
        return {u for export in self.exports(r) if export.name == p for u in export.uses}

    # ---- wires

    def namespace_given(self, wire):
        """The namespace of the wire's capability; it says what kind of wire this is."""
        capability = self.capability(wire.owner, wire.given)
        return capability.namespace if capability is not None else ""

    @kept
    def package_wires(self, r):
        """Pairs of a package and a provider."""
        return {(self.capability(wire.owner, wire.given).name, wire.provider) for wire in self.wires(r)
                if self.namespace_given(wire) == PACKAGE}

    @kept
    def bundle_wires(self, r):
        """The revisions that r has a bundle wire to."""
        return {wire.provider for wire in self.wires(r) if self.namespace_given(wire) == BUNDLE}

    @kept
    def reexports(self, r):
        """Those of them that r requires with reexport."""
        return {wire.provider for wire in self.wires(r)
                if self.namespace_given(wire) == BUNDLE and self.is_reexport(wire.asker, wire.asked)}

    @kept
    def providers(self, r, p):
        return {provider for package, provider in self.package_wires(r) if package == p}

    def imports_elsewhere(self, r, p):
        return any(provider != r for provider in self.providers(r, p))

    @kept
    def is_on_offer(self, provider, owner, index):
        """The capability is in the provider's payload, and is no export of a package that it imports from elsewhere."""
        capability = self.capability(owner, index)
        if capability is None or owner not in self.owners(provider):
            return False
        return capability.namespace != PACKAGE or not self.imports_elsewhere(provider, capability.name)

    @kept
    def exports_on_offer(self, r):
        return {p for p in self.exported(r) if not self.imports_elsewhere(r, p)}

    # ---- sources

    def everyone(self):
        """All revisions that a wiring or a wire names, and all that are known."""
        named = {r for wiring in self.wirings for wire in wiring.wires for r in (wire.provider, wire.asker, wire.owner)}
        return {known.id for known in self.world.known} | self.in_use() | named

    @kept
    def gives(self):
        """All (p, b, x) such that b gives p from x to those that require b."""
        gives = set()
        reexports = {b: self.reexports(b) for b in self.everyone()}
        for b in self.everyone():
            for p, x in self.package_wires(b):
                if x != b and p in self.exported(b):
                    gives.add((p, b, x))
            for p in self.exports_on_offer(b):
                gives.add((p, b, b))
        while True:
            more = {(p, b, x) for b in reexports for p, c, x in gives if c in reexports[b]}
            if more <= gives:
                return gives
            gives = gives | more

    @kept
    def sources(self, r, p):
        """The sources of p for r."""
        if self.providers(r, p):
            return self.providers(r, p)
        from_bundles = {x for c in self.bundle_wires(r) for package, given, x in self.gives() if package == p and given == c}
        return from_bundles | ({r} if p in self.exports_on_offer(r) else set())

    # ---- constraints

    @kept
    def packages(self):
        """All names of exports: no other name has a source."""
        return {capability.name for known in self.world.known for capability in known.capabilities if capability.namespace == PACKAGE}

    def implied(self, r, among=None):
        """The implied constraints (e, u) of r; those that come from revisions of `among` alone, where that is given."""
        def is_in(x):
            return among is None or x in among

        if not is_in(r):
            return set()
        pairs = {(e, u) for p in self.packages() for e in self.sources(r, p) if is_in(e) for u in self.used(e, p)}
        while True:
            more = {(d, v) for e, u in pairs for d in self.sources(e, u) if is_in(d) for v in self.used(d, u)}
            if more <= pairs:
                return pairs
            pairs = pairs | more

    def is_clash(self, r, e, u):
        """Each of the two has a source of u that the other lacks."""
        ours, theirs = self.sources(r, u), self.sources(e, u)
        return bool(ours - theirs) and bool(theirs - ours)

    def clash(self, settled):
        """The least (r, u, e) that clashes, of constraints that come from the settled revisions alone, or None."""
        for r in sorted(set(settled)):
            for u, e in sorted((u, e) for e, u in self.implied(r, set(settled))):
                if self.is_clash(r, e, u):
                    return r, u, e
        return None

    # ---- consistency

    def all_wires(self):
        return {(r, wire) for r in self.in_force() for wire in self.wires(r)}

    def asked(self):
        """Each wire is for an effective requirement of the payload, or for a dynamic import of the revision itself."""
        def is_asked(r, wire):
            in_payload = wire.asker in self.owners(r) and wire.asked < self.requirement_count(wire.asker)
            effective = in_payload and self.is_effective(wire.asker, wire.asked)
            return effective or wire.asker == r and self.is_dynamic(wire.asker, wire.asked)

        return all(is_asked(r, wire) for r, wire in self.all_wires())

    def single(self):
        """A requirement has at most one wire, or, where it may have several, none twice."""
        def are_double(v, w):
            if (v.asker, v.asked) != (w.asker, w.asked):
                return False
            same = (v.provider, v.owner, v.given) == (w.provider, w.owner, w.given)
            return same or not self.is_multiple(v.asker, v.asked)

        return not any(has_two(are_double, wiring.wires) for wiring in self.wirings)

    def mandatory(self):
        """A mandatory effective requirement of a payload has a wire."""
        return all(any((wire.asker, wire.asked) == (owner, index) for wire in self.wires(r))
                   for r in self.in_force() for owner in self.owners(r) for index in range(self.requirement_count(owner))
                   if self.is_effective(owner, index) and not self.is_optional(owner, index))

    def provided(self):
        """Each wire's provider is in force."""
        return all(wire.provider in self.in_force() for _, wire in self.all_wires())

    def offered(self):
        """Each wire's provider has the capability on offer."""
        return all(self.is_on_offer(wire.provider, wire.owner, wire.given) for _, wire in self.all_wires())

    def not_owner(self):
        """No bundle wire goes to the owner of its requirement."""
        return all(self.namespace_given(wire) != BUNDLE or wire.provider != wire.asker for _, wire in self.all_wires())

    def one_provider(self):
        """The package wires of one revision for one package have one provider."""
        return all(len(self.providers(r, p)) == 1 for r in self.in_force() for p, _ in self.package_wires(r))

    def attached(self):
        """Each attached fragment matches its host."""
        return all(self.is_host_of(fragment, r) for r in self.in_force() for fragment in self.fragments(r))

    def one_version(self):
        """No two fragments of one symbolic name are attached to one host."""
        return not any(has_two(lambda e, f: self.name(e) == self.name(f), wiring.fragments) for wiring in self.wirings)

    def singletons(self):
        """Of the current singletons that are in force or attached, no two have one symbolic name."""
        there = [r for r in self.in_use() if self.is_current(r) and self.is_singleton(r)]
        return len({self.name(r) for r in there}) == len(there)

    def uses(self):
        """No implied constraint of a revision in force clashes."""
        return not any(self.is_clash(r, e, u) for r in self.in_force() for e, u in self.implied(r))

    CLAUSES = (asked, single, mandatory, provided, offered, not_owner, one_provider, attached, one_version, singletons, uses)

    def broken(self):
        """The names of the clauses of consistency that do not hold."""
        return [clause.__name__ for clause in self.CLAUSES if not clause(self)]

    def is_consistent(self):
        return self.broken() == []


# ---------------------------------------------------------------- steps

def with_wiring(world, r, change):
    """The world with the first wiring of r changed; where there is none, an empty one is changed and added."""
    wirings = list(world.wirings)
    for at, wiring in enumerate(wirings):
        if wiring.revision == r:
            wirings[at] = change(wiring)
            return World(world.known, tuple(wirings))
    return World(world.known, (*wirings, change(Wiring(r))))


def with_fragment(world, host, fragment):
    return with_wiring(world, host, lambda wiring: Wiring(wiring.revision, wiring.wires, wiring.fragments + (fragment,)))


def with_wire(world, r, wire):
    return with_wiring(world, r, lambda wiring: Wiring(wiring.revision, wiring.wires + (wire,), wiring.fragments))
