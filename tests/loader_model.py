"""A plain, slow model of loading: whose file a class comes from, and whether a service of a class is assignable, in a world with
wirings as `space_model.py` has them."""
from space_model import BUNDLE


def package_of(name):
    """The package of a class: what stands before the last dot of its name, and nothing where it has none."""
    return name.rpartition(".")[0]


def wiring_of(space, r):
    """The wires of a revision, in their order, and its fragments; none where it is not in force."""
    found = [wiring for wiring in space.wirings if wiring.revision == r]
    return (found[0].wires, found[0].fragments) if found else ((), ())


def with_fragments(space, r):
    return [r, *wiring_of(space, r)[1]]


def searched(space, r, p):
    """The revisions whose files are searched for the classes of a package, in order."""
    for provider in space.providers(r, p):
        if provider != r:
            return with_fragments(space, provider)
    told = []
    for wire in wiring_of(space, r)[0]:
        if space.namespace_given(wire) == BUNDLE:
            for giver in sorted(x for package, bundle, x in space.gives() if package == p and bundle == wire.provider):
                told += with_fragments(space, giver)
    return told + with_fragments(space, r)


def loaded(space, r, name):
    """The revision that a class is loaded from, or None."""
    path = name.replace(".", "/") + ".osc"
    having = [x for x in searched(space, r, package_of(name)) if space.known(x) is not None and path in space.known(x).files]
    return having[0] if having else None


def is_assignable(space, registrant, asker, name):
    """Whether a service of a class that a bundle registered is assignable to another."""
    current = {known.bundle: known.id for known in space.world.known if known.current}
    if registrant not in current or asker not in current:
        return False
    p, r, s = package_of(name), current[registrant], current[asker]
    return space.sources(r, p) == space.sources(s, p) != set() or space.sources(r, p) == set() and r == s
