"""Why a bundle is refused: the requirements that are refused together, and what is on offer for them. A part of
`tools/why` and `tools/check-bundles`."""
from lacks import lack, without_host
from worlds import without


class Grounds:
    """Why the root of a world is refused.

    `core` has the requirements that are refused together and not without any one of them, `more` those of the root that
    are refused by themselves too; `lacks` has for each of both what has its name, and why that does not meet it;
    `unknown` those of the core without which the budget is spent.
    """

    def __init__(self, summary, core=(), more=(), lacks=None, unknown=()):
        self.summary, self.core, self.more, self.lacks, self.unknown = summary, core, more, lacks or {}, unknown


def find(world):
    """Finds out why the root is refused."""
    first, *more = world.alone([it for it in world.needs if it.owner is world.root]) or [None]
    if first and world.fragment:
        return Grounds(without_host(world, world.fragment))
    core = [first] if first else world.core()
    unknown = [it for it in core if world.ask(without(core, it)).startswith("refused 10")]
    lacks = {need: [(it, lack(world, need, it)) for it in world.names.of(need)] for need in core + more}
    met = {need: {offer for offer, text in lacks[need] if not text} for need in core}
    return Grounds(summary(world.root, core, lacks, met), core, more, lacks, unknown)


def explained(world, others, folder):
    """Why the bundle in a folder is refused with others, in one line; empty where that is not found out."""
    try:
        world.install([*others, folder])
        world.choose(next(it for it in world.bundles if it.folder == folder))
        is_refused = world.resolved([world.root])[0].startswith("refused 9")
        return find(world).summary if is_refused else ""
    except SystemExit as end:
        if isinstance(end.code, str):  # a copy could not be installed
            return ""
        raise


def summary(root, core, lacks, met):
    """What is wrong, in one line."""
    for need in (it for it in core if not met[it]):
        near = [f": {offer.owner} has one, but {text}" for offer, text in lacks[need]]
        return f"{need.owner} needs {need}, which nothing offers" + "".join(near[:1])
    for need in core:
        rivals = [it for it in core if (it.kind, it.name) == (need.kind, need.name)]
        if not set.intersection(*(met[it] for it in rivals)):
            every = set().union(*(met[it] for it in rivals))
            told = [f"{it.owner} needs {it}" for it in rivals if met[it] != every]
            others = [it for it in core if it.owner is root and it not in rivals]
            ways = " and ".join(dict.fromkeys(str(offer.owner) for it in others for offer in met[it]))
            verb = "sees" if need.kind == "package" else "needs"
            both = "both" if len(told) == 2 else "all of these"
            return f"{', '.join(told)}, and {root} {verb} {both}" + f" through {ways}" * bool(ways)
    owners = dict.fromkeys(it.owner for it in [*core, *(it for offers in met.values() for it in offers)])
    single = [it for it in owners if it.is_singleton]
    twice = [str(it) for it in single if [other.name for other in single].count(it.name) > 1]
    if twice:
        return f"{' and '.join(twice)}, singletons of which one at most can be resolved, are needed together"
    return f"{len(core)} requirements of {len({it.owner for it in core})} bundles do not fit together"
