"""What the refusals of a set come from, and what falls with each: a part of `tools/check-bundles`."""
from reasons import near

MOST = 4  # how many that fall are named
MOST_CAUSES = 12


class Cause:
    """Something for want of which bundles are refused; `alone` has those that nothing else stands in the way of."""

    def __init__(self, fallen):
        self.texts, self.fallen, self.alone = [], fallen, []

    def lines(self):
        names, more = [it.title for it in self.fallen], len(self.texts) - 1
        alone = f" ({len(self.alone)} with it alone)" * (0 < len(self.alone) < len(names))
        return [f"{len(names):5}  {self.texts[0]}" + f"; and {more} more that nothing offers" * bool(more),
                f"       {', '.join(names[:MOST])}" + f" and {len(names) - MOST} more" * (len(names) > MOST) + alone]


def find(checker):
    """The causes of what is not resolved, the one with which most falls first."""
    refused = [it for it in checker.bundles if it.state != "resolved"]
    needs = {it: checker.offers.lacks(it.read) for it in refused}
    missing, above, found = {}, {}, {it: set() for it in refused}
    by_read = {it.read: it for it in refused}
    for it in refused:
        owners = [owner for need in needs[it] for owner in checker.offers.met_by(need)]
        above[it] = [by_read[owner] for owner in owners + checker.offers.hosts.get(it.read, []) if owner in by_read]
        for need in needs[it]:
            if not checker.offers.met_by(need):
                found[it].add(key_of(need, checker))
                missing.setdefault(key_of(need, checker), []).append(need)
        if not found[it] and not any(other is not it for other in above[it]):
            found[it].add(it.why)
    changed = True
    while changed:
        changed = False
        for it in refused:
            more = set().union(*(found[other] for other in above[it])) - found[it]
            found[it] |= more
            changed = changed or bool(more)
    return sorted(merged(refused, found, missing, checker), key=lambda it: -len(it.fallen))


def merged(refused, found, missing, checker):
    """The causes: one for all that the same bundles fall with."""
    fallen, causes = {}, {}
    for it in refused:
        it.causes = found[it]
        for key in found[it]:
            fallen.setdefault(key, []).append(it)
    for key, those in sorted(fallen.items(), key=lambda it: str(it[0])):
        text = key if isinstance(key, str) else text_of(missing[key], checker)
        cause = causes.setdefault(tuple(those), Cause(those))
        cause.texts.append(text)
        cause.alone = [it for it in those if all(fallen[key] == those for key in found[it])]
    return causes.values()


def key_of(need, checker):
    """What is missing: a bundle, a capability or a package by its name, in whatever range it is asked for; and all
    packages as one that the same bundles have in other versions."""
    near_to = [str(it.owner) for it in checker.offers.named[need.kind, need.name]] if need.kind == "package" else []
    return (need.kind, *(near_to or [need.name, need.value("filter:") if need.kind == "capability" else ""]))


def text_of(needs, checker):
    """What is missing, in words."""
    ways, names = (list(dict.fromkeys(it)) for it in (map(str, needs), (it.name for it in needs)))
    told = near(needs[0], checker.offers, checker.lost)
    asked = ways[0] if len(ways) == 1 else f"{needs[0].kind} {needs[0].name}, asked for in {len(ways)} ways"
    if len(names) > 1:
        asked = f"{ways[0]} and {len(names) - 1} other package{'s' * (len(names) > 2)}"
    return f"{asked}, which nothing offers" + f": {told}" * bool(told)


def show(causes):
    """The lines that tell the causes, if more than one bundle is not resolved."""
    if len({it for cause in causes for it in cause.fallen}) < 2:
        return []
    head = "Causes, the greatest first, each with how many bundles fall with it, and which:"
    more = len(causes) - MOST_CAUSES
    rest = [f"       and {more} more cause{'s' * (more > 1)}, which --json has"] * (more > 0)
    return [head, *(line for it in causes[:MOST_CAUSES] for line in it.lines()), *rest]
