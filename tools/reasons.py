"""Why bundles of a set are refused, by their manifests: a part of `tools/check-bundles`."""
import collections
import copy

from manifests import Bundle as Manifest
from matching import is_in, is_near, lack
from worlds import SYSTEM

HostNamed = collections.namedtuple("HostNamed", "kind name")
MOST = 3  # how many that nearly offer what is needed are named


class Offers:
    """What some bundles of a set offer and need, as their manifests say, and which of them are gone: they are refused,
    or are fragments that no bundle takes."""

    def __init__(self, bundles):
        self.bundles, self.named, self.meeting, self.gone = bundles, collections.defaultdict(list), {}, set()
        self.system = Manifest(SYSTEM, "system.bundle", "1.0.0")
        for owner in [*(it.read for it in bundles), self.system]:
            for offer in owner.offers:
                self.named[offer.kind, offer.name].append(offer)
        self.rows = {it.read: [(need, self.met_by(need)) for need in it.read.needs if not need.is_optional()]
                     for it in bundles}
        self.hosts = {it.read: [host.read for host in bundles if not host.host and host.read.name == it.host
                                and not no_host(host.read, it.read)] for it in bundles if it.host}
        self.drop([])

    def copy(self):
        """The same, from which others can be dropped."""
        other = copy.copy(self)
        other.gone = set(self.gone)
        return other

    def met_by(self, need):
        """The bundles of which something meets a requirement."""
        key = (need.kind, need.name, *need.texts.items(), need.kind == "bundle" and need.owner)
        if key not in self.meeting:
            offers = [it for it in self.named[need.kind, need.name] if not lack(need, it)]
            self.meeting[key] = list(dict.fromkeys(it.owner for it in offers))
        return self.meeting[key]

    def lacks(self, manifest):
        """The requirements of a bundle that nothing meets which is not gone, in the program's order."""
        return [need for need, owners in self.rows[manifest] if self.gone.issuperset(owners)]

    def drop(self, manifests):
        """Takes bundles for gone, and with them the fragments that nothing takes then."""
        self.gone.update(manifests)
        while True:
            lost = [it for it, hosts in self.hosts.items()
                    if it not in self.gone and (self.gone.issuperset(hosts) or self.lacks(it))]
            if not lost:
                break
            self.gone.update(lost)


def no_host(host, fragment):
    """Why a bundle of the name that a fragment asks for is no host for it; empty where it is one."""
    told = next(fragment.parts("fragment-host", "bundle")).value("bundle-version").strip(" \t")
    if told and not is_in(host.version, told):
        return f"its version is {'not in' if told[0] in '[(' else 'below'} {told}"
    named = next(host.parts("bundle-symbolicname", "bundle"))
    return "it permits no fragments" * (named.value("fragment-attachment:") == "never")


def near(need, offers, lost):
    """What nearly meets a requirement that nothing meets, and what would if it could be installed."""
    told = [f"{it.owner} has one, but {lack(need, it)}" for it in offers.named[need.kind, need.name]
            if is_near(need, it) and lack(need, it)]
    more = [f"{len(told) - MOST} more have one that does not fit"] * (len(told) > MOST)
    would = [f"{it.word} would offer it, but is not installed: {it.why}" for it in lost if it.would_offer(need)]
    return "; ".join([*told[:MOST], *more, *would[:1]])


def of_environment(bundle, need):
    """What a requirement that a tool has made of another header is told with."""
    is_made = need.kind == "capability" and need.name == "osgi.ee" and bundle.environment
    return f", as its Bundle-RequiredExecutionEnvironment says ({bundle.environment})" * bool(is_made)


def reason(bundle, offers, lost, below):
    """Why a bundle is refused that needs what nothing offers that can be resolved; empty where that is not why.

    `below` has the refused bundles by their manifests.
    """
    for need in bundle.needs[:1]:
        owners = {it.owner: below.get(it.owner) for it in offers.named[need.kind, need.name] if not lack(need, it)}
        refused = [str(owner) for owner, it in owners.items() if it]
        if refused:
            return f"it needs {need.name} of {' or '.join(refused)}, which is refused"
        if owners:
            lost = [str(it) for it in owners if it.host]
            return f"{bundle.title} needs {need} of {lost[0]}, a fragment that no bundle here takes" if lost else ""
        told = near(need, offers, lost)
        needed = f"{bundle.title} needs {need}{of_environment(bundle, need)}"
        return f"{needed}, which nothing offers" + f": {told}" * bool(told)
    return ""


def fragment_reason(bundle, offers, lost, below):
    """Why no bundle takes a fragment, as far as manifests say it."""
    hosts = [it for it in offers.bundles if not it.host and it.read.name == bundle.host]
    refused = [it.title for it in hosts if it.read in below and not no_host(it.read, bundle.read)]
    wrong = {it.title: no_host(it.read, bundle.read) for it in hosts}
    if not hosts and bundle.host != "system.bundle":
        would = [f": {it.word} would be, but is not installed: {it.why}" for it in lost
                 if it.would_offer(HostNamed("bundle", bundle.host))]
        return f"no bundle {bundle.host} is here for the fragment" + "".join(would[:1])
    if bundle.host == "system.bundle":
        return "no fragment is attached to the system bundle"
    if all(wrong.values()):
        return ", and ".join(f"{it} is no host for it: {why}" for it, why in wrong.items())
    if len(refused) == list(wrong.values()).count(""):
        return f"it needs {bundle.host} of {' or '.join(refused)}, which is refused"
    return ""
