"""Sets of bundles, and what the program answers of copies of them: a part of `tools/why`."""
import os
import subprocess
import sys

from manifests import Bundle, asking, headers_of, written

SYSTEM = {"export-package": "org.osgi.framework;version=1.10.0", "bundle-symbolicname": "system.bundle",
          "provide-capability": 'osgi.ee;osgi.ee=JavaSE;version:List<Version>="1.8,11,17"'}


def without(needs, one):
    """Some requirements without one of them."""
    return [it for it in needs if it is not one]


class Names:
    """Which of some bundles may be wired to which, by what they name."""

    def __init__(self, bundles):
        self.offers, self.families = {}, {}
        for bundle in [*bundles, Bundle(SYSTEM, "system.bundle", "1.0.0")]:
            self.families.setdefault(bundle.host or bundle.name, []).append(bundle)
            for offer in bundle.offers:
                self.offers.setdefault((offer.kind, offer.name), []).append(offer)
        for family in self.families.values():
            exported = {offer.name for it in family for offer in it.offers if offer.kind == "package"}
            requires = any(need.kind == "bundle" for it in family for need in it.needs)
            for need in (need for it in family for need in it.needs):
                need.shadows = need.kind == "package" and (requires or need.name in exported)

    def of(self, need):
        """The offers of what a requirement names, whether they meet it or not."""
        return self.offers.get((need.kind, need.name), [])

    def hosts(self, bundle):
        """The bundles that a fragment names as its host."""
        return [it for it in self.families.get(bundle.host, []) if not it.host and it.name != "system.bundle"]

    def below(self, bundle):
        """The bundles that may be wired to directly, and the fragments of all of these."""
        owners = dict.fromkeys(offer.owner for need in bundle.needs for offer in self.of(need))
        whole = [host for it in [bundle, *owners] for host in ([it] if not it.host else self.hosts(it))]
        fragments = [it for host in whole for it in self.families[host.name] if it.host]
        return list(dict.fromkeys([*owners, *whole, *fragments]))

    def order(self, root):
        """What the root may be wired to, and so on, each after what it may be wired to, but for rings."""
        order, seen, stack = [], {root}, [(root, self.below(root))]
        while stack:
            bundle, left = stack[-1]
            if not left:
                order.append(stack.pop()[0])
            elif left[-1] in seen:
                left.pop()
            else:
                seen.add(left[-1])
                stack.append((left[-1], self.below(left[-1])))
        return order


class World:
    """Bundles, one of which is the root, which is to be resolved, and what the program answers of copies of them."""

    def __init__(self, program, room, budget):
        self.program, self.room, self.budget, self.answers, self.bundles = program, room, budget, {}, []

    def run(self, lines):
        """The lines that the program writes on these lines."""
        ran = subprocess.run([self.program, "run", "--budget", str(self.budget)], cwd=self.room, check=False,
                             input="".join(f"{line}\n" for line in lines).encode(), stdout=subprocess.PIPE)
        return ran.stdout.decode().splitlines() if ran.returncode in (0, 1) else sys.exit(ran.returncode)

    def install(self, folders):
        """Reads the folders that can be installed, and gives the replies to the others.

        They are installed by links, since not every path can be written in a session.
        """
        for at, folder in enumerate(folders):
            os.symlink(os.path.abspath(folder), f"{self.room}/link-{at}")
        replies = self.run([f"install link-{at}" for at in range(len(folders))] + ["bundles"])
        rows = {row.split()[1]: row.split()[4:] for row in replies[len(folders):]}
        installed = {folder: rows[it.split()[1]] for folder, it in zip(folders, replies) if it.startswith("bundle")}
        self.bundles = [Bundle(headers_of(folder), *named, folder) for folder, named in installed.items()]
        return {folder: reply for folder, reply in zip(folders, replies) if folder not in installed}

    def choose(self, root):
        """Makes a bundle the root. For a fragment, that is a bundle that asks for a host with it, by a capability."""
        self.fragment = root if root.host else None
        if root.host:
            attached = f"attached.{root.name}"
            provided = [root.headers.get("provide-capability", "").strip(" \t"), attached]
            headers = {**root.headers, "provide-capability": ",".join(filter(None, provided))}
            self.bundles[self.bundles.index(root)] = Bundle(headers, root.name, root.version, root.folder)
            root = Bundle(asking("why.host", "require-capability", attached), f"a host with {root.name}", root.version)
            self.bundles.append(root)
        self.root, self.names = root, Names(self.bundles)
        self.order = [it for it in self.names.order(root) if it in self.bundles]
        self.needs = [need for it in reversed(self.order) for need in it.needs if not need.is_optional()]

    def installed(self, manifests, lines):
        """The replies to lines after the installs of bundles with these headers."""
        for at, headers in enumerate(manifests, 1):
            os.makedirs(f"{self.room}/{at}/META-INF", exist_ok=True)
            with open(f"{self.room}/{at}/META-INF/MANIFEST.MF", "wb") as it:
                it.write(written(headers))
        replies = self.run([f"install {at}" for at in range(1, len(manifests) + 1)] + lines)
        for reply in (it for it in replies[:len(manifests)] if not it.startswith("bundle")):
            sys.exit(f"tools/why: a copy was not installed: {reply}")
        return replies[len(manifests):]

    def resolved(self, asked):
        """The replies to the resolves of some bundles, one after another."""
        lines = [f"resolve {self.bundles.index(it) + 1}" for it in asked]
        return self.installed([it.headers for it in self.bundles], lines)

    def ask(self, needs):
        """What is answered to the resolve of the root where these are the requirements.

        An import that shadows is optional where it is not among them: without it, its bundle might see something else.
        """
        key = frozenset(needs)
        if key not in self.answers:
            copies = []
            for bundle in self.order:
                clauses = [(it.header, it.text()) for it in bundle.offers] + [
                    (it.header, it.text() if it in key else it.text("resolution:", "resolution:=optional"))
                    for it in bundle.needs if it in key or it.shadows]
                copies.append(bundle.copy(clauses))
            (self.answers[key],) = self.installed(copies, [f"resolve {len(copies)}"])
        return self.answers[key]

    def is_refused(self, needs):
        return self.ask(needs).startswith("refused 9")

    def shrink(self, kept, items):
        """Those of some requirements that are needed for a refusal, besides those that are kept: halves first."""
        if self.is_refused(kept):
            return []
        if len(items) == 1:
            return items
        first, second = items[:len(items) // 2], items[len(items) // 2:]
        needed = self.shrink(kept + first, second)
        return self.shrink(kept + needed, first) + needed

    def alone(self, items):
        """Those of some requirements that are refused by themselves."""
        if not items or not self.is_refused(items):
            return []
        half = len(items) // 2
        return items if half == 0 else self.alone(items[:half]) + self.alone(items[half:])

    def core(self):
        """Requirements that are refused together, and not without any one of them; none where all are not refused."""
        if not self.is_refused(self.needs):
            return []
        shadowing = [it for it in self.needs if it.shadows]
        core = self.shrink(shadowing, [it for it in self.needs if not it.shadows])
        core = core + self.shrink(core, shadowing)
        smaller = core
        while smaller is not None:
            core = smaller
            smaller = next((it for it in (without(core, one) for one in core) if self.is_refused(it)), None)
        return [it for it in self.needs if it in core]
