"""What the program answers of a set of bundles: a part of `tools/check-bundles`."""
import subprocess
import sys
import tempfile

import faults
import grounds
from reasons import Offers, fragment_reason, reason
from sets import bottom_up
from verdicts import not_installed
from worlds import World

MOST = 1_000_000  # the program's own budget


def namespace(need):
    return need.name if need.kind == "capability" else f"osgi.wiring.{need.kind}"


class Checker:
    """The program, the room in which it runs, and the bundles that can be installed.

    A refused resolve changes nothing. So whether each of some bundles could be resolved as the first is asked in one
    session, until one is resolved.
    """

    def __init__(self, program, limit, room, bundles, counter):
        self.program, self.room, self.limit, self.counter = program, room, limit, counter
        replies, rows = self.ask([it.place for it in bundles], ["bundles"])
        titles = {row.split()[1]: " ".join(row.split()[4:6]) for row in rows}
        for it, reply in zip(bundles, replies):
            if reply.startswith("bundle "):
                it.is_named(int(reply.split()[1]), titles[reply.split()[1]])
        self.bundles, self.lost = [it for it in bundles if it.number], [it for it in bundles if not it.number]
        for it, reply in zip(bundles, replies):
            if not it.number:
                fault = faults.find(reply, it.folder, program)
                it.why = not_installed(reply, {str(it.number): it for it in self.bundles}) + f": {fault.told}" * bool(
                    fault.told)
                it.fault = fault.lines
        self.offers, self.hopeless, self.alone = Offers(self.bundles), {}, {}

    def ask(self, places, lines):
        """The replies to installing what is at these places, and to these lines."""
        session = "".join(f"{it}\n" for it in [f"install {place}" for place in places] + lines)
        words = ["--budget", str(self.limit)] if self.limit else []
        ran = subprocess.run([self.program, "run", *words], cwd=self.room, input=session.encode(),
                             stdout=subprocess.PIPE, check=False)
        if ran.returncode not in (0, 1):
            print(f"tools/check-bundles: the program ended with status {ran.returncode}", file=sys.stderr)
            sys.exit(ran.returncode)
        replies = ran.stdout.decode("utf-8", "replace").splitlines()
        return replies[:len(places)], replies[len(places):]

    def left(self):
        """The bundles that can be in an answer about another one."""
        return [it for it in self.bundles if it not in self.hopeless]

    def resolve(self, order):
        """The reply to resolving each of these in their order, and which bundles are resolved then."""
        left = self.left()
        numbers = {it: at for at, it in enumerate(left, 1)}
        _, replies = self.ask([it.place for it in left], [f"resolve {numbers[it]}" for it in order] + ["bundles"])
        rows = [it.split() for it in replies[len(order):]]
        return dict(zip(order, replies)), {it for it, row in zip(left, rows[1:]) if row[2] == "4"}

    def ask_each(self, asked):
        """Asks for the reply to resolving each of some bundles as the first one; none of them is known to be refused.

        What is refused then is in no answer about another one. Returns whether there is such a bundle.
        """
        left, waiting, found = self.left(), list(asked), {}
        numbers = {it: at for at, it in enumerate(left, 1)}
        while waiting:
            _, replies = self.ask([it.place for it in left], [f"resolve {numbers[it]}" for it in waiting])
            till = next((at for at, it in enumerate(replies, 1) if it.startswith("resolved")), len(replies))
            found.update(zip(waiting[:till], replies))
            waiting = waiting[till:]
        return self.accept(found)

    def accept(self, found):
        """Takes the replies to resolving some bundles as the first. Returns whether one of them is refused."""
        self.alone.update(found)
        self.counter.say(f"{len(self.bundles)} bundles, {len(self.alone)} asked about alone")
        refused = {it: reply for it, reply in found.items() if reply.startswith("refused 9 ")}
        for it, reply in refused.items():
            named = [need for need, _ in self.offers.rows[it.read] if reply.endswith(f" {namespace(need)} {need.name}")]
            lacking = self.offers.lacks(it.read)
            it.needs = [need for need in named if need in lacking][:1] or named[:1] or lacking[:1]
        self.hopeless.update(refused)
        self.offers.drop(it.read for it in refused)
        return bool(refused)

    def layers(self):
        """The bundles that need what nothing offers, by their manifests; those that need one of these; and so on."""
        offers, found = self.offers.copy(), []
        left = [it for it in self.left() if not it.host and it not in self.alone]
        while True:
            lacking = [it for it in left if offers.lacks(it.read)]
            if not lacking:
                return found
            found.append(lacking)
            left = [it for it in left if it not in lacking]
            offers.drop(it.read for it in lacking)

    def ask_layers(self, layers):
        """Asks about layers in one session: the bundles of each are installed after those of the layers that need it,
        so that a layer is asked about while those that it needs are not there. They are known to be refused then, so
        that this decides for the whole set. Where a bundle is resolved after all, the first layer is asked about by
        itself.
        """
        late = {it for layer in layers for it in layer}
        lines, numbers, asked = [], {}, []
        for layer in [None, *reversed(layers)]:
            for it in layer or [it for it in self.left() if it not in late]:
                numbers[it] = len(numbers) + 1
                lines.append(f"install {it.place}")
                asked.append(None)
            for it in layer or []:
                lines.append(f"resolve {numbers[it]}")
                asked.append(it)
        replies = {it: reply for it, reply in zip(asked, self.ask([], lines)[1]) if it}
        if any(it.startswith("resolved") for it in replies.values()):
            return self.ask_each(layers[0])
        is_found = False
        for layer in layers:
            is_found = self.accept({it: replies[it] for it in layer}) or is_found
            if not all(replies[it].startswith("refused 9 ") for it in layer):
                break
        return is_found

    def peel(self):
        """Finds the bundles that are refused for want of something, as far as manifests tell them."""
        found = True
        while found:
            layers = self.layers()
            found = bool(layers) and self.ask_layers(layers)

    def ask_refused(self, refused):
        """Asks of the bundles that were refused after others, from the bottom up: not yet of one that needs another one
        of these, whose search is long and is none once that is known to be refused."""
        while True:
            unknown = [it for it in refused if it not in self.alone]
            names = {it.read for it in unknown} | self.offers.gone
            low = [it for it in unknown if not any((names - {it.read}).issuperset(owners)
                                                   for _, owners in self.offers.rows[it.read])]
            if not unknown:
                return
            if self.ask_each(low or unknown[:1]):
                self.peel()

    def resolve_all(self):
        """Resolves all in the best order that was found, judges each, and returns those that come first for it."""
        self.peel()
        order, first, best = bottom_up(self.bundles), [], None
        for _ in range(8):
            replies, resolved = self.resolve([it for it in [*first, *(it for it in order if it not in first)]
                                              if it not in self.hopeless])
            refused = [it for it in order if it not in resolved]
            if best is None or len(refused) < best[0]:
                best = len(refused), first, replies, resolved
            self.ask_refused(refused)
            sooner = [it for it in refused if it not in first and self.alone[it].startswith("resolved")]
            if not sooner:
                break
            first = sooner + first
        for number, it in enumerate(self.bundles):
            it.state = "resolved"
            self.counter.say(f"{number} of {len(self.bundles)} judged")
            if it not in best[3]:
                self.judge(it, best[2].get(it))
        return best[1]

    def judge(self, bundle, reply):
        """Gives a bundle that is not resolved its state, and what is said of it."""
        bundle.state, alone = "refused", self.alone.get(bundle, "")
        below = {it.read: it for it in self.hopeless}
        if alone.startswith("resolved"):
            bundle.why = f"{reply}, after the others; as the first it is resolved"
        elif alone.startswith("refused 10 "):
            bundle.state, bundle.why = "undecided", alone
        elif bundle.host:
            bundle.needs = self.offers.lacks(bundle.read)[:1]
            bundle.why = fragment_reason(bundle, self.offers, self.lost, below) or (
                reason(bundle, self.offers, self.lost, below) or self.explained(bundle) or "no host has attached it")
        else:
            bundle.why = reason(bundle, self.offers, self.lost, below) or self.explained(bundle) or alone

    def explained(self, bundle):
        """Why a bundle is refused, as tools/why finds it by asking the program of copies."""
        others = [it.folder for it in self.left() if it is not bundle and it.read not in self.offers.gone]
        with tempfile.TemporaryDirectory(dir=self.room) as room:
            return grounds.explained(World(self.program, room, self.limit or MOST), others, bundle.folder)
