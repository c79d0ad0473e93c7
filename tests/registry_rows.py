"""Random rows of cases_machine and cases_registry with the answers that plain scans give, and the files that they
stand in. Rows of cases_machine are of services alone, of bundles that start and stop besides, or of listeners too.

What is answered is written here a second time, by the rules of docs/FRAMEWORK.md alone: a history is a list of calls, and
what is live, used and found is searched in that whole list each time. Nothing is taken from the program's own output.
"""
import sys

CLASSES = ["a.A", "a.B", "b.C"]
OWN = ["objectclass", "service.id", "service.bundleid", "service.scope"]


class Random:
    """A linear congruential generator, with the factor and the summand of Knuth's MMIX."""

    def __init__(self, seed):
        self.state = seed

    def below(self, bound):
        self.state = (self.state * 6364136223846793005 + 1442695040888963407) % 2 ** 64
        return (self.state >> 33) % bound

    def one_of(self, items):
        return items[self.below(len(items))]


class Refused(Exception):
    """The text of a refusal."""


def spelled(properties):
    """Properties as a row has them: triples of a name, a type and a value."""
    return "".join(f" {name}:{kind}={value}" for name, kind, value in properties)


def has_twins(properties):
    names = [name.lower() for name, _, _ in properties]
    return len(set(names)) < len(names)


class History:
    """The accepted calls of a registry, one after another."""

    def __init__(self):
        self.calls = []

    # ---- scans

    def registered(self):
        return [call for call in self.calls if call[0] == "register"]

    def is_live(self, service):
        return 1 <= service <= len(self.registered()) and ("unregister", service) not in self.calls

    def live(self):
        return [service for service in range(1, len(self.registered()) + 1) if self.is_live(service)]

    def owner(self, service):
        return self.registered()[service - 1][1]

    def classes(self, service):
        return self.registered()[service - 1][2]

    def text(self, service):
        return self.registered()[service - 1][3]

    def given(self, service):
        """The properties that were given last."""
        last = self.registered()[service - 1][4]
        for call in self.calls:
            if call[:2] == ("modify", service):
                last = call[2]
        return last

    def properties(self, service):
        """The values by names in small letters, the framework's among them."""
        values = {name.lower(): (kind, value) for name, kind, value in self.given(service) if name.lower() not in OWN}
        values["objectclass"] = ("List", self.classes(service))
        values["service.id"] = ("Long", service)
        values["service.bundleid"] = ("Long", self.owner(service))
        values["service.scope"] = ("String", "singleton")
        return values

    def ranking(self, service):
        kind, value = self.properties(service).get("service.ranking", ("Long", 0))
        return value if kind == "Long" and -2 ** 31 <= value < 2 ** 31 else 0

    def uses(self, user, service):
        if not self.is_live(service):
            return 0
        return self.calls.count(("get", user, service)) - self.calls.count(("unget", user, service))

    def found(self, name, matches=lambda properties: True):
        """The live services of a class that match, the best first."""
        all_of = [s for s in self.live() if name in self.classes(s) and matches(self.properties(s))]
        return sorted(all_of, key=lambda service: (-self.ranking(service), service))

    # ---- calls

    def happened(self, *happenings):
        """What happened by the last call, in order: here nobody listens."""

    def register(self, owner, classes, text, properties):
        if has_twins(properties):
            raise Refused("14 BadProperties")
        self.calls.append(("register", owner, classes, text, properties))
        service = len(self.registered())
        self.happened(("service", 1, service))
        return service

    def change(self, owner, service):
        if not self.is_live(service):
            raise Refused("13 NoSuchService")
        if self.owner(service) != owner:
            raise Refused(f"15 NotOwner {self.owner(service)}")

    def modify(self, owner, service, properties):
        self.change(owner, service)
        if has_twins(properties):
            raise Refused("14 BadProperties")
        before = self.properties(service)
        self.calls.append(("modify", service, properties))
        self.happened(("modified", before, service))

    def unregister(self, owner, service):
        self.change(owner, service)
        self.calls.append(("unregister", service))
        self.happened(("service", 4, service))

    def get(self, user, service):
        if not self.is_live(service):
            raise Refused("13 NoSuchService")
        self.calls.append(("get", user, service))
        return self.text(service)

    def unget(self, user, service):
        if self.uses(user, service) == 0:
            return False
        self.calls.append(("unget", user, service))
        return True

    def release(self, bundle):
        owned = [service for service in self.live() if self.owner(service) == bundle]
        for service in self.live():
            self.calls += [("unget", bundle, service)] * self.uses(bundle, service)
        self.calls += [("unregister", service) for service in owned]
        return owned


# ---- rows

def ids(services):
    return " ".join(map(str, services)) or "none"


def classes_of(random):
    first, second = random.one_of(CLASSES), random.one_of(CLASSES)
    return [first] if first == second else [first, second]


def properties_of(random):
    size = ("size", "Long", random.below(4))
    ranking = ("service.ranking", "Long", random.below(7) - 3)
    return random.one_of([
        [],
        [ranking],
        [ranking],
        [ranking],
        [size, ranking],
        [("Service.Ranking", "Long", random.below(3) - 1), size],
        [size, ("SIZE", "String", "one")],
        [("service.ranking", "String", "9"), ("SIZE", "Long", random.below(4))],
        [("service.ranking", "Long", random.one_of([2 ** 31, 2 ** 31 - 1, -2 ** 31, -2 ** 31 - 1]))],
        [("objectClass", "String", "b.C"), ("service.id", "Long", 1), ranking],
        [("color", "String", "red"), ranking, ("Color", "Long", 1)],
    ])


def is_at_least(properties, name, bound):
    kind, value = properties.get(name, ("", 0))
    return kind == "Long" and value >= bound


def filter_of(random):
    """A filter's text, and what it asks of properties."""
    number = random.below(4)
    name = random.one_of(CLASSES)
    return random.one_of([
        ("", lambda p: True),
        ("", lambda p: True),
        (" (size=*)", lambda p: "size" in p),
        (" (!(Size=*))", lambda p: "size" not in p),
        (f" (size>={number})", lambda p: is_at_least(p, "size", number)),
        (f" (objectClass={name})", lambda p: name in p["objectclass"][1]),
        (f" (service.id<={8 * number + 3})", lambda p: p["service.id"][1] <= 8 * number + 3),
        (f" (&(service.bundleid={number})(service.scope=singleton))", lambda p: p["service.bundleid"][1] == number),
        (f" (|(size={number})(color=red))", lambda p: p.get("size") == ("Long", number) or p.get("color") == ("String", "red")),
    ])


def test_of(random):
    """Which services are assignable: a text, and what it asks of a registrant and a class."""
    owner = random.below(3)
    name = random.one_of(CLASSES)
    return random.one_of([
        ("all", lambda o, c: True),
        ("none", lambda o, c: False),
        (f"owner {owner}", lambda o, c: o == owner),
        (f"owner {owner}", lambda o, c: o == owner),
        (f"owner {owner} class {name}", lambda o, c: o == owner and c == name),
    ])


class Rows:
    """Random rows about one history, and their answers."""

    def __init__(self, seed, limit=None):
        self.random = Random(seed)
        self.history = History()
        self.limit = limit
        self.entries = []
        self.rows = [("registry" if limit is None else f"core {limit}", "begun")]

    def service(self):
        """One of the last services that were registered, live or not, or none yet."""
        return max(len(self.history.registered()) + 1 - self.random.below(8), 0)

    def add(self, bundle, command, answer):
        """Adds a row of the registry, or of the machine where there is a limit of entries."""
        if self.limit is None:
            return self.rows.append((f"{bundle} {command}", reply_of(answer)))
        kind = command.split()[0]
        if bundle != 0 and kind != "services":
            answer = self.asked_by(bundle, answer)
        self.record(f"{self.random.below(3)}.{len(self.rows)}", bundle, command, kind, 0 if kind == "services" else bundle, answer)

    def asked_by(self, bundle, answer):
        """What is answered to a bundle that is not the system bundle: here there is none."""
        return lambda: refuse("1 NoSuchBundle")

    def record(self, tag, bundle, command, kind, asker, answer):
        """Adds a row of the machine, and its entry unless the history is full."""
        if len(self.entries) == self.limit:
            return self.rows.append((f"{tag} {bundle} {command}", "refused 18 HistoryFull, not recorded"))
        reply = reply_of(answer)
        self.entries.append(f"{tag} {asker} {kind}: {reply}")
        self.rows.append((f"{tag} {bundle} {command}", reply))

    def register(self, bundle):
        classes, text, properties = classes_of(self.random), f"x{self.random.below(9)}", properties_of(self.random)
        self.add(bundle, f'register {",".join(classes)} "{text}"{spelled(properties)}',
                 lambda: f"service {self.history.register(bundle, classes, text, properties)}")

    def modify(self, bundle):
        service, properties = self.service(), properties_of(self.random)
        self.add(bundle, f"modify {service}{spelled(properties)}",
                 lambda: self.history.modify(bundle, service, properties) or f"modified {service}")

    def unregister(self, bundle):
        service = self.service()
        self.add(bundle, f"unregister {service}", lambda: self.history.unregister(bundle, service) or f"unregistered {service}")

    def get(self, bundle):
        service = self.service()
        self.add(bundle, f"get {service}", lambda: f'object "{self.history.get(bundle, service)}"')

    def unget(self, bundle):
        service = self.service()
        self.add(bundle, f"unget {service}", lambda: f"unget {str(self.history.unget(bundle, service)).lower()}")

    def find_all(self, bundle):
        name = self.random.one_of(CLASSES)
        text, matches = filter_of(self.random)
        self.add(bundle, f"findall {name}{text}", lambda: f"found {ids(self.history.found(name, matches))}")

    def find(self, bundle):
        name = self.random.one_of(CLASSES)
        text, matches = filter_of(self.random)
        self.add(bundle, f"find {name}{text}", lambda: f"found {ids(self.history.found(name, matches)[:1])}")

    def find_where(self, bundle):
        if self.limit is not None:
            return self.find(bundle)
        name = self.random.one_of(CLASSES)
        text, matches = filter_of(self.random)
        test, allows = test_of(self.random)
        history = self.history
        found = [s for s in history.found(name, matches) if all(allows(history.owner(s), c) for c in history.classes(s))]
        self.rows.append((f"where {test}: {bundle} find {name}{text}", f"found {ids(found[:1])}"))

    def services(self, bundle):
        history = self.history
        self.add(bundle, "services", lambda: "; ".join(
            f'service {s} {history.owner(s)} {history.ranking(s)} {",".join(history.classes(s))} "{history.text(s)}"' for s in history.live()) or "none")

    def release(self, bundle):
        if self.limit is None:
            self.rows.append((f"release {bundle}", ids(self.history.release(bundle))))

    def step(self):
        kinds = [(8, self.register), (4, self.modify), (3, self.unregister), (10, self.get), (6, self.unget), (2, self.find),
                 (2, self.find_all), (2, self.find_where), (1, self.services), (1, self.release)]
        bundle = self.random.below(3) if self.limit is None or self.random.below(8) == 0 else 0
        self.random.one_of([call for times, call in kinds for _ in range(times)])(bundle)

    def check(self):
        history = self.history
        uses = "".join(f" {service}:{user}*{history.uses(user, service)}" for service in range(1, len(history.registered()) + 1)
                       for user in range(3) if history.uses(user, service) > 0)
        live = ids(history.live())
        found = "".join(f" | {name} {ids(history.found(name))}" for name in CLASSES)
        self.rows.append(("check", f"{live} | uses{uses}{found}"))

    def end_of_history(self):
        if self.limit is not None:
            self.rows.append(("entries", "".join([str(len(self.entries))] + [f" | {entry}" for entry in self.entries])))


# ---- rows of bundles that start and stop

BUNDLES = 3  # the ids from 1 on, each of which is one more than its location and its row
CALLERS = 2
BRACKETS = 64  # of one caller


class Life(History):
    """Calls of bundles besides those of a registry: a bundle is put into a state, and a caller opens or closes a bracket."""

    def state(self, bundle):
        return next((call[2] for call in reversed(self.calls) if call[:2] == ("state", bundle)), "active" if bundle == 0 else "none")

    def begun_by(self, bundle):
        """The tag of the bundle's last begin, as a refusal writes it."""
        begins = [call for call in self.calls if call[0] == "open" and call[3] == bundle and call[4] != "handing"]
        caller, command = begins[-1][1:3]
        return f"{caller} {command}"

    def brackets(self, caller):
        """The open brackets of a caller, the innermost last: the command, the bundle, and the state that it is in meanwhile; or the
        command, the listener, and that it is handing; or the command, and that a job is working."""
        opened = []
        for call in self.calls:
            if call[:2] == ("open", caller):
                opened.append(call[2:])
            elif call == ("close", caller):
                opened.pop()
        return opened

    def there(self, bundle):
        if self.state(bundle) == "none":
            raise Refused("1 NoSuchBundle")

    def settled(self, bundle):
        if self.state(bundle) in ("starting", "stopping"):
            raise Refused(f"3 StateChange {self.begun_by(bundle)}")

    def is_up(self, bundle):
        return self.state(bundle) in ("starting", "active", "stopping")

    def put(self, bundle, state):
        self.calls.append(("state", bundle, state))

    def install(self, bundle):
        if self.state(bundle) == "none":
            self.put(bundle, "installed")
            self.happened(("bundle", 1, bundle))
        return f"bundle {bundle}"

    def resolve(self, bundle):
        self.there(bundle)
        if self.state(bundle) != "installed":
            return "resolved none"
        self.put(bundle, "resolved")
        self.happened(("bundle", 32, bundle))
        return f"resolved {bundle}"

    def open(self, caller, command, about, state):
        if len(self.brackets(caller)) == BRACKETS:
            raise Refused("16 TooDeep")
        self.calls.append(("open", caller, command, about, state))

    def close(self, caller, command, about, state):
        """Closes the innermost bracket of the caller, which has to be this one."""
        if self.brackets(caller)[-1:] != [(command, about, state)]:
            raise Refused("2 InvalidOperation")
        self.calls.append(("close", caller))

    def begin(self, caller, command, bundle, state):
        self.open(caller, command, bundle, state)
        self.put(bundle, state)
        self.happened(("bundle", 128 if state == "starting" else 256, bundle))
        return f"{state} {bundle}, row {bundle - 1}"

    def wish_start(self, bundle):
        self.there(bundle)
        self.settled(bundle)
        return f"active {bundle}" if self.state(bundle) == "active" else f"go {bundle}"

    def begin_start(self, caller, command, bundle):
        self.there(bundle)
        if self.state(bundle) == "installed":
            raise Refused("2 InvalidOperation")
        self.settled(bundle)
        return f"active {bundle}" if self.state(bundle) == "active" else self.begin(caller, command, bundle, "starting")

    def begin_stop(self, caller, command, bundle):
        self.there(bundle)
        if bundle == 0:
            raise Refused("2 InvalidOperation")
        self.settled(bundle)
        return self.begin(caller, command, bundle, "stopping") if self.state(bundle) == "active" else f"idle {bundle}"

    def end(self, caller, command, bundle, state, failed):
        """The end of a start or a stop, as which state says. What ends in any other state than active is cleaned."""
        self.close(caller, command, bundle, state)
        if state == "starting" and not failed:
            self.put(bundle, "active")
            self.happened(("bundle", 2, bundle))
        else:
            self.put(bundle, "resolved")
            stopping = [("bundle", 256, bundle)] if state == "starting" else []
            gone = [("service", 4, service) for service in self.release(bundle)]
            self.happened(*stopping, *gone, ("bundle", 4, bundle))
        if failed:
            raise Refused("11 ActivatorError")
        return f"{'started' if state == 'starting' else 'stopped'} {bundle}"


class LifeRows(Rows):
    """Random rows of a machine with bundles, and their answers."""

    def __init__(self, seed, limit, history=None, handings=None):
        super().__init__(seed, limit)
        self.history = history or Life()
        self.rows = [(f"core_of {limit} {BUNDLES}" if handings is None else f"core_of {limit} {BUNDLES} {handings}", "begun")]
        self.prepare()

    def prepare(self):
        for bundle in range(1, BUNDLES + 1):
            self.ask(0, f"install {bundle - 1}", "install", lambda b=bundle: self.history.install(b))
        for bundle in range(1, BUNDLES):
            self.ask(0, f"resolve {bundle}", "resolve", lambda b=bundle: self.history.resolve(b))

    def asked_by(self, bundle, answer):
        def asked():
            self.history.there(bundle)
            if not self.history.is_up(bundle):
                raise Refused("2 InvalidOperation")
            return answer()
        return asked

    def ask(self, bundle, command, kind, answer, tag=None):
        """Adds a row of an operation that no bundle asks for."""
        self.record(tag or f"{self.random.below(CALLERS)}.{len(self.rows)}", bundle, command, kind, 0, answer)

    def find(self, bundle):
        """No bundle exports a package of these classes, so that each finds its own services alone."""
        name = self.random.one_of(CLASSES)
        text, matches = filter_of(self.random)
        found = [s for s in self.history.found(name, matches) if self.history.owner(s) == bundle]
        self.add(bundle, f"find {name}{text}", lambda: f"found {ids(found[:1])}")

    def bundle(self):
        """A bundle, mostly one that is there and not the system bundle."""
        return self.random.one_of([0, *range(1, BUNDLES + 1), *range(1, BUNDLES + 1), BUNDLES + 1])

    def asker(self):
        """A bundle, mostly one that is up."""
        return self.bundle() if self.random.below(4) == 0 else self.random.one_of([b for b in range(BUNDLES + 1) if self.history.is_up(b)])

    def tag(self):
        """The tag of an operation, as words of a row and as numbers: mostly of a command of its own."""
        caller, command = self.random.below(CALLERS), len(self.rows)
        opened = self.history.brackets(caller)
        if opened and self.random.below(3) == 0:
            command = opened[-1][0]
        return f"{caller}.{command}", caller, command

    def resolve(self):
        bundle = self.bundle()
        self.ask(0, f"resolve {bundle}", "resolve", lambda: self.history.resolve(bundle))

    def wish_start(self):
        bundle = self.bundle()
        self.ask(0, f"start {bundle}", "wishstart", lambda: self.history.wish_start(bundle))

    def begin_start(self):
        bundle, (tag, caller, command) = self.bundle(), self.tag()
        self.ask(bundle, "direct BeginStart", "beginstart", lambda: self.history.begin_start(caller, command, bundle), tag)

    def begin_stop(self):
        bundle, (tag, caller, command) = self.bundle(), self.tag()
        self.ask(0, f"stop {bundle}", "beginstop", lambda: self.history.begin_stop(caller, command, bundle), tag)

    def end(self):
        """An end, mostly of the innermost bracket of its caller."""
        bundle, (tag, caller, command) = self.bundle(), self.tag()
        state = self.random.one_of(["starting", "stopping"])
        opened = self.history.brackets(caller)
        if opened and opened[-1][2] in ("starting", "stopping") and self.random.below(4) != 0:
            command, bundle, state = opened[-1]
            tag = f"{caller}.{command}"
        failed = self.random.below(3) == 0
        name = "EndStart" if state == "starting" else "EndStop"
        self.ask(bundle, f"direct {name}{' failed' if failed else ''}", name.lower(),
                 lambda: self.history.end(caller, command, bundle, state, failed), tag)

    def bundles(self):
        numbers = {"installed": 2, "resolved": 4, "starting": 8, "stopping": 16, "active": 32}
        there = [b for b in range(1, BUNDLES + 1) if self.history.state(b) != "none"]
        rows = [f"bundle {b} {numbers[self.history.state(b)]} 1 {b - 1} 1.0.0" for b in there]
        self.ask(0, "bundles", "bundles", lambda: "; ".join(["bundle 0 32 0 system.bundle 1.0.0", *rows]))

    def step(self):
        if self.random.below(2) == 0:
            kinds = [(8, self.register), (2, self.modify), (1, self.unregister), (9, self.get), (4, self.unget), (2, self.find),
                     (1, self.find_all), (2, self.services)]
            return self.random.one_of([call for times, call in kinds for _ in range(times)])(self.asker())
        kinds = [(1, self.resolve), (1, self.wish_start), (6, self.begin_start), (4, self.begin_stop), (8, self.end), (1, self.bundles)]
        return self.random.one_of([call for times, call in kinds for _ in range(times)])()


# ---- rows of listeners

class Listening(Life):
    """Calls of listeners besides, and of hands. What a listener sees is a call too: of one event the lower listeners come first."""

    def __init__(self, handings):
        super().__init__()
        self.handings = handings

    # ---- scans

    def added(self):
        return [call[1:] for call in self.calls if call[0] == "listen"]

    def listeners(self):
        """The live listeners by rising id, each with its owner, its name, its kind and what its filter asks."""
        added = enumerate(self.added(), 1)
        return {listener: row for listener, row in added if ("unlisten", listener) not in self.calls}

    def named(self, owner, name):
        return [listener for listener, row in self.listeners().items() if row[:2] == (owner, name)]

    def due(self, listener):
        """The events that the listener sees, each after the number of the call by which it does."""
        return [(place, call[2]) for place, call in enumerate(self.calls) if call[:2] == ("see", listener)]

    def handed(self, listener):
        return [call[2] for call in self.calls if call[:2] == ("hand", listener)]

    def waiting(self, listener):
        return self.due(listener)[len(self.handed(listener)):]

    def turn(self, listener):
        """The tag of the hand that the listener is in, if it is in one."""
        tags = [f"{caller}.{opened[0]}" for caller in range(CALLERS) for opened in self.brackets(caller) if opened[1:] == (listener, "handing")]
        return tags[0] if tags else None

    # ---- calls

    def sees(self, owner, kind, matches, happening):
        """The event that a listener sees of what happened, if it sees one. No bundle exports a package of the services' classes."""
        what, code, about = happening
        if what == "bundle":
            attributes = {"event.type": code, "bundle.id": about, "bundle.name": str(about - 1)}
            return f"bundle {code} {about}" if kind == "bundle" and matches(attributes) else None
        if kind != "all" and (kind, owner) != ("service", self.owner(about)):
            return None
        is_matched = matches(self.properties(about))
        if what == "modified":
            code = 2 if is_matched else 8
            is_matched = is_matched or matches(happening[1])
        return f"service {code} {about}" if is_matched else None

    def happened(self, *happenings):
        for happening in happenings:
            for listener, (owner, _, kind, matches) in self.listeners().items():
                event = self.sees(owner, kind, matches, happening)
                if event is not None:
                    self.calls.append(("see", listener, event))

    def release(self, bundle):
        self.calls += [("unlisten", listener) for listener, row in self.listeners().items() if row[0] == bundle]
        return super().release(bundle)

    def listen(self, owner, name, kind, matches):
        if self.named(owner, name):
            raise Refused("2 InvalidOperation")
        self.calls.append(("listen", owner, name, kind, matches))
        return f"listener {len(self.added())}"

    def unlisten(self, owner, name):
        named = self.named(owner, name)
        self.calls += [("unlisten", listener) for listener in named]
        return f"unlisten {str(named != []).lower()}"

    def hand(self, caller, command):
        waiting = {listener: self.waiting(listener)[0] for listener in self.listeners() if self.waiting(listener)}
        turns = {listener: self.turn(listener) for listener in waiting}
        ready = [(event, listener) for listener, event in waiting.items() if turns[listener] is None]
        if not ready:
            return "nothing" + "".join(f", {listener} by {tag}" for listener, tag in turns.items())
        (_, event), listener = min(ready)
        is_spent = self.handings == len([call for call in self.calls if call[0] == "hand"])
        if is_spent and len(self.brackets(caller)) < BRACKETS:
            raise Refused("19 HandingsSpent")
        self.open(caller, command, listener, "handing")
        self.calls.append(("hand", listener, event))
        owner, name, kind, _ = self.listeners()[listener]
        return f"event {listener} {event}, on {name} {kind.capitalize()} of {owner}, row {max(owner - 1, 0)}"

    def end_hand(self, caller, command, listener):
        self.close(caller, command, listener, "handing")
        return "done"


def bundle_filter_of(random):
    """The text of a filter that is asked of bundles' events, and what it asks of their attributes."""
    number = random.below(4)
    return random.one_of([
        ("", lambda a: True),
        ("", lambda a: True),
        (f" (bundle.id={number})", lambda a: a["bundle.id"] == number),
        (f" (Bundle.Name={number})", lambda a: a["bundle.name"] == str(number)),
        (" (event.type>=32)", lambda a: a["event.type"] >= 32),
        (" (&(BUNDLE.VERSION>=1)(!(event.type=2)))", lambda a: a["event.type"] != 2),
        (" (|(bundle.version>=1.0.1)(service.id=*))", lambda a: False),
    ])


class ListeningRows(LifeRows):
    """Random rows of a machine with bundles and listeners, and their answers."""

    def __init__(self, seed, limit, handings, history=None):
        super().__init__(seed, limit, history or Listening(handings), handings)

    def prepare(self):
        for _ in range(4):
            self.listen()
        super().prepare()

    def service(self):
        """A live one, mostly."""
        live = self.history.live()
        return self.random.one_of(live) if live and self.random.below(5) != 0 else super().service()

    def listen(self):
        bundle, name = self.asker(), self.random.one_of("abc")
        kind = self.random.one_of(["service", "all", "all", "bundle", "bundle", "framework"])
        text, matches = bundle_filter_of(self.random) if kind in ("bundle", "framework") else filter_of(self.random)
        answer = self.asked_by(bundle, lambda: self.history.listen(bundle, name, kind, matches))
        self.record(self.tag()[0], bundle, f"direct AddListener {name} {kind}{text}", "addlistener", bundle, answer)

    def unlisten(self):
        bundle, name = self.asker(), self.random.one_of("abc")
        answer = self.asked_by(bundle, lambda: self.history.unlisten(bundle, name))
        self.record(self.tag()[0], bundle, f"direct RemoveListener {name}", "removelistener", bundle, answer)

    def hand(self):
        tag, caller, command = self.tag()
        self.ask(self.bundle(), "direct Hand", "hand", lambda: self.history.hand(caller, command), tag)

    def end_hand(self, caller, command, listener):
        tag = f"{caller}.{command}"
        self.ask(0, f"direct EndHand {listener}", "endhand", lambda: self.history.end_hand(caller, command, listener), tag)

    def end(self):
        """An end, mostly of the innermost bracket of its caller."""
        _, caller, command = self.tag()
        opened = self.history.brackets(caller)
        if self.random.below(6) == 0:
            self.end_hand(caller, command, 1 + self.random.below(6))
        elif opened and opened[-1][2] == "handing":
            self.end_hand(caller, *opened[-1][:2])
        else:
            super().end()

    def step(self):
        if self.random.below(5) < 2:
            kinds = [(6, self.register), (9, self.modify), (3, self.unregister), (1, self.get), (1, self.find)]
            return self.random.one_of([call for times, call in kinds for _ in range(times)])(self.asker())
        kinds = [(1, self.resolve), (8, self.begin_start), (3, self.begin_stop), (1, self.bundles), (3, self.listen), (1, self.unlisten),
                 (9, self.hand), (14, self.end)]
        return self.random.one_of([call for times, call in kinds for _ in range(times)])()

    def end_of_history(self):
        super().end_of_history()
        for listener in range(1, len(self.history.added()) + 2):
            self.rows.append((f"handed {listener}", "; ".join(self.history.handed(listener)) or "none"))
        # The machine is a new one after such a row, so it is the last, and asks for the listener that saw the most.
        sees = {listener: [event for _, event in self.history.due(listener)] for listener in range(1, len(self.history.added()) + 1)}
        if sees:
            listener = max(sees, key=lambda it: len(sees[it]))
            self.rows.append((f"due {listener}", "; ".join(sees[listener]) or "none"))


# ---- rows of jobs

class Working(Listening):
    """Calls of jobs besides: one is queued or taken, and those of a bundle are cleared."""

    def queued(self):
        """The owners and names of those that are queued, the oldest first."""
        queued = []
        for call in self.calls:
            if call[0] == "queue":
                queued.append(call[1:])
            elif call[0] == "take":
                queued = queued[1:]
            elif call[0] == "clear":
                queued = [job for job in queued if job[0] != call[1]]
        return queued

    def release(self, bundle):
        self.calls.append(("clear", bundle))
        return super().release(bundle)

    def queue(self, owner, name):
        self.calls.append(("queue", owner, name))
        return "queued"

    def take(self, caller, command):
        if not self.queued():
            return "no job"
        owner, name = self.queued()[0]
        self.open(caller, command, "", "working")
        self.calls.append(("take",))
        return f"job {owner} {name}, row {max(owner - 1, 0)}"

    def end_job(self, caller, command):
        self.close(caller, command, "", "working")
        return "done"


class JobRows(ListeningRows):
    """Random rows of a machine with bundles, listeners and jobs, and their answers."""

    def __init__(self, seed, limit, handings):
        super().__init__(seed, limit, handings, Working(handings))

    def queue(self):
        bundle, name = self.asker(), self.random.one_of("jkl")
        answer = self.asked_by(bundle, lambda: self.history.queue(bundle, name))
        self.record(self.tag()[0], bundle, f"direct QueueJob {name}", "queuejob", bundle, answer)

    def take(self):
        tag, caller, command = self.tag()
        self.ask(self.bundle(), "direct TakeJob", "takejob", lambda: self.history.take(caller, command), tag)

    def end_job(self, caller, command):
        self.ask(0, "direct EndJob", "endjob", lambda: self.history.end_job(caller, command), f"{caller}.{command}")

    def end(self):
        """An end, mostly of the innermost bracket of its caller."""
        _, caller, command = self.tag()
        opened = self.history.brackets(caller)
        if self.random.below(8) == 0:
            self.end_job(caller, command)
        elif opened and opened[-1][2] == "working":
            self.end_job(caller, opened[-1][0])
        else:
            super().end()

    def step(self):
        if self.random.below(3) == 0:
            return super().step()
        kinds = [(10, self.queue), (6, self.take), (4, self.begin_start), (3, self.begin_stop), (8, self.end)]
        return self.random.one_of([call for times, call in kinds for _ in range(times)])()


# ---- rows of as many brackets as there may be

def deep_rows(most):
    """Rows of a machine on which a caller begins as many starts, one within another, as it may."""
    last, unresolved = most + 1, most + 2
    rows = [(f"core_of 1000 {unresolved}", "begun")]
    rows += [(f"0.1 0 install {bundle - 1}", f"bundle {bundle}") for bundle in range(1, unresolved + 1)]
    rows += [(f"0.2 0 resolve {bundle}", f"resolved {bundle}") for bundle in range(1, last + 1)]
    rows += [(f"0.3 {bundle} direct BeginStart", f"starting {bundle}, row {bundle - 1}") for bundle in range(1, most + 1)]
    return rows + [
        (f"0.4 0 start {last}", f"go {last}"),
        (f"0.4 {last} direct BeginStart", "refused 16 TooDeep"),
        # The other refusals come first.
        (f"0.5 {unresolved + 1} direct BeginStart", "refused 1 NoSuchBundle"),
        (f"0.5 {unresolved} direct BeginStart", "refused 2 InvalidOperation"),
        ("0.5 1 direct BeginStart", "refused 3 StateChange 0 3"),
        ("0.5 0 stop 1", "refused 3 StateChange 0 3"),
        ("0.5 0 stop 0", "refused 2 InvalidOperation"),
        # What opens nothing is not refused, and another caller has brackets of its own.
        (f"0.5 0 stop {last}", f"idle {last}"),
        ("0.5 0 direct BeginStart", "active 0"),
        ("0.5 0 direct TakeJob", "no job"),
        ("0.5 0 direct Hand", "nothing"),
        ("0.5 0 direct AddListener l bundle (event.type=128)", "listener 1"),
        (f"1.6 {last} direct BeginStart", f"starting {last}, row {last - 1}"),
        ("0.6 0 direct Hand", "refused 16 TooDeep"),
        ("1.6 0 direct Hand", f"event 1 bundle 128 {last}, on l Bundle of 0, row 0"),
        ("0.6 0 direct Hand", "nothing"),
        ("1.6 0 direct EndHand 1", "done"),
        (f"1.6 {last} direct EndStart", f"started {last}"),
        (f"0.7 {last} direct BeginStart", f"active {last}"),
        (f"0.7 0 stop {last}", "refused 16 TooDeep"),
        (f"0.7 0 start {last}", f"active {last}"),
        # With one bracket less there is room for another.
        (f"0.3 {most} direct EndStart failed", "refused 11 ActivatorError"),
        (f"0.8 0 stop {last}", f"stopping {last}, row {last - 1}"),
        (f"0.8 {most} direct BeginStart", "refused 16 TooDeep"),
        (f"0.8 {last} direct EndStop", f"stopped {last}"),
        (f"0.9 {most} direct BeginStart", f"starting {most}, row {most - 1}"),
        (f"0.10 {last} direct BeginStart", "refused 16 TooDeep"),
        ("0.10 0 direct Hand", "refused 16 TooDeep"),
    ]


def nested_hands(most, handings):
    """Rows of a machine on which a caller is handed an event as often, one hand within another, as it may. One more listener sees it."""
    rows = [(f"core_of 1000 0 {handings}", "begun")]
    rows += [(f"0.1 0 direct AddListener l{n} all", f"listener {n}") for n in range(1, most + 2)]
    rows += [('0.2 0 register a.A "x"', "service 1")]
    return rows + [("0.3 0 direct Hand", f"event {n} service 1 1, on l{n} All of 0, row 0") for n in range(1, most + 1)]


def deep_hand_rows(most):
    """Rows of machines on which a caller has as many hands open as it may, and more may be handed, or may not."""
    last = most + 1
    return nested_hands(most, most + 2) + [
        ("0.4 0 direct Hand", "refused 16 TooDeep"),
        # Another caller has brackets of its own, and where nothing is to be handed nothing is refused.
        ("1.5 0 direct Hand", f"event {last} service 1 1, on l{last} All of 0, row 0"),
        ("0.6 0 direct Hand", "nothing"),
        ("0.7 0 modify 1", "modified 1"),
        ("0.8 0 direct Hand", "nothing" + "".join(f", {n} by 0.3" for n in range(1, last)) + f", {last} by 1.5"),
        (f"1.5 0 direct EndHand {last}", "done"),
        ("0.9 0 direct Hand", "refused 16 TooDeep"),
        # With one bracket less there is room for another.
        (f"0.3 0 direct EndHand {most}", "done"),
        ("0.10 0 direct Hand", f"event {most} service 2 1, on l{most} All of 0, row 0"),
        ("0.11 0 direct Hand", "refused 16 TooDeep"),
        ("1.11 0 direct Hand", "refused 19 HandingsSpent"),
        (f"0.12 0 direct RemoveListener l{last}", "unlisten true"),
        ("0.13 0 direct Hand", "nothing" + "".join(f", {n} by 0.3" for n in range(1, most))),
    ] + nested_hands(most, most) + [
        ("0.4 0 direct Hand", "refused 16 TooDeep"),
        ("1.5 0 direct Hand", "refused 19 HandingsSpent"),
        (f"0.3 0 direct EndHand {most}", "done"),
        ("0.6 0 direct Hand", "refused 19 HandingsSpent"),
        (f"0.7 0 direct RemoveListener l{last}", "unlisten true"),
        ("0.8 0 direct Hand", "nothing"),
    ]


def deep_job_rows(most):
    """Rows of a machine on which a caller takes as many jobs, one within another, as it may, and one more is queued."""
    last = most + 1
    rows = [("core_of 1000 0", "begun")]
    rows += [(f"0.1 0 direct QueueJob j{n}", "queued") for n in range(1, last + 1)]
    rows += [("0.2 0 direct TakeJob", f"job 0 j{n}, row 0") for n in range(1, most + 1)]
    return rows + [
        ("0.2 0 direct TakeJob", "refused 16 TooDeep"),
        ("0.3 0 direct TakeJob", "refused 16 TooDeep"),
        # Another caller has brackets of its own, and where no job is queued nothing is refused.
        ("1.4 0 direct TakeJob", f"job 0 j{last}, row 0"),
        ("0.5 0 direct TakeJob", "no job"),
        ("0.6 0 direct QueueJob k", "queued"),
        ("0.6 0 direct QueueJob l", "queued"),
        ("0.6 0 direct TakeJob", "refused 16 TooDeep"),
        ('0.6 0 direct AddListener l all', "listener 1"),
        ('0.6 0 register a.A "x"', "service 1"),
        ("0.6 0 direct Hand", "refused 16 TooDeep"),
        # With one bracket less there is room for another, of whatever kind.
        ("0.6 0 direct EndJob", "refused 2 InvalidOperation"),
        ("0.2 0 direct EndJob", "done"),
        ("0.7 0 direct TakeJob", "job 0 k, row 0"),
        ("0.7 0 direct TakeJob", "refused 16 TooDeep"),
        ("0.2 0 direct EndJob", "refused 2 InvalidOperation"),
        ("0.7 0 direct EndJob", "done"),
        ("0.8 0 direct Hand", "event 1 service 1 1, on l All of 0, row 0"),
        ("0.8 0 direct TakeJob", "refused 16 TooDeep"),
        ("0.8 0 direct EndHand 1", "done"),
        ("0.9 0 direct TakeJob", "job 0 l, row 0"),
        ("0.9 0 direct TakeJob", "no job"),
    ]


def refuse(text):
    raise Refused(text)


def reply_of(answer):
    try:
        return answer()
    except Refused as refusal:
        return f"refused {refusal}"


def registry_rows(seed, calls):
    rows = Rows(seed)
    for number in range(1, calls + 1):
        rows.step()
        if number % 40 == 0:
            rows.check()
    return rows.rows


def machine_rows(seed, calls, limit):
    rows = Rows(seed, limit)
    for _ in range(calls):
        rows.step()
    rows.end_of_history()
    return rows.rows


def life_rows(seed, calls, limit):
    rows = LifeRows(seed, limit)
    for _ in range(calls):
        rows.step()
    rows.end_of_history()
    return rows.rows


def listening_rows(seed, calls, limit, handings):
    rows = ListeningRows(seed, limit, handings)
    for _ in range(calls):
        rows.step()
    rows.end_of_history()
    return rows.rows


def job_rows(seed, calls, limit, handings):
    rows = JobRows(seed, limit, handings)
    for _ in range(calls):
        rows.step()
    rows.end_of_history()
    return rows.rows


def write(folder, heading, rows, *more):
    """Writes stdin and stdout of a folder: the rows of its table, and these under the heading; then more headings, each with its
    rows after it. With the word `--check` it writes nothing, and the status is 1 where the files are others."""
    lines = open(f"{folder}/table").read().splitlines()
    for title, part in zip([heading, *more[::2]], [rows, *more[1::2]]):
        lines += ["", f"# ---- {title}"] + [f"{row} => {answer}" for row, answer in part]
    files = {
        "stdout": "".join(f"{line}\n" for line in lines),
        "stdin": "".join(f"{line if line.startswith('#') else line.split(' => ')[0]}\n" for line in lines),
    }
    for name, text in files.items():
        if sys.argv[1:] != ["--check"]:
            with open(f"{folder}/{name}", "w") as out:
                out.write(text)
        elif open(f"{folder}/{name}").read() != text:
            sys.exit(f"{folder}/{name} is not what table and generate make: run generate")
