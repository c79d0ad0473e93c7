"""What a session answers whose bundles have scripts, by a plain model.

What is answered is written here a second time, by the rules of docs/FRAMEWORK.md alone, for bundles that need nothing of each
other: each imports the framework's package, so that it sees classes of that package as all others do, and sees no other package.
Commands of the console and statements of scripts are tuples of a word and its arguments; a service is named by its id in a
command, and by a variable in a statement. A filter of a listener is None, or whether an attribute is to have a value, with its name
and the value. Nothing is taken from the program's own output.
"""
FRAMEWORK = "org.osgi.framework"
MAX_BRACKETS = 64
MAX_JOBS = 10_000
MISSING = "none.such"  # a package that nobody exports
STATES = {"installed": 2, "resolved": 4, "starting": 8, "stopping": 16, "active": 32}
UP = ["starting", "stopping", "active"]


class Refused(Exception):
    """A plan was refused, or a section was told to fail."""


class Spent(Exception):
    """No more events may be handed: the line is cut, and no other line is run."""


class Bundle:
    """A bundle as its folder says: its sections are lists of statements by their names."""

    def __init__(self, name, version, sections, is_missing, is_fragment, files):
        self.name, self.version, self.sections, self.files = name, version, sections, files
        self.is_missing, self.is_fragment = is_missing, is_fragment


class Service:
    def __init__(self, owner, classes, text, properties):
        self.owner, self.classes, self.text, self.properties = owner, classes, text, properties

    def ranking(self):
        return self.properties.get("service.ranking", 0)

    def is_open_to(self, asker):
        """Whether owner and asker have the packages of its classes from the same bundle."""
        return self.owner == asker or all(it.startswith(f"{FRAMEWORK}.") for it in self.classes)

    def attributes(self, number):
        """What filters of listeners see of it now."""
        own = {"objectClass": self.classes, "service.id": number, "service.bundleid": self.owner, "service.scope": "singleton"}
        return {**self.properties, **own}


class Listener:
    def __init__(self, owner, name, kind, asked):
        self.owner, self.name, self.kind, self.asked = owner, name, kind, asked

    def passes(self, attributes):
        """Whether its filter matches; of a list one element has to be the value."""
        if self.asked is None:
            return True
        is_wanted, name, value = self.asked
        has = attributes.get(name)
        return (value in has if isinstance(has, list) else value == has) == is_wanted


class Session:
    """The lines of one session, which may hand so many events to listeners. Bundle 0 is the system bundle."""

    def __init__(self, bundles, handings):
        self.bundles = {0: Bundle("system.bundle", (1, 0, 0), {}, False, False, []), **bundles}
        self.states = {0: "active"}
        self.begun = {}  # the number of the line that last began a start or a stop of a bundle
        self.services = {}  # those that are live, by their ids
        self.registered = 0
        self.uses = {}  # by user and service
        self.listeners = {}  # those that are live, by their ids
        self.added = 0
        self.waiting = []  # what is still to be handed, the earliest first: a listener, an event, and its service or 0
        self.turns = []  # the listeners that are being handed an event
        self.handings = handings
        self.jobs = []  # those that are queued, the oldest first: a bundle and a name
        self.depth = 0
        self.number = 0
        self.written = []
        self.is_troubled = self.is_spent = False

    # ---- what is written

    def tell(self, text):
        self.written.append("  " * self.depth + text)

    def tell_refusal(self, text):
        self.tell(f"refused {text}")
        self.is_troubled = True

    def refuse(self, text):
        self.tell_refusal(text)
        raise Refused

    def refuse_where(self, is_so, text):
        if is_so:
            self.refuse(text)

    # ---- bundles

    def install(self, bundle):
        is_new = bundle not in self.states
        self.states.setdefault(bundle, "installed")
        self.tell(f"bundle {bundle}")
        self.happen(*[self.of_bundle(1, bundle)] * is_new)

    def named(self, target):
        """The bundle that an id or a name stands for: of one name the highest version. There has to be one."""
        ids = [it for it in self.states if target in (it, self.bundles[it].name)]
        self.refuse_where(not ids, "1 NoSuchBundle")
        return max(ids, key=lambda it: self.bundles[it].version)

    def settled(self, bundle):
        self.refuse_where(self.states[bundle] in ("starting", "stopping"), f"3 StateChange 0 {self.begun.get(bundle)}")

    def resolve(self, target):
        bundle = self.named(target)
        self.refuse_where(self.bundles[bundle].is_fragment, "2 InvalidOperation")
        if self.states[bundle] != "installed":
            return self.tell("resolved none")
        self.refuse_where(self.bundles[bundle].is_missing, f"9 Unresolvable NoCandidate osgi.wiring.package {MISSING}")
        self.states[bundle] = "resolved"
        self.tell(f"resolved {bundle}")
        self.happen(self.of_bundle(32, bundle))

    def start(self, target):
        bundle = self.named(target)
        self.refuse_where(self.bundles[bundle].is_fragment, "2 InvalidOperation")
        self.settled(bundle)
        if self.states[bundle] == "active":
            return self.tell(f"active {bundle}")
        self.resolve(bundle)
        self.settled(bundle)  # a listener may have started it, and more
        if self.states[bundle] == "active":
            return self.tell(f"active {bundle}")
        has_failed = self.between(bundle, "starting", "start", 128)
        self.states[bundle] = "resolved" if has_failed else "active"
        if not has_failed:
            self.tell(f"started {bundle}")
            return self.happen(self.of_bundle(2, bundle))
        gone = self.clean(bundle)
        self.tell_refusal("11 ActivatorError")
        self.happen(self.of_bundle(256, bundle), *gone, self.of_bundle(4, bundle))
        raise Refused

    def stop(self, target):
        bundle = self.named(target)
        self.refuse_where(bundle == 0, "2 InvalidOperation")
        self.settled(bundle)
        if self.states[bundle] != "active":
            return self.tell(f"idle {bundle}")
        has_failed = self.between(bundle, "stopping", "stop", 256)
        self.states[bundle] = "resolved"
        gone = self.clean(bundle)
        if has_failed:
            self.tell_refusal("11 ActivatorError")
        else:
            self.tell(f"stopped {bundle}")
        self.happen(*gone, self.of_bundle(4, bundle))
        if has_failed:
            raise Refused

    def between(self, bundle, state, section, code):
        """Begins a start or a stop, runs its section, and says whether that failed."""
        self.refuse_where(self.depth == MAX_BRACKETS, "16 TooDeep")
        self.tell(f"{state} {bundle}")
        self.states[bundle], self.begun[bundle] = state, self.number
        self.depth += 1
        self.happen(self.of_bundle(code, bundle))
        has_failed = self.run_section(bundle, section, {})
        self.depth -= 1
        return has_failed

    def clean(self, bundle):
        """Takes out what a bundle has at run time, and gives back what happens to its services, by rising id."""
        owned = [it for it, row in sorted(self.services.items()) if row.owner == bundle]
        gone = [self.of_service(it, (4, self.services[it].attributes(it))) for it in owned]
        for it in owned:
            self.remove(it)
        self.uses = {pair: count for pair, count in self.uses.items() if pair[0] != bundle}
        for it in [it for it, row in self.listeners.items() if row.owner == bundle]:
            self.remove_listener(it)
        self.jobs = [it for it in self.jobs if it[0] != bundle]
        return gone

    def load(self, bundle, name):
        self.refuse_where(name.startswith("java."), "2 InvalidOperation")
        is_own = name.rpartition(".")[0] != FRAMEWORK and f"{name.replace('.', '/')}.osc" in self.bundles[bundle].files
        self.tell(f"loaded r{bundle}" if is_own else "loaded none")

    def list_bundles(self):
        for it, state in sorted(self.states.items()):
            row = self.bundles[it]
            self.tell(f"bundle {it} {STATES[state]} {min(it, 1)} {row.name} {'.'.join(map(str, row.version))}")

    # ---- services

    def register(self, owner, classes, text, properties):
        self.refuse_where(are_twins(properties), "14 BadProperties")
        self.registered += 1
        number = self.registered
        self.services[number] = Service(owner, classes, text, properties)
        self.tell(f"service {number}")
        self.happen(self.of_service(number, (1, self.services[number].attributes(number))))
        return number

    def owned(self, owner, service):
        self.refuse_where(service not in self.services, "13 NoSuchService")
        self.refuse_where(self.services[service].owner != owner, f"15 NotOwner {self.services[service].owner}")

    def modify(self, owner, service, properties):
        self.owned(owner, service)
        self.refuse_where(are_twins(properties), "14 BadProperties")
        row = self.services[service]
        old = row.attributes(service)
        row.properties = properties
        self.tell(f"modified {service}")
        self.happen(self.of_service(service, (2, row.attributes(service)), (8, old)))

    def unregister(self, owner, service):
        self.owned(owner, service)
        gone = self.of_service(service, (4, self.services[service].attributes(service)))
        self.remove(service)
        self.tell(f"unregistered {service}")
        self.happen(gone)

    def remove(self, service):
        del self.services[service]
        self.uses = {pair: count for pair, count in self.uses.items() if pair[1] != service}

    def found(self, name, size, is_open=lambda row: True):
        """The services of a class that are open to who asks, with this size, if one is given; the best first."""
        ids = [it for it, row in self.services.items()
               if name in row.classes and size in (None, row.properties.get("size")) and is_open(row)]
        return sorted(ids, key=lambda it: (-self.services[it].ranking(), it))

    def find(self, asker, name, size):
        found = self.found(name, size, lambda row: row.is_open_to(asker))[:1]
        self.tell(f"found {found[0] if found else 'none'}")
        return found[0] if found else 0

    def find_all(self, name, size):
        self.tell(f"found {' '.join(map(str, self.found(name, size))) or 'none'}")

    def get(self, user, service):
        self.refuse_where(service not in self.services, "13 NoSuchService")
        self.uses[user, service] = self.uses.get((user, service), 0) + 1
        self.tell(f'object "{self.services[service].text}"')

    def unget(self, user, service):
        count = self.uses.get((user, service), 0)
        self.uses[user, service] = max(count - 1, 0)
        self.tell(f"unget {'true' if count else 'false'}")

    def list_services(self):
        for it, row in sorted(self.services.items()):
            self.tell(f'service {it} {row.owner} {row.ranking()} {",".join(row.classes)} "{row.text}"')
        if not self.services:
            self.tell("none")

    # ---- listeners and events

    def listen(self, owner, name, kind, asked):
        self.refuse_where(any((row.owner, row.name) == (owner, name) for row in self.listeners.values()), "2 InvalidOperation")
        self.added += 1
        self.listeners[self.added] = Listener(owner, name, kind, asked)
        self.tell(f"listener {self.added}")

    def unlisten(self, owner, name):
        ids = [it for it, row in self.listeners.items() if (row.owner, row.name) == (owner, name)]
        for it in ids:
            self.remove_listener(it)
        self.tell(f"unlisten {'true' if ids else 'false'}")

    def remove_listener(self, listener):
        del self.listeners[listener]
        self.waiting = [it for it in self.waiting if it[0] != listener]

    def of_service(self, service, *seen):
        """What happens to a service: who may see it, and as which code it is seen, the first whose attributes pass."""
        row = self.services[service]

        def may_see(listener):
            return listener.kind == "all" or listener.kind == "service" and row.is_open_to(listener.owner)
        return may_see, [(f"service {code} {service}", attributes) for code, attributes in seen], service

    def of_bundle(self, code, bundle):
        row = self.bundles[bundle]
        attributes = {"event.type": code, "bundle.id": bundle, "bundle.name": row.name, "bundle.version": row.version}
        return lambda listener: listener.kind == "bundle", [(f"bundle {code} {bundle}", attributes)], 0

    def happen(self, *happenings):
        """What happens at one entry, in order: it is decided now who sees it, and then handed."""
        for may_see, events, service in happenings:
            for it, row in sorted(self.listeners.items()):
                seen = [event for event, attributes in events if row.passes(attributes)]
                if may_see(row) and seen:
                    self.waiting.append((it, seen[0], service))
        self.drain()

    def drain(self):
        """Hands what waits to listeners that are in no turn, one event after another."""
        while ready := [it for it in self.waiting if it[0] not in self.turns]:
            if self.depth == MAX_BRACKETS:
                return self.tell_refusal("16 TooDeep")
            if self.handings == 0:
                self.tell_refusal("19 HandingsSpent")
                raise Spent
            self.hand(*ready[0])

    def hand(self, listener, event, service):
        self.waiting.remove((listener, event, service))
        self.handings -= 1
        self.tell(f"event {listener} {event}")
        self.turns.append(listener)
        self.depth += 1
        row = self.listeners[listener]
        self.run_section(row.owner, f"on {row.name}", {"event": service})
        self.depth -= 1
        self.turns.remove(listener)

    # ---- jobs

    def queue_job(self, owner, name):
        self.refuse_where(len(self.jobs) >= MAX_JOBS, "17 TooMany Jobs")
        self.jobs.append((owner, name))
        self.tell("queued")

    def take_jobs(self):
        """Takes one job after another, the oldest first, until there is none. It makes no difference whether its section fails."""
        while self.jobs:
            bundle, name = self.jobs.pop(0)
            self.tell(f"job {bundle} {name}")
            self.depth += 1
            self.run_section(bundle, f"job {name}", {})
            self.depth -= 1

    # ---- commands and statements

    def run_section(self, bundle, section, held):
        """Runs the statements of a section, if there is one, and says whether it failed."""
        try:
            for word, *words in self.bundles[bundle].sections.get(section, []):
                self.do_statement(bundle, held, word, words)
        except Refused:
            return True
        return False

    def do(self, owner, word, words):
        """What both the console and scripts have."""
        own = {"modify": self.modify, "unregister": self.unregister, "get": self.get, "unget": self.unget}
        if word in own:
            own[word](owner, *words)
        elif word in ("start", "stop"):
            {"start": self.start, "stop": self.stop}[word](*words)
        else:
            self.refuse("2 InvalidOperation")  # an operation that has not come

    def do_statement(self, owner, held, word, words):
        is_asking = word not in ("start", "stop", "load")
        self.refuse_where(is_asking and self.states[owner] not in UP, "2 InvalidOperation")
        if word in ("register", "find"):
            held[words[0]] = {"register": self.register, "find": self.find}[word](owner, *words[1:])
        elif word in ("modify", "unregister", "get", "unget"):
            self.do(owner, word, [held.get(words[0], 0), *words[1:]])
        elif word == "load":
            self.load(owner, *words)
        elif word in ("listen", "unlisten"):
            {"listen": self.listen, "unlisten": self.unlisten}[word](owner, *words)
        elif word == "job":
            self.queue_job(owner, *words)
        elif word == "print":
            self.tell(*words)
        elif word == "fail":
            self.tell(f'fail "{words[0]}"')
            raise Refused
        else:
            self.do(owner, word, words)

    def do_command(self, word, words):
        plain = {"install": self.install, "resolve": self.resolve, "findall": self.find_all,
                 "bundles": self.list_bundles, "services": self.list_services}
        if word in plain:
            plain[word](*words)
        elif word == "register":
            self.register(0, *words)
        elif word == "find":
            self.find(0, *words)
        elif word == "load":
            self.resolve(words[0])
            self.load(*words)
        else:
            self.do(0, word, words)

    def run(self, lines):
        """Runs lines: a tuple for each, or None where it is no command and no empty line."""
        for self.number, line in enumerate(lines, 1):
            if line is None:
                self.written.append("syntax")
                self.is_troubled = True
            else:
                self.run_line(line)

    def run_line(self, line):
        try:
            if not self.is_spent:
                self.run_plan(line)
                self.take_jobs()
        except Spent:
            self.is_spent = True
        if self.is_spent:
            self.written.append("full")

    def run_plan(self, line):
        try:
            self.do_command(line[0], line[1:])
        except Refused:
            pass

    def status(self):
        return 7 if self.is_spent else 1 if self.is_troubled else 0


def are_twins(properties):
    names = [name.lower() for name in properties]
    return len(set(names)) < len(names)
