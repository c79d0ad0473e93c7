"""The rows of cases_space: worlds and questions as text, and the answers that the model gives. The form of a row is
explained in crates/cases_space/src/main.rt."""
from space_model import BUNDLE, PACKAGE, Capability, Host, Requirement, Revision, Space, Wire, Wiring, World, with_fragment, with_wire

# ---------------------------------------------------------------- from text

GIVEN = {"exports": PACKAGE, "bundle": BUNDLE, "provides": None}
ASKED = {"imports": PACKAGE, "requires": BUNDLE, "needs": None, "dynamic": PACKAGE}


def read_attributes(text):
    return tuple(part.lstrip("!").partition("=")[::2] for part in text.rstrip("}").split(",") if part)


def read_capability(key, value):
    value, _, uses = value.rstrip(")").partition("(")
    value, _, others = value.partition("{")
    name, _, version = value.partition(":")
    mandatory = [part[1:].partition("=")[0] for part in others.rstrip("}").split(",") if part.startswith("!")]
    return Capability(GIVEN[key] or name, name, tuple(uses.split(",")) if uses else (), version or None, read_attributes(others),
                      tuple(mandatory))


def read_requirement(key, value):
    value, _, filter = value.partition("?")
    value, _, flags = value.partition("/")
    value, _, others = value.partition("{")
    value, _, exporter = value.partition("@")
    name, _, span = value.partition(":")
    from_name, _, from_span = exporter.partition(":")
    return Requirement(ASKED[key] or name, name, "o" in flags, "m" in flags, "r" in flags, "i" not in flags, span or "0",
                       from_name or None, from_span or "0", read_attributes(others), filter)


def read_revision(text):
    ids, name, *words = text.split()
    number, _, bundle = ids.partition("/")
    pairs = [word.partition("=")[::2] for word in words]
    hosts = [value.partition(":")[::2] for key, value in pairs if key == "host"]
    return Revision(
        int(number), int(bundle or number), name,
        current="old" not in words, singleton="single" in words, attach="shut" not in words,
        version=next((value for key, value in pairs if key == "version"), 0),
        host=next((Host(name, span or "0") for name, span in hosts), None),
        capabilities=tuple(read_capability(key, value) for key, value in pairs if key in GIVEN),
        requirements=tuple(read_requirement(key, value) for key, value in pairs if key in ASKED and key != "dynamic"),
        dynamics=tuple(read_requirement(key, value) for key, value in pairs if key == "dynamic"),
        files=tuple(value for key, value in pairs if key == "file"))


def read_wire(text):
    asked, _, given = text.partition(">")
    asker, index = asked.split(".")
    provider, *owner, place = given.split(".")
    return Wire(int(asker), int(index), int(provider), int(owner[0] if owner else provider), int(place))


def read_wiring(text):
    revision, *words = text.split()
    return Wiring(int(revision), tuple(read_wire(word) for word in words if not word.startswith("+")),
                  tuple(int(word[1:]) for word in words if word.startswith("+")))


def parts(text):
    return [part.strip() for part in text.split(";") if part.strip()]


def read_row(row):
    """The world of a row, and its questions."""
    known, wirings, questions = row.split("|")
    return World(tuple(map(read_revision, parts(known))), tuple(map(read_wiring, parts(wirings)))), parts(questions)


# ---------------------------------------------------------------- to text

def spelled_attributes(attributes, mandatory=()):
    return f"{{{','.join('!' * (name in mandatory) + f'{name}={text}' for name, text in attributes)}}}" if attributes else ""


def spelled_range(mark, span):
    return f"{mark}{span}" if span != "0" else ""


def spelled_capability(capability):
    key = "exports" if capability.namespace == PACKAGE else "bundle" if capability.namespace == BUNDLE else "provides"
    version = f":{capability.version}" if capability.version is not None else ""
    uses = f"({','.join(capability.uses)})" if capability.uses else ""
    return f"{key}={capability.name}{version}{spelled_attributes(capability.attributes, capability.mandatory)}{uses}"


def spelled_requirement(asked, key=None):
    key = key or ("imports" if asked.namespace == PACKAGE else "requires" if asked.namespace == BUNDLE else "needs")
    flags = "o" * asked.optional + "m" * asked.multiple + "r" * asked.reexport + "i" * (not asked.effective)
    exporter = f"@{asked.from_name}{spelled_range(':', asked.from_range)}" if asked.from_name is not None else ""
    ends = (f"/{flags}" if flags else "") + (f"?{asked.filter}" if asked.filter else "")
    return f"{key}={asked.name}{spelled_range(':', asked.range)}{exporter}{spelled_attributes(asked.equal)}{ends}"


def spelled_revision(known):
    words = [f"{known.id}" if known.bundle == known.id else f"{known.id}/{known.bundle}", known.name]
    words += ["old"] * (not known.current) + ["single"] * known.singleton + ["shut"] * (not known.attach)
    words += [f"version={known.version}"] * (known.version != 0)
    if known.host is not None:
        words.append(f"host={known.host.name}{spelled_range(':', known.host.range)}")
    words += map(spelled_capability, known.capabilities)
    words += map(spelled_requirement, known.requirements)
    words += [spelled_requirement(asked, "dynamic") for asked in known.dynamics]
    words += [f"file={path}" for path in known.files]
    return " ".join(words)


def spelled_place(given):
    """The place of a capability: its provider, its owner where that is another, and the index."""
    provider, owner, index = given
    return f"{provider}.{index}" if owner == provider else f"{provider}.{owner}.{index}"


def spelled_wire(wire):
    return f"{wire.asker}.{wire.asked}>{spelled_place((wire.provider, wire.owner, wire.given))}"


def spelled_wiring(wiring):
    return " ".join([f"{wiring.revision}", *(f"+{fragment}" for fragment in wiring.fragments), *map(spelled_wire, wiring.wires)])


def spelled_row(world, questions):
    known = "; ".join(map(spelled_revision, world.known))
    wirings = "; ".join(map(spelled_wiring, world.wirings))
    return f"{known} | {wirings} | {'; '.join(questions)}"


# ---------------------------------------------------------------- answers

def ids(revisions):
    return f"[{' '.join(map(str, sorted(revisions)))}]"


def spelled_pairs(pairs):
    return f"[{' '.join(f'{e}:{u}' for e, u in sorted(pairs))}]"


def answer_all(space, packages):
    told = []
    for known in space.world.known:
        sources = [f" {p}{ids(space.sources(known.id, p))}" for p in packages if space.sources(known.id, p)]
        told.append(f"{known.id}{''.join(sources)} implied{spelled_pairs(space.implied(known.id))} | ")
    return "".join(told) + spelled_truth(space.is_consistent())


def spelled_truth(truth):
    return "true" if truth else "false"


def answer_clash(space, settled):
    clash = space.clash(settled)
    if clash is None:
        return "none"
    r, u, e = clash
    return f"{r} {u} {ids(space.sources(r, u))} {ids(space.sources(e, u))}"


def answer_payload(space, host, fragments):
    requirements = [f"{owner}.{place}" for owner, place in space.payload_requirements(host, fragments)]
    capabilities = [f"{provider}.{owner}.{place}" for provider, owner, place in space.payload_capabilities(host, fragments)]
    return f"[{' '.join(requirements)}] [{' '.join(capabilities)}]"


def answer_question(space, words):
    kind = words[0]
    if kind == "sources":
        return ids(space.sources(int(words[1]), words[2]))
    if kind == "implied":
        return spelled_pairs(space.implied(int(words[1])))
    if kind == "consistent":
        return spelled_truth(space.is_consistent())
    if kind == "copy":
        return "equal"
    if kind == "payload":
        return answer_payload(space, int(words[1]), list(map(int, words[2:])))
    if kind == "all":
        return answer_all(space, words[1:])
    raise ValueError(f"no question: {kind}")


def answer_row(row):
    """The answers to the questions of a row. Its steps add to the world that `clash` asks about, and to no other."""
    world, questions = read_row(row)
    space = Space(world)
    worlds = [world]
    answers = []
    for words in (question.split() for question in questions):
        if words[0] == "attach":
            worlds.append(with_fragment(worlds[-1], int(words[1]), int(words[2])))
        elif words[0] == "wire":
            worlds.append(with_wire(worlds[-1], int(words[1]), read_wire(words[2])))
        elif words[0] == "undo":
            worlds = worlds[:1] + worlds[1:-1]
        elif words[0] == "clash":
            answers.append(answer_clash(Space(worlds[-1]), list(map(int, words[1:]))))
        else:
            answers.append(answer_question(space, words))
    return "; ".join(answers)
