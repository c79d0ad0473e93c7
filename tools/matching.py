"""Whether what is offered meets a requirement, by what manifests say alone: a part of `tools/check-bundles`.

The program's answers count: this finds words for its refusals, and chooses what it is asked first.
"""
import re

VERSION = re.compile(r"\s*(?:(\d+)(?:\.(\d+)(?:\.(\d+)(?:\.([\w-]+))?)?)?)?\s*", re.ASCII)
RANGE = re.compile(r"\s*([\[(])([^,]*),([^,]*)([\])])\s*")
LEAF = re.compile(r"([^=<>~()]+)(~=|>=|<=|=)((?:\\.|[^\\()])*)", re.DOTALL)


def version(text):
    """A version as a tuple that can be compared; none if the text is no version."""
    it = VERSION.fullmatch(text)
    return it and (int(it[1] or 0), int(it[2] or 0), int(it[3] or 0), it[4] or "")


def limits(text):
    """Whether the least version counts, that and the greatest one, and whether it counts; none if it is no range."""
    it = RANGE.fullmatch(text)
    least, most = (version(it[2]), version(it[3])) if it else (version(text), (float("inf"),))
    return least and most and (not it or it[1] == "[", least, most, bool(it) and it[4] == "]")


def is_in(text, told):
    """Whether a version is in a range. A text that is none of them is taken for one that fits."""
    it, found = limits(told), version(text)
    if not it or not found:
        return True
    return (it[1] < found or it[0] and it[1] == found) and (found < it[2] or it[3] and found == it[2])


# ---- filters

def read_filter(text):
    """A filter as a tuple of its operator and its parts; none if it cannot be read."""
    tree, end = read_from(text, 0)
    return tree if tree and not text[end:].strip() else None


def read_from(text, at):
    """The filter that begins at a place, and where it ends."""
    begun = re.compile(r"\s*\(\s*([&|!]?)").match(text, at)
    if not begun:
        return None, at
    at, parts = begun.end(), []
    if begun[1]:
        while not re.compile(r"\s*\)").match(text, at):
            part, at = read_from(text, at)
            if not part:
                return None, at
            parts.append(part)
    else:
        leaf = LEAF.match(text, at)
        if not leaf:
            return None, at
        at, parts = leaf.end(), [leaf[1].strip(), leaf[3]]
    end = re.compile(r"\s*\)").match(text, at)
    return ((begun[1] or leaf[2], *parts), end.end()) if end else (None, at)


def is_met(tree, attributes):
    """Whether attributes, of which each is a pair of a type and a text, match a filter."""
    operator, *parts = tree
    if operator == "&":
        return all(is_met(it, attributes) for it in parts)
    if operator == "|":
        return any(is_met(it, attributes) for it in parts)
    if operator == "!":
        return not is_met(parts[0], attributes)
    kind, text = attributes.get(parts[0], (None, ""))
    if kind is None:
        return False
    values = re.split(r"(?<!\\),", text) if kind.startswith("List") else [text]
    return any(is_so(operator, re.sub(r"List<?|>", "", kind), it, parts[1]) for it in values)


def is_so(operator, kind, value, told):
    """Whether one value of an attribute compares so with the text of a filter."""
    if operator == "=" and "*" in told:
        pattern = "".join(".*" if it[2] else re.escape(it[1] or it[3])
                          for it in re.finditer(r"\\(.)|(\*)|(.)", told, re.DOTALL))
        return told == "*" or kind not in ("Version", "Long") and bool(re.fullmatch(pattern, value, re.DOTALL))
    told = re.sub(r"\\(.)", r"\1", told)
    read = {"Version": version, "Long": lambda it: int(it) if re.fullmatch(r"\s*[+-]?\d+\s*", it) else None}
    left, right = (read[kind](it) if kind in read else it for it in (value, told))
    if left is None or right is None:
        return False
    if operator == "~=" and kind not in read:
        left, right = (re.sub(r"\s", "", it).lower() for it in (left, right))
    return left >= right if operator == ">=" else left <= right if operator == "<=" else left == right


def leaves(tree):
    """The comparisons of a filter that all have to hold."""
    return [it for part in tree[1:] for it in leaves(part)] if tree[0] == "&" else [tree] if tree[0] not in "|!" else []


# ---- requirements

def given(offer):
    """The attributes of what is offered, each as its type and its text."""
    kinds = {key: re.match(r"[^=:]*(?::([^=]*))?=", offer.texts[key]) for key in offer.attributes()}
    return {key: ((it and it[1] or "String").strip(" \t"), offer.value(key)) for key, it in kinds.items()}


def is_near(need, offer):
    """Whether something of the needed name is what is asked for but for details: of a capability, whether it has the
    attribute of its namespace that the filter asks for, or the first one that the filter asks to be equal."""
    tree = read_filter(need.value("filter:")) if need.kind == "capability" else None
    equal = [it for it in leaves(tree) if it[0] == "="] if tree else []
    asked = [it for it in equal if it[1] == need.name] or equal[:1]
    return all(is_met(it, given(offer)) for it in asked)


def lack(need, offer):
    """Why what is offered does not meet a requirement that asks for something of this name; empty where it does."""
    if need.kind == "bundle" and need.owner is offer.owner:
        return "no bundle counts for itself"
    if need.kind == "capability":
        tree, has = read_filter(need.value("filter:")), given(offer)
        if not tree or is_met(tree, has):
            return ""
        wrong = [it for it in leaves(tree) if not is_met(it, has)]
        return ", ".join(unlike(it[1], has) for it in wrong) or f"the filter does not match {told(offer)}"
    own = {"bundle-symbolic-name": offer.owner.name, "bundle-version": offer.owner.version}
    wrong = []
    for key in ["bundle-version"] * ("bundle-version" in need.texts) if need.kind == "bundle" else need.attributes():
        value = own.get(key) or offer.value(key) or "0.0.0" * (key == "version")
        if key in ("version", "bundle-version"):
            wrong += [f"{key} {value} is out of range"] * (not is_in(value, need.value(key)))
        elif value != need.value(key):
            wrong.append(f"{key} is {value}" if value else f"it has no {key}")
    hidden = [it for it in offer.listed("mandatory:") if it and it not in need.texts] if need.kind == "package" else []
    return ", ".join(wrong) or f"it makes mandatory what is not asked for: {offer.value('mandatory:')}" * bool(hidden)


def unlike(key, has):
    """What an attribute is where a filter asks for something else."""
    return f"{key} is {has[key][1]}" if key in has else f"it has no {key}"


def told(offer):
    return ";".join(offer.texts[it] for it in offer.attributes()) or "no attributes"
