"""What is said of the bundles of a set: a part of `tools/check-bundles`."""
import collections
import re

from manifests import cut

WITHOUT_EFFECT = ("Bundle-RequiredExecutionEnvironment", "Eclipse-PlatformFilter")
DIRECTIVES = {"Provide-Capability": "uses"}  # without effect, too
PROVED = ("What is said of versions, uses, fragments and singletons is the program's answer, which is proved.",
          "Code was left out: no class was read, and nothing was started.")


def not_installed(reply, others):
    """What is said of a bundle that the program does not install; `others` has the bundles that are, by their ids."""
    twin = re.fullmatch(r"(.* DuplicateBundle) (\d+)", reply)
    return f"{twin[1]} of {others[twin[2]].title} ({others[twin[2]].word})" if twin else reply


def has_directive(value, directive):
    """Whether a clause of a header has a directive, and counts in a resolve."""
    for clause in cut(value, ","):
        parts = [re.sub(r'[\s"]', "", it) for it in cut(clause, ";")]
        is_effective = all(it == "effective:=resolve" for it in parts if it.startswith("effective:="))
        if is_effective and any(it.startswith(f"{directive}:=") for it in parts):
            return True
    return False


def counted(number):
    return f"{number} bundle" + "s" * (number != 1)


def notes(bundles):
    """What has no effect, of what the manifests have, and what was read in another form."""
    made = sum(bool(it.environment) for it in bundles)
    if made:
        yield f"{WITHOUT_EFFECT[0]} of {counted(made)} is read as the requirement osgi.ee that it stands for."
    for header in WITHOUT_EFFECT:
        if any(header.lower() in it.headers and not (header == WITHOUT_EFFECT[0] and it.environment) for it in bundles):
            yield f"{header} has no effect: whether it is met is not said."
    for header, directive in DIRECTIVES.items():
        if any(has_directive(it.headers.get(header.lower(), ""), directive) for it in bundles):
            yield f"{directive} of a {header} has no effect: another framework may refuse what is resolved here."
    dynamic = sum("dynamicimport-package" in it.headers for it in bundles)
    if dynamic:
        yield f"DynamicImport-Package of {counted(dynamic)} has no effect: what is imported at run time is not said."


def counts_of(bundles):
    counts = collections.Counter(it.state for it in bundles)
    return {it: counts[it] for it in ("resolved", "refused", "undecided", "unread")}


def report(bundles, first, causes):
    """Writes what came of it: the causes, a line for each bundle with what is at fault in its manifest, and notes."""
    for line in causes:
        print(line)
    for it in bundles:
        print(f"{it.state:9}  {it.title}{': ' if it.why else ''}{it.why}")
        for line in it.fault:
            print(f"           {line}")
    if first:
        print(f"Resolved before the others, after which they are refused: {', '.join(it.title for it in first)}.")
    for note in (*notes(bundles), *PROVED):
        print(note)
    counts = counts_of(bundles)
    others = "".join(f", {counts[it]} {it}" for it in ("refused", "undecided", "unread") if counts[it])
    print(f"bundles: {len(bundles)}, {counts['resolved']} resolved{others}")
