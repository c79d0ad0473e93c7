"""Why what is offered does not meet a requirement, and why a bundle is no host: a part of `tools/why`."""
import re

from manifests import asking


def fits(world, offer, text, header, probes):
    """Which requirements are met by one offer alone, of which this is the text."""
    members = [it.copy([]) for it in world.names.hosts(offer.owner)]
    if offer.owner.name != "system.bundle":
        members.append(offer.owner.copy([(offer.header, text)]))
    first = len(members) + 1
    members += [asking(f"why.probe-{at}", header, it) for at, it in enumerate(probes)]
    replies = world.installed(members, [f"resolve {first + at}" for at in range(len(probes))])
    return [it.startswith("resolved") for it in replies]


def lack(world, need, offer):
    """Why an offer of the needed name does not meet a requirement, and the empty text where it does."""
    if need.kind == "bundle" and need.owner is offer.owner:
        return "no bundle counts for itself"
    if fits(world, offer, offer.text(), need.header, [need.text()])[0]:
        return ""
    given = need.attributes()
    probes = [need.name, need.text(), *(f"{need.name};{need.texts[key]}" for key in given)]
    by_name, whole, *each = fits(world, offer, offer.text("mandatory:"), need.header, probes)
    if not by_name:
        return "no bundle here takes the fragment" if offer.owner.host else "it is not on offer"
    if need.kind == "capability":
        given = ";".join(offer.texts[it] for it in offer.attributes())
        return f"the filter does not match {given or 'no attributes'}"
    if whole:
        return f"it makes mandatory what is not asked for: {offer.value('mandatory:')}"
    return ", ".join(difference(offer, key) for key, is_met in zip(given, each) if not is_met)


def difference(offer, key):
    """What an offer has where a requirement asks for something else."""
    of_bundle = {"bundle-symbolic-name": offer.owner.name, "bundle-version": offer.owner.version}
    value = of_bundle.get(key) or offer.value(key) or "0.0.0" * (key == "version")
    if key in ("version", "bundle-version"):
        return f"{key} {value} is out of range"
    return f"{key} is {value}" if value else f"it has no {key}"


def without_host(world, fragment):
    """Why no host here takes a fragment."""
    hosts, asked = world.names.hosts(fragment), next(fragment.parts("fragment-host", "bundle"))
    if fragment.host == "system.bundle":
        return "no fragment is attached to the system bundle"
    return ", and ".join(f"{it} is no host for it: {no_host(world, it, asked)}" for it in hosts) or (
        f"no bundle {fragment.host} is here for the fragment")


def no_host(world, host, asked):
    """Why a bundle does not take a fragment that asks for it."""
    told = asked.value("bundle-version").strip(" \t")
    ranged = f"{asked.name};{asked.texts.get('bundle-version', '')}"
    if told and not fits(world, host.offers[-1], "", "require-bundle", [ranged])[0]:
        return f"its version is {'not in' if told[0] in '[(' else 'below'} {told}"
    is_never = re.search(r'fragment-attachment\s*:=\s*"?never', host.headers["bundle-symbolicname"])
    return "it permits no fragments" if is_never else "the fragment is not attached to it"
