"""`Bundle-RequiredExecutionEnvironment` as the requirement that OSGi Core says it stands for: a part of
`tools/check-bundles`."""
import os
import re

from manifests import written

HEADER, NAMES = "bundle-requiredexecutionenvironment", re.compile(r"[\w./-]+", re.ASCII)
VERSIONED = re.compile(r"(.+)-(\d+(?:\.\d+){0,2})", re.ASCII)


def filter_of(name):
    """The filter that an environment's name stands for: `J2SE-1.5`, `JavaSE/compact1-1.8`, `CDC-1.1/Foundation-1.1`."""
    ends = name.split("/", 1)
    parts = [VERSIONED.fullmatch(it) for it in ends]
    versions = {it[2] for it in parts if it}
    if len(versions) != 1:
        return f"(osgi.ee={name})"
    names = [part[1] if part else end for part, end in zip(parts, ends)]
    return f"(&(osgi.ee={'/'.join('JavaSE' if it == 'J2SE' else it for it in names)})(version={versions.pop()}))"


def clause(value):
    """The clause of a requirement that one of the environments be there; none where a name is no environment's."""
    names = [it.strip(" \t") for it in value.split(",")]
    if not all(map(NAMES.fullmatch, names)):
        return None
    filters = "".join(map(filter_of, names))
    return f'osgi.ee;filter:="{filters if len(names) == 1 else f"(|{filters})"}"'


def require(folder, manifest, headers):
    """Has a folder in the room require what its manifest names so: the manifest is replaced by a copy with one header
    more, which counts in the place of an earlier one of its name. Returns the names, and none where nothing changed."""
    added = clause(headers.get(HEADER, ""))
    section = re.search(rb"(\A|\r\n|\n|\r(?!\n))(?=\r|\n)", manifest)
    head = manifest[:section.end()] if section else manifest
    if not added or not is_utf_8(head):
        return ""
    headers["require-capability"] = ",".join(filter(None, [headers.get("require-capability", "").strip(" \t"), added]))
    whole = head + b"\n" * (not head.endswith((b"\r", b"\n"))) + written(
        {"Require-Capability": headers["require-capability"]}) + manifest[len(head):]
    if os.path.islink(folder):
        link_all(folder)
    path = f"{folder}/META-INF/MANIFEST.MF"
    os.remove(path)
    with open(path, "xb") as it:
        it.write(whole)
    return headers[HEADER]


def is_utf_8(data):
    try:
        return data.decode() is not None
    except UnicodeDecodeError:
        return False


def link_all(folder):
    """Replaces the link to a folder by a folder of links to what is in it, and its META-INF likewise."""
    whole = os.path.realpath(folder)
    os.remove(folder)
    for part in ["", "META-INF"]:
        os.mkdir(os.path.join(folder, part))
        for name in os.listdir(os.path.join(whole, part)):
            if (part, name) != ("", "META-INF"):
                os.symlink(os.path.join(whole, part, name), os.path.join(folder, part, name))
