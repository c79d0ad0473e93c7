"""What bundles need and offer, as their manifests say: a part of `tools/why`.

It reads manifests that the program has accepted, so it looks for no faults.
"""
import re

NEEDS = {"require-bundle": "bundle", "import-package": "package", "require-capability": "capability"}
OFFERS = {"export-package": "package", "provide-capability": "capability"}


def cut(text, letter):
    """The parts of a text between letters that stand outside quotes."""
    return [it.strip(" \t") for it in re.findall(r'(?:"(?:\\.|[^"\\])*"|[^"%s])+' % letter, text)]


def headers_of(folder):
    """The headers of a manifest's main section, by their names in lower case; of repeated ones the last."""
    with open(f"{folder}/META-INF/MANIFEST.MF", "rb") as it:
        lines = re.split(rb"\r\n|\n|\r", it.read()) + [b""]
    whole = b"\n".join(lines[:lines.index(b"")]).replace(b"\n ", b"").decode()
    pairs = [it.split(":", 1) for it in whole.split("\n")]
    return {name.lower(): value[1:] if value.startswith(" ") else value for name, value in pairs}


def written(headers):
    """The bytes of a manifest with these headers, in lines that are not too long."""
    lines = [f"{name}: {value}".encode() for name, value in headers.items()]
    return b"".join(b"\n ".join(it[at:at + 60000] for at in range(0, len(it), 60000)) + b"\n" for it in lines)


def asking(name, header, text):
    """The headers of a bundle that has one requirement."""
    return {"bundle-manifestversion": "2", "bundle-symbolicname": name, header: text}


class Part:
    """One path of a clause with its parameters: something that a bundle needs or offers.

    `texts` has the parameters as they are written: attributes by their names, directives by name and colon. `shadows`
    is said of an import that hides a package which its bundle might see from elsewhere without it.
    """

    def __init__(self, owner, header, kind, name, parameters=()):
        self.owner, self.header, self.kind, self.name, self.shadows = owner, header, kind, name, False
        self.texts = {"".join(re.match(r"([\w.-]+)\s*((?::(?==))?)", it).groups()): it for it in parameters}

    def value(self, key):
        """What a parameter says, without quotes; the empty text where it is not given."""
        told = self.texts.get(key, "=").split("=", 1)[1].strip(" \t")
        return re.sub(r'\\(["\\])', r"\1", told[1:-1]) if told.startswith('"') else told

    def listed(self, directive):
        """The names that a directive lists."""
        return [it.strip(" \t") for it in self.value(directive).split(",")]

    def attributes(self):
        return [key for key in self.texts if not key.endswith(":")]

    def text(self, without="", *more):
        """A clause of this part alone, without one parameter, and with others."""
        return ";".join([self.name, *(it for key, it in self.texts.items() if key != without), *more])

    def is_optional(self):
        return self.value("resolution:") == "optional"

    def is_effective(self):
        return self.kind != "capability" or "effective:" not in self.texts or self.value("effective:") == "resolve"

    def is_of_java(self):
        return self.kind == "package" and f"{self.name}.".startswith("java.")

    def __str__(self):
        """Kind and name, the range or the filter alone, and the other attributes with their names."""
        plain = ["filter:", "bundle-version" if self.kind == "bundle" else "version"]
        told = [self.value(key) if key in plain else it for key, it in self.texts.items()
                if key in plain or not key.endswith(":")]
        return " ".join([self.kind, self.name, *told])


class Bundle:
    """What a manifest says of a bundle, with the name and the version that the program tells of it."""

    def __init__(self, headers, name, version, folder=""):
        self.headers = {name: it for name, it in headers.items() if name != "bundle-activator"}
        self.name, self.version, self.folder = name, version, folder
        self.host = (cut(headers.get("fragment-host", ""), ";") or [None])[0]
        self.is_singleton = bool(re.search(r'singleton\s*:=\s*"?true', headers["bundle-symbolicname"]))
        needs = [it for header, kind in NEEDS.items() for it in self.parts(header, kind)]
        self.needs = [it for it in needs if it.is_effective() and not it.is_of_java()]
        offers = [it for header, kind in OFFERS.items() for it in self.parts(header, kind)]
        self.offers = [it for it in offers if it.is_effective()] + [Part(self, "", "bundle", name)] * (not self.host)

    def parts(self, header, kind):
        """What a header lists, each path by itself."""
        for clause in cut(self.headers.get(header, ""), ","):
            pieces = cut(clause, ";")
            paths = [it for it in pieces if not re.search('[=:"]', it)]
            yield from (Part(self, header, kind, path, pieces[len(paths):]) for path in paths)

    def copy(self, clauses):
        """The headers of a copy with these clauses, pairs of a header and a text, for all that it needs and offers."""
        kept = {name: it for name, it in self.headers.items() if name not in (*NEEDS, *OFFERS)}
        for header, text in (it for it in clauses if it[0]):
            kept[header] = f"{kept[header]},{text}" if header in kept else text
        return kept

    def __str__(self):
        return f"{self.name} {self.version}"
