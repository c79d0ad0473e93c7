#!/usr/bin/env python3
"""Random small folders, most of their manifests nearly valid, with the model's answers.

    manifest_folders.py SEED COUNT            rows of cases_manifests with their answers, as in its stdout
    manifest_folders.py SEED COUNT --lines    the rows alone, as in its stdin

The same seed gives the same lines.
"""
import random
import sys

from manifest_model import folder_line, manifest_line, read_line

NAMES = ["a", "b", "c.d", "java.x", "java", "javax.y", "osgi.ee", "osgi.identity", "osgi.wiring.package", "osgi.wiring.bundle", "x y", "\xc3\xa4", "n", "A"]
GOOD_NAMES = ["a", "b", "c", "d.e", "org.osgi.framework", "javax.y", "n", "m"]
VERSIONS = ["1", "1.2", "1.2.3", "1.2.3.q", "", " 1 ", "0", "2147483647", "01.0"]
BAD_VERSIONS = ["x", "1..2", "1.", "2147483648", "1.2.3.4.5", "1 2", "-1", "1.2.3.+", "99999999999999999999"]
FILTERS = ["(a=1)", "(&(a=1)(b>=2))", "(|(a=x*)(b=*))", "(!(a~=x y))", " ( a = 1)", "(a=)", "(&a=1)", "(a=\\\\*)", "(a=\\*)", "(&(osgi.ee=JavaSE)(version=1.8))", "(!(!(!(a<=3))))"]
BAD_FILTERS = ["", "(a=1", "a=1", "(a)", "()", "(&)", "( &(a=1))", "(a=1))", "(a=(b))", "(!(a=1)(b=1))", "(" * 3, "(!" * 64 + "(a=1)" + ")" * 64]
KINDS = ["String", "Long", "Version", "List", "List<String>", "List<Long>", "List<Version>"]
BAD_KINDS = ["Double", "Foo", "long", "List<Double>", "List<>"]
TEXTS = ["1", "5", "x", "", "1,2", " 7 ", "a\\\\,b", "a,b", "-3", "1.2", "q\\\"r", "x;y", "y z"]
NOISE = list(",;:=\"\\ \t\n\r()[]x1.\xff\x00") + ["\r\n", "\n ", "::", ":=", ",,", ";;", "\n\n", ";x=1;x=2"]
SCRIPTS = ["", "start:\nprint \"x\"\n", "start:\nregister v a.A \"x\" k:Long=5\nstop:\nunregister v\n", "on l:\n\n# c\nget event\n", "start:\r\nfind v a.A (a=1)\r\n"]
BAD_SCRIPTS = ["jump", "start:\nget\n", "start:\nstart:\n", "start:\nprint x\n", "start:\nfind v a.A (a=\n", "get v\n", "start:\nmodify v k:Long=x\n", "\t"]


class Maker:
    def __init__(self, seed):
        self.r = random.Random(seed)

    def often(self, chance):
        return self.r.random() < chance

    def one(self, good, bad=(), chance=0.06):
        return self.r.choice(bad if bad and self.often(chance) else good)

    def version(self, chance=0.06):
        return self.one(VERSIONS, BAD_VERSIONS, chance)

    def range(self):
        if self.often(0.4):
            return self.version()
        text = self.one(["[", "("]) + self.version(0.03) + "," + self.version(0.03) + self.one(["]", ")"])
        return self.one([text, " " + text + " "], [text[1:], text[:-1], text + "x", text.replace(",", ";"), text.replace(",", ",,")], 0.05)

    def blank(self):
        return self.one(["", "", "", "", " ", "\t", "  "])

    def spelled(self, text):
        """A value's text, between quotes where it has to be, and often where it need not."""
        if any(it in text for it in ",;\"") or self.often(0.5):
            return f'"{text}"'
        return text

    def parameter(self, name, sign, text):
        return self.blank() + name + self.blank() + self.one([sign], ["=", ":=", ":", " = "], 0.03) + self.blank() + self.spelled(text) + self.blank()

    def attribute(self):
        name = self.one(["x", "y", "z", "n", "version", "uses", "Version"])
        if self.often(0.5):
            return self.parameter(name, "=", self.one(TEXTS))
        kind = self.one(KINDS, BAD_KINDS, 0.1)
        if kind in ("Long", "List<Long>") and self.often(0.8):
            text = self.one(["5", "-7", " 1 ", "+0", "9223372036854775807"])
        elif kind in ("Version", "List<Version>") and self.often(0.8):
            text = self.version()
        else:
            text = self.one(TEXTS)
        return self.parameter(name + self.blank() + ":" + self.blank() + kind + self.blank(), "=", text)

    def path(self, paths):
        """One of the paths, seldom one that was taken before, seldom another name."""
        if self.often(0.06) or not paths:
            return self.one(NAMES)
        return self.r.choice(paths) if self.often(0.05) else paths.pop(self.r.randrange(len(paths)))

    def clause(self, paths, parameters, most_paths=3):
        parts = [self.blank() + self.path(paths) + self.blank() for _ in range(self.r.choice([1, 1, 1, 1, 2, most_paths]))]
        chosen = [it for it in parameters if self.often(0.35)]
        self.r.shuffle(chosen)
        parts += [it() for it in chosen]
        if self.often(0.02):
            parts.append(self.r.choice(parts))
        return ";".join(parts)

    def clauses(self, paths, parameters, most_paths=3):
        paths = list(paths)
        return ",".join(self.clause(paths, parameters, most_paths) for _ in range(self.r.choice([0, 1, 1, 1, 2, 2, 3, 4]) or self.one([1, 0])))

    def directive(self, name, values):
        return lambda: self.parameter(name, ":=", self.one(values))

    def ranged(self, name):
        return lambda: self.parameter(name, "=", self.range())

    def header(self):
        """A header and its value."""
        resolution = self.directive("resolution", ["optional", "mandatory", "OPTIONAL", ""])
        effective = self.directive("effective", ["resolve", "active", "", "Resolve"])
        kind = self.r.randrange(12)
        if kind == 0:
            return "Fragment-Host", self.clause(["h", "i"], [self.ranged("bundle-version"), self.attribute, lambda: self.one(["q:=1"], ["extension:=framework", "extension:=", "extension=x"], 0.1)], 1) if self.often(0.9) else "h,i"
        if kind == 1:
            return "Require-Bundle", self.clauses(GOOD_NAMES, [self.ranged("bundle-version"), resolution, self.directive("visibility", ["reexport", "private", "x"]), self.attribute])
        if kind in (2, 3):
            return "Import-Package", self.clauses(GOOD_NAMES + [f"{it}{self.r.randrange(100)}" for it in GOOD_NAMES] + ["java.util", "javax.y9"],
                                                  [self.ranged("version"), self.ranged("bundle-version"), resolution, self.attribute, lambda: self.parameter("bundle-symbolic-name", "=", self.one(["s", "t", ""]))])
        if kind in (4, 5):
            return "Export-Package", self.clauses(GOOD_NAMES, [lambda: self.parameter("version", "=", self.version()), self.directive("uses", ["a", "a, b", "", ",c "]), self.directive("mandatory", ["x", "x,y", " "]), self.attribute,
                                                               lambda: self.one(["q=1"], ["bundle-symbolic-name=t", "bundle-version=1", "bundle-version:=1"], 0.15)])
        if kind in (6, 7):
            return "Require-Capability", self.clauses(GOOD_NAMES, [lambda: self.parameter("filter", ":=", self.one(FILTERS, BAD_FILTERS, 0.12)), resolution, effective, self.directive("cardinality", ["multiple", "single", "many"]), self.attribute])
        if kind in (8, 9):
            return "Provide-Capability", self.clauses(GOOD_NAMES, [self.attribute, self.attribute, effective, self.directive("uses", ["a,b"])])
        if kind == 10:
            return "Bundle-Activator", self.one(["a.B", "a.B", "B"], ["no.Such", "", " a.B", "a/B"], 0.15)
        return self.one([("X-Probe", "x"), ("Bundle-Name", "n\xc3\xa4me"), ("Created-By", "17"), ("DynamicImport-Package", "*"), ("Bundle-ActivationPolicy", "lazy"), ("Tool", "Bnd-6.3.1")],
                        [("Bundle-NativeCode", "x"), ("X Probe", "x"), ("X-Probe", "\xff"), ("-X", "x"), ("Nonsense", None), ("Bundle-NativeCode", "")], 0.12)

    def naming(self):
        name = self.one(["t", "a.b", "org.example.x-y_z", "A1"], ["a..b", "a b", "", " ", "a,b", ".", "a;b"], 0.06)
        return name + "".join(";" + it() for it in [self.directive("singleton", ["true", "false", "True"]), self.directive("fragment-attachment", ["never", "always", "x"]), self.attribute] if self.often(0.2))

    def folded(self, line, end):
        if not self.often(0.4):
            return line
        width = self.r.choice([3, 7, 20, 72])
        pieces = [line[:width]] + [line[at:at + width - 1] for at in range(width, len(line), width - 1)]
        return (end + " ").join(pieces)

    def manifest(self):
        headers = []
        if self.often(0.97):
            headers.append(("Bundle-ManifestVersion", self.one(["2"], ["1", "", " 2", "2.0"], 0.03)))
        if self.often(0.97):
            headers.append(("Bundle-SymbolicName", self.naming()))
        if self.often(0.8):
            headers.append(("Bundle-Version", self.version(0.05)))
        headers += [self.header() for _ in range(self.r.choice([0, 1, 1, 2, 2, 3, 4]))]
        if self.often(0.3):
            self.r.shuffle(headers)
        end = self.one(["\n", "\r\n", "\r"])
        lines = []
        for name, value in headers:
            name = self.one([name], [name.lower(), name.upper()], 0.15)
            line = name if value is None else name + self.one([": "], [":", ":  ", " : ", ":\t"], 0.06) + value
            lines.append(self.folded(line, end))
        text = end.join(lines) + self.one([end], ["", end + end + "Name: x" + end], 0.1)
        for _ in range(self.r.choice([1, 1, 2]) if self.often(0.25) else 0):
            at = self.r.randrange(len(text) + 1)
            how = self.r.randrange(3)
            text = text[:at] + (self.one(NOISE) if how else "") + text[at + (0 if how == 1 else 1):]
        return text

    def files(self):
        if self.often(0.75):
            return []
        path = self.one(["a/B.osc", "a/B.osc", "B.osc"], [".osc", "a/B", "no/Such.osc"], 0.1)
        return [(path, self.one(SCRIPTS, BAD_SCRIPTS, 0.3))] + ([("x y", "z")] if self.often(0.1) else [])

    def line(self):
        files = [(path.encode("latin-1"), data.encode("latin-1")) for path, data in self.files()]
        text = self.manifest()
        if "ctivator" in text.lower() and not files and self.often(0.8):
            files = [(b"a/B.osc", self.one(SCRIPTS, BAD_SCRIPTS, 0.2).encode("latin-1")), (b"B.osc", b"")]
        if self.often(0.01):
            return folder_line(*files)
        return manifest_line(text.encode("latin-1"), *files)


def main():
    seed, count = int(sys.argv[1]), int(sys.argv[2])
    maker = Maker(seed)
    for _ in range(count):
        line = maker.line()
        print(line if "--lines" in sys.argv else read_line(line))


if __name__ == "__main__":
    main()
