"""A plain, slow model of what a bundle's folder means by its manifest.

    read(files) -> Revision or Fault

`files` is a dict or a list of pairs from path to bytes (both `bytes`); a list may have one path twice, of which the first
counts. `show(answer)` is the answer's text, one line. `read_line(line)` answers a line of the case file.

Nothing here is quick or clever: each rule is a function, and each looks at whole lists again and again.
"""
from dataclasses import dataclass, field
from typing import Optional

WHITE = b"\t\n\x0c\r "          # white space of versions, ranges, numbers and filters
BLANKS = b" \t"                 # spaces and tabs: all that a header's value drops
LETTERS = b"abcdefghijklmnopqrstuvwxyzABCDEFGHIJKLMNOPQRSTUVWXYZ"
DIGITS = b"0123456789"


def made_of(text, allowed):
    """One or more bytes, all of them allowed."""
    return len(text) > 0 and all(b in allowed for b in text)


# ---------------------------------------------------------------- lines and headers

MAX_LINE = 65_536
HEADER_BYTES = LETTERS + DIGITS + b"-_"


@dataclass
class Line:
    at: int
    text: bytes


@dataclass
class LineFault(Exception):
    kind: str
    at: int


def section_lines(data):
    """The lines of the main section: up to the first empty line, or to the end."""
    lines, at = [], 0
    while at < len(data):
        end = at
        while end < len(data) and data[end] not in b"\r\n":
            end += 1
        if end == at:
            break                                   # an empty line
        lines.append(Line(at, data[at:end]))
        if data[end:end + 2] == b"\r\n":
            end += 2
        elif end < len(data):
            end += 1
        at = end
    return lines


def grouped(lines):
    """The lines of each header. The first line of all begins a header, whatever it begins with."""
    groups = []
    for line in lines:
        if groups and line.text[:1] == b" ":
            groups[-1].append(line)
        else:
            groups.append([line])
    return groups


def header(group):
    """Name and value of the header that these lines are."""
    first = group[0]
    joined = first.text + b"".join(line.text[1:] for line in group[1:])
    if len(first.text) > MAX_LINE:
        raise LineFault("LongLine", first.at)
    if b":" not in joined:
        raise LineFault("NoColon", first.at)
    name, value = joined.split(b":", 1)
    if not made_of(name, HEADER_BYTES) or name[:1] in (b"-", b"_"):
        raise LineFault("BadName", first.at)
    try:
        joined.decode("utf-8")
    except UnicodeDecodeError:
        raise LineFault("BadUtf8", first.at) from None
    for line in group[1:]:
        if len(line.text) > MAX_LINE:
            raise LineFault("LongLine", line.at)
    if value[:1] == b" ":
        value = value[1:]
    return name, value


def lower(name):
    return bytes(b + 32 if 65 <= b <= 90 else b for b in name)


def unfold(data):
    """The headers that count, as (name, value): of those with one name the last."""
    every = [header(group) for group in grouped(section_lines(data))]
    return [(name, value) for at, (name, value) in enumerate(every)
            if not any(lower(name) == lower(later) for later, _ in every[at + 1:])]


# ---------------------------------------------------------------- clauses

NAME_BYTES = LETTERS + DIGITS + b"_-."


@dataclass
class Clause:
    at: int
    paths: list
    directives: list      # (name, value)
    attributes: list      # (name, type, value)


class NoClause(Exception):
    pass


def cut(text, separator):
    """The parts of a text between separators outside quotes, each with its place. A quotation mark outside quotes opens a
    quoted text wherever it stands; within quotes a backslash takes a quotation mark or a backslash after it."""
    parts, begin, at, quoted = [], 0, 0, False
    while at < len(text):
        if quoted and text[at:at + 1] == b"\\" and text[at + 1:at + 2] in (b'"', b"\\"):
            at += 1
        elif text[at:at + 1] == b'"':
            quoted = not quoted
        elif not quoted and text[at:at + 1] == separator:
            parts.append((begin, text[begin:at]))
            begin = at + 1
        at += 1
    return parts + [(begin, text[begin:])]


def value_of(text):
    text = text.strip(BLANKS)
    if text[:1] != b'"':
        if b'"' in text or b"," in text or b";" in text:
            raise NoClause
        return text
    out, at = b"", 1
    while True:
        here = text[at:at + 1]
        if here == b"":
            raise NoClause                          # the quotes do not end
        if here == b'"':
            if at + 1 != len(text):
                raise NoClause                      # something after them
            return out
        if here == b"\\" and text[at + 1:at + 2] in (b'"', b"\\"):
            at += 1
            here = text[at:at + 1]
        out += here
        at += 1


def path_of(text):
    text = text.strip(BLANKS)
    if text == b"" or any(b in b',;:="' for b in text):
        raise NoClause
    return text


def parameter_name(text):
    text = text.strip(BLANKS)
    if not made_of(text, NAME_BYTES):
        raise NoClause
    return text


def clause_of(at, text):
    """The clause that a text is: paths, then parameters."""
    clause = Clause(at, [], [], [])
    parameters = False
    for _, part in cut(text, b";"):
        if b"=" not in part:
            if parameters:
                raise NoClause
            clause.paths.append(path_of(part))
            continue
        if not clause.paths:
            raise NoClause
        parameters = True
        before, value = part.split(b"=", 1)
        if before[-1:] == b":":
            clause.directives.append((parameter_name(before[:-1]), value_of(value)))
        elif b":" in before:
            name, kind = before.split(b":", 1)
            clause.attributes.append((parameter_name(name), path_of(kind), value_of(value)))
        else:
            clause.attributes.append((parameter_name(before), b"String", value_of(value)))
    return clause


def clauses_of(value):
    """The clauses of a value up to the first text that is none, and the place of that text, if there is one."""
    if value.strip(BLANKS) == b"":
        return [], None
    clauses = []
    for at, text in cut(value, b","):
        try:
            clauses.append(clause_of(at, text))
        except NoClause:
            return clauses, at
    return clauses, None


def repeats(clause):
    """It has an attribute or a directive twice."""
    names = [name for name, _, _ in clause.attributes]
    directives = [name for name, _ in clause.directives]
    return len(set(names)) < len(names) or len(set(directives)) < len(directives)


def directive(clause, name):
    found = [value for given, value in clause.directives if given == name]
    return found[0] if found else None


def attribute(clause, name):
    found = [value for given, _, value in clause.attributes if given == name]
    return found[0] if found else None


def names(text):
    """The elements of `uses`, `mandatory` and such; none for a directive that is not there."""
    return [] if text is None else [name.strip(BLANKS) for name in text.split(b",")]


# ---------------------------------------------------------------- versions, ranges and values

MAX_NUMBER = 2_147_483_647


def number(digits):
    """The number that digits write, cut to 30 of them, which is more than any type holds."""
    return int((digits.lstrip(b"0") or b"0")[:30])


def version(text):
    """(major, minor, micro, qualifier), or None."""
    text = text.strip(WHITE)
    if text == b"":
        return 0, 0, 0, b""
    parts = text.split(b".", 3)
    if not all(made_of(part, DIGITS) for part in parts[:3]):
        return None
    if any(number(part) > MAX_NUMBER for part in parts[:3]):
        return None
    if len(parts) == 4 and not made_of(parts[3], LETTERS + DIGITS + b"_-"):
        return None
    numbers = [number(part) for part in parts[:3]] + [0, 0]
    return numbers[0], numbers[1], numbers[2], parts[3] if len(parts) == 4 else b""


@dataclass
class Range:
    low: tuple
    low_in: bool = True
    high: Optional[tuple] = None
    high_in: bool = False


def version_range(text):
    """The range that a text reads as, or None."""
    text = text.strip(WHITE)
    if text[:1] not in (b"[", b"("):
        low = version(text)
        return None if low is None else Range(low)
    if len(text) < 2 or text[-1:] not in (b"]", b")") or text.count(b",") != 1:
        return None
    low, high = (version(bound) for bound in text[1:-1].split(b","))
    if low is None or high is None:
        return None
    return Range(low, text[:1] == b"[", high, text[-1:] == b"]")


def long_of(text):
    text = text.strip(WHITE)
    digits = text[1:] if text[:1] in (b"+", b"-") else text
    if not made_of(digits, DIGITS):
        return None
    found = -number(digits) if text[:1] == b"-" else number(digits)
    return found if -2 ** 63 <= found < 2 ** 63 else None


def elements(text):
    out, element, at = [], b"", 0
    while at < len(text):
        here = text[at:at + 1]
        if here == b"\\" and text[at + 1:at + 2] in (b",", b"\\"):
            at += 1
            element += text[at:at + 1]
        elif here == b",":
            out.append(element)
            element = b""
        else:
            element += here
        at += 1
    return out + [element]


def scalar(kind, text):
    if kind == b"String":
        return "text", text
    read = version(text) if kind == b"Version" else long_of(text)
    return None if read is None else ("version" if kind == b"Version" else "long", read)


LISTS = {b"List": b"String", b"List<String>": b"String", b"List<Version>": b"Version", b"List<Long>": b"Long"}


def typed_value(kind, text):
    """The value of a text by the name of its type; None where the type is unknown or the text is no value of it."""
    if kind in (b"String", b"Version", b"Long"):
        return scalar(kind, text)
    if kind not in LISTS:
        return None
    values = [scalar(LISTS[kind], element) for element in elements(text)]
    return None if None in values else ("list", values)


# ---------------------------------------------------------------- filters

MAX_LEVELS = 64
OUTSIDE_NAMES = b"=<>~()"


class NoFilter(Exception):
    pass


def skip_white(text, at):
    while text[at:at + 1] != b"" and text[at] in WHITE:
        at += 1
    return at


def item_value(text, at, stars):
    """The pieces of the value that stands here, and the place of the `)` after it."""
    pieces = [b""]
    while True:
        here = text[at:at + 1]
        if here in (b"", b"("):
            raise NoFilter
        if here == b")":
            return pieces, at
        if here == b"\\":
            at += 1
            if text[at:at + 1] == b"":
                raise NoFilter
            pieces[-1] += text[at:at + 1]
        elif here == b"*" and stars:
            pieces.append(b"")
        else:
            pieces[-1] += here
        at += 1


def item_at(text, at):
    begin = skip_white(text, at)
    end = begin
    while text[end:end + 1] != b"" and text[end] not in OUTSIDE_NAMES:
        end += 1
    name = text[begin:end].rstrip(WHITE)
    if name == b"":
        raise NoFilter
    for sign in (b"=", b"~=", b">=", b"<="):
        if text[end:end + len(sign)] == sign:
            begin = end + len(sign)
            pieces, end = item_value(text, begin, sign == b"=")
            present = sign == b"=" and text[begin:end] == b"*"
            return ("item", name, sign, "present" if present else pieces), end + 1
    raise NoFilter


def filter_at(text, at, level):
    """The filter whose `(` stands here, and the place after its `)`."""
    if text[at:at + 1] != b"(" or level > MAX_LEVELS:
        raise NoFilter
    sign = text[at + 1:at + 2]
    inner = skip_white(text, at + 2)
    if sign not in (b"&", b"|", b"!") or text[inner:inner + 1] != b"(":
        return item_at(text, at + 1)
    operands = []
    while text[inner:inner + 1] == b"(" and not (sign == b"!" and operands):
        operand, inner = filter_at(text, inner, level + 1)
        operands.append(operand)
        inner = skip_white(text, inner)
    if text[inner:inner + 1] != b")":
        raise NoFilter
    return ("composed", sign, operands), inner + 1


def filter_of(text):
    """The filter that a text reads as, or None."""
    try:
        found, at = filter_at(text, skip_white(text, 0), 1)
    except NoFilter:
        return None
    return found if skip_white(text, at) == len(text) else None


def filter_text(it):
    if it[0] == "composed":
        return b"(" + it[1] + b"".join(filter_text(operand) for operand in it[2]) + b")"
    _, name, sign, pieces = it
    if pieces == "present":
        return b"(" + name + b"=*)"
    escaped = [b"".join(b"\\" + bytes([b]) if b in b"()*\\" else bytes([b]) for b in piece) for piece in pieces]
    return b"(" + name + sign + b"*".join(escaped) + b")"


# ---------------------------------------------------------------- scripts

MAX_STATEMENTS = 256


class NoScript(Exception):
    pass


def require(condition):
    if not condition:
        raise NoScript


def script_lines(data):
    """Lines end by LF or CRLF, the last need not."""
    parts = data.split(b"\n")
    lines = [part[:-1] if part[-1:] == b"\r" else part for part in parts[:-1]]
    return lines + ([parts[-1]] if parts[-1] else [])


def next_word(rest):
    """The next word of a line, and what is left after it."""
    rest = rest.lstrip(b" ")
    require(rest != b"")
    return rest.split(b" ", 1)[0], rest[len(rest.split(b" ", 1)[0]):]


def next_quoted(rest):
    """The text between quotes that is next, and what is left, which is nothing or begins with a space."""
    rest = rest.lstrip(b" ")
    require(rest[:1] == b'"')
    out, at = b"", 1
    while rest[at:at + 1] != b'"':
        require(at < len(rest))
        if rest[at:at + 1] == b"\\" and rest[at + 1:at + 2] in (b'"', b"\\"):
            at += 1
        out += rest[at:at + 1]
        at += 1
    left = rest[at + 1:]
    require(left == b"" or left[:1] == b" ")
    return out, left


def is_name(word):
    return made_of(word, LETTERS + DIGITS + b"_") and word[0] not in DIGITS


def is_class(word):
    return made_of(word, LETTERS + DIGITS + b"_$.")


def is_symbolic_name(word):
    return all(made_of(part, LETTERS + DIGITS + b"_-") for part in word.split(b"."))


def take_property(rest):
    """Takes a property, and gives what is left."""
    rest = rest.lstrip(b" ")
    end = 0
    while end < len(rest) and rest[end] not in b' :="':
        end += 1
    require(end > 0)
    kind = b"String"
    if rest[end:end + 1] == b":":
        require(b"=" in rest[end:])
        sign = rest.index(b"=", end)
        kind, end = rest[end + 1:sign], sign
    require(rest[end:end + 1] == b"=")
    rest = rest[end + 1:]
    if rest[:1] == b'"':
        text, left = next_quoted(rest)
    else:
        text = rest.split(b" ", 1)[0]
        left = rest[len(text):]
        require(b'"' not in text)
    require(typed_value(kind, text) is not None)
    return left


def take_properties(rest):
    while rest.strip(b" "):
        rest = take_property(rest)


def require_filter(rest):
    require(rest.strip(b" ") == b"" or filter_of(rest) is not None)


def require_end(rest):
    require(rest.strip(b" ") == b"")


def statement(line):
    word, rest = next_word(line)
    if word == b"register":
        name, rest = next_word(rest)
        classes, rest = next_word(rest)
        require(is_name(name) and all(is_class(it) for it in classes.split(b",")))
        _, rest = next_quoted(rest)
        take_properties(rest)
    elif word == b"modify":
        name, rest = next_word(rest)
        require(is_name(name))
        take_properties(rest)
    elif word in (b"unregister", b"get", b"unget", b"unlisten", b"job"):
        name, rest = next_word(rest)
        require(is_name(name))
        require_end(rest)
    elif word == b"find":
        name, rest = next_word(rest)
        wanted, rest = next_word(rest)
        require(is_name(name) and is_class(wanted))
        require_filter(rest)
    elif word in (b"start", b"stop"):
        name, rest = next_word(rest)
        require(is_symbolic_name(name))
        require_end(rest)
    elif word == b"load":
        name, rest = next_word(rest)
        require(is_class(name))
        require_end(rest)
    elif word == b"listen":
        name, rest = next_word(rest)
        kind, rest = next_word(rest)
        require(is_name(name) and kind in (b"service", b"all", b"bundle", b"framework"))
        require_filter(rest)
    elif word in (b"print", b"fail"):
        _, rest = next_quoted(rest)
        require_end(rest)
    else:
        raise NoScript


def section_head(line):
    """The head of a section, as its words; None where the line is none."""
    words = [word for word in line.split(b" ") if word]
    if words in ([b"start:"], [b"stop:"]):
        return tuple(words)
    if len(words) == 2 and words[0] in (b"on", b"job") and words[1][-1:] == b":" and is_name(words[1][:-1]):
        return tuple(words)
    return None


def section_counts(data):
    """How many statements each section of a script has; None where the text is no script."""
    heads, counts = [], []
    for line in script_lines(data):
        if line.strip(b" ") == b"" or line.lstrip(b" ")[:1] == b"#":
            continue
        head = section_head(line)
        if head is not None:
            if head in heads:
                return None
            heads.append(head)
            counts.append(0)
            continue
        if not heads or counts[-1] == MAX_STATEMENTS:
            return None
        try:
            statement(line)
        except NoScript:
            return None
        counts[-1] += 1
    return counts


# ---------------------------------------------------------------- what a folder means

BUNDLE, PACKAGE = b"osgi.wiring.bundle", b"osgi.wiring.package"


@dataclass
class Requirement:
    namespace: bytes
    name: bytes
    range: Range = field(default_factory=lambda: Range((0, 0, 0, b"")))
    from_name: Optional[bytes] = None
    from_range: Range = field(default_factory=lambda: Range((0, 0, 0, b"")))
    equal: list = field(default_factory=list)
    filter: Optional[tuple] = None
    optional: bool = False
    multiple: bool = False
    reexport: bool = False
    effective: bool = True


@dataclass
class Capability:
    namespace: bytes
    name: bytes
    attributes: list
    uses: list
    mandatory: list


@dataclass
class Revision:
    name: bytes
    version: tuple
    singleton: bool
    attach: bool
    host: Optional[Requirement]
    activator: Optional[bytes]
    script: list
    capabilities: list
    requirements: list
    files: list


@dataclass
class Fault(Exception):
    header: bytes
    kind: str
    at: int


def is_java(package):
    return package == b"java" or package.startswith(b"java.")


def is_reserved(namespace):
    return namespace == b"osgi.identity" or namespace.startswith(b"osgi.wiring.")


def bad_range(clause, name):
    return version_range(attribute(clause, name) or b"") is None


def double_type(clause):
    return any(kind == b"Double" for _, kind, _ in clause.attributes)


def bad_value(clause):
    return any(typed_value(kind, value) is None for _, kind, value in clause.attributes)


def duplicate(before, clause):
    packages = [path for earlier in before for path in earlier.paths]
    for path in clause.paths:
        if path in packages:
            return True
        packages.append(path)
    return False


# The faults of a clause in order, by its header: each a kind and a test of the clauses before it and of the clause. The
# last word of the header's line is the kind of a value outside the grammar of clauses.

NAMING = [
    ("BadName", lambda before, it: bool(before) or repeats(it) or len(it.paths) != 1 or not is_symbolic_name(it.paths[0])),
]
HOSTING = [
    ("BadClause", lambda before, it: bool(before) or repeats(it) or len(it.paths) != 1),
    ("BadRange", lambda before, it: bad_range(it, b"bundle-version")),
    ("Extension", lambda before, it: directive(it, b"extension") is not None),
]
REQUIRING_BUNDLES = [
    ("BadClause", lambda before, it: repeats(it)),
    ("BadRange", lambda before, it: bad_range(it, b"bundle-version")),
]
IMPORTING = [
    ("BadClause", lambda before, it: repeats(it)),
    ("BadRange", lambda before, it: bad_range(it, b"version") or bad_range(it, b"bundle-version")),
    ("DoubleType", lambda before, it: double_type(it)),
    ("BadValue", lambda before, it: bad_value(it)),
    ("DuplicateImport", duplicate),
]
EXPORTING = [
    ("BadClause", lambda before, it: repeats(it)),
    ("BadVersion", lambda before, it: version(attribute(it, b"version") or b"") is None),
    ("DoubleType", lambda before, it: double_type(it)),
    ("BadValue", lambda before, it: bad_value(it)),
    ("JavaExport", lambda before, it: any(is_java(path) for path in it.paths)),
    ("ImplicitAttribute", lambda before, it: any(name in (b"bundle-symbolic-name", b"bundle-version") for name, _, _ in it.attributes)),
]
REQUIRING = [
    ("BadClause", lambda before, it: repeats(it)),
    ("BadFilter", lambda before, it: directive(it, b"filter") is not None and filter_of(directive(it, b"filter")) is None),
    ("ReservedNamespace", lambda before, it: any(is_reserved(path) for path in it.paths)),
]
PROVIDING = [
    ("BadClause", lambda before, it: repeats(it)),
    ("DoubleType", lambda before, it: double_type(it)),
    ("BadValue", lambda before, it: bad_value(it)),
    ("ReservedNamespace", lambda before, it: any(is_reserved(path) for path in it.paths)),
]


def checked(headers, name, faults, outside="BadClause"):
    """The clauses of a header; none where it is not there. The first faulty clause counts, whatever its kind."""
    if name not in headers:
        return []
    clauses, end = clauses_of(headers[name])
    for place, clause in enumerate(clauses):
        for kind, has in faults:
            if has(clauses[:place], clause):
                raise Fault(name, kind, clause.at)
    if end is not None:
        raise Fault(name, outside, end)
    return clauses


HEADERS = [b"Bundle-ManifestVersion", b"Bundle-SymbolicName", b"Bundle-Version", b"Fragment-Host", b"Require-Bundle", b"Import-Package",
           b"Export-Package", b"Require-Capability", b"Provide-Capability", b"Bundle-Activator", b"Bundle-NativeCode"]


def attributes(clause, without=()):
    return [(name, typed_value(kind, value)) for name, kind, value in clause.attributes if name not in without]


PACKAGE_ATTRIBUTES = (b"version", b"bundle-symbolic-name", b"bundle-version")


def is_optional(clause):
    return directive(clause, b"resolution") == b"optional"


def takes_part(clause):
    return directive(clause, b"effective") in (None, b"resolve")


def bundle_requirement(clause, path):
    return Requirement(BUNDLE, path, range=version_range(attribute(clause, b"bundle-version") or b""), optional=is_optional(clause),
                       reexport=directive(clause, b"visibility") == b"reexport")


def host_requirement(clause):
    return Requirement(BUNDLE, clause.paths[0], range=version_range(attribute(clause, b"bundle-version") or b""))


def import_requirement(clause, path):
    return Requirement(PACKAGE, path, range=version_range(attribute(clause, b"version") or b""), from_name=attribute(clause, b"bundle-symbolic-name"),
                       from_range=version_range(attribute(clause, b"bundle-version") or b""), equal=attributes(clause, PACKAGE_ATTRIBUTES),
                       optional=is_optional(clause))


def generic_requirement(clause, path):
    text = directive(clause, b"filter")
    return Requirement(path, path, filter=None if text is None else filter_of(text), optional=is_optional(clause), effective=takes_part(clause),
                       multiple=directive(clause, b"cardinality") == b"multiple")


def export_capability(clause, path):
    given = attributes(clause, (b"version",)) + [(b"version", ("version", version(attribute(clause, b"version") or b"")))]
    return Capability(PACKAGE, path, given, names(directive(clause, b"uses")), names(directive(clause, b"mandatory")))


def made(clauses, make):
    return [make(clause, path) for clause in clauses for path in clause.paths]


def file_at(files, path):
    found = [data for name, data in files if name == path]
    return found[0] if found else None


def answer_of(files):
    manifest = file_at(files, b"META-INF/MANIFEST.MF")
    if manifest is None:
        raise Fault(b"", "NoManifest", 0)
    try:
        given = unfold(manifest)
    except LineFault as fault:
        raise Fault(b"", "Header", fault.at) from None
    # by the names as this file spells them
    headers = {known: value for known in HEADERS for name, value in given if lower(name) == lower(known)}

    if headers.get(b"Bundle-ManifestVersion") != b"2":
        raise Fault(b"Bundle-ManifestVersion", "ManifestVersion", 0)
    if headers.get(b"Bundle-SymbolicName", b"").strip(BLANKS) == b"":
        raise Fault(b"Bundle-SymbolicName", "NoName", 0)
    naming = checked(headers, b"Bundle-SymbolicName", NAMING, "BadName")[0]
    own_version = version(headers.get(b"Bundle-Version", b""))
    if own_version is None:
        raise Fault(b"Bundle-Version", "BadVersion", 0)
    is_fragment = b"Fragment-Host" in headers
    if is_fragment and headers[b"Fragment-Host"].strip(BLANKS) == b"":
        raise Fault(b"Fragment-Host", "BadClause", 0)
    hosting = checked(headers, b"Fragment-Host", HOSTING)
    bundles = checked(headers, b"Require-Bundle", REQUIRING_BUNDLES)
    imports = checked(headers, b"Import-Package", IMPORTING)
    exports = checked(headers, b"Export-Package", EXPORTING)
    required = checked(headers, b"Require-Capability", REQUIRING)
    provided = checked(headers, b"Provide-Capability", PROVIDING)
    activator = None if is_fragment else headers.get(b"Bundle-Activator")
    counts = []
    if activator is not None:
        script = file_at(files, activator.replace(b".", b"/") + b".osc")
        if script is None:
            raise Fault(b"Bundle-Activator", "NoScript", 0)
        counts = section_counts(script)
        if counts is None:
            raise Fault(b"Bundle-Activator", "BadScript", 0)
    if b"Bundle-NativeCode" in headers:
        raise Fault(b"Bundle-NativeCode", "NativeCode", 0)

    own = [] if is_fragment else [Capability(BUNDLE, naming.paths[0], [], [], [])]
    return Revision(
        name=naming.paths[0],
        version=own_version,
        singleton=directive(naming, b"singleton") == b"true",
        attach=directive(naming, b"fragment-attachment") != b"never",
        host=host_requirement(hosting[0]) if is_fragment else None,
        activator=activator,
        script=counts,
        capabilities=own + made(exports, export_capability)
        + made([clause for clause in provided if takes_part(clause)], lambda clause, path: Capability(path, path, attributes(clause), [], [])),
        requirements=made(bundles, bundle_requirement)
        + [import_requirement(clause, path) for clause in imports for path in clause.paths if not is_java(path)]
        + made(required, generic_requirement),
        files=[name for name, _ in files])


def read(files):
    """The revision that the folder means, or the first fault."""
    files = list(files.items()) if isinstance(files, dict) else files
    try:
        return answer_of(files)
    except Fault as fault:
        return fault


# ---------------------------------------------------------------- answers as text

def shown(data, but=b""):
    """Bytes as a line shows them; `but` are bytes that are written by their numbers though they could stand as they are."""
    named = {10: "\\n", 13: "\\r", 9: "\\t", 92: "\\\\"}
    return "".join(named.get(b) or (chr(b) if 32 <= b <= 126 and b not in but else f"\\x{b:02x}") for b in data)


def show_version(it):
    major, minor, micro, qualifier = it
    return f"{major}.{minor}.{micro}" + (f".{qualifier.decode()}" if qualifier else "")


def show_range(it):
    if it.high is None:
        return show_version(it.low)
    return f"{'[' if it.low_in else '('}{show_version(it.low)},{show_version(it.high)}{']' if it.high_in else ')'}"


def show_texts(texts):
    return "[" + "".join(shown(text) + "|" for text in texts) + "]"


def show_value(value):
    kind, it = value
    if kind == "text":
        return f'"{shown(it)}"'
    if kind == "long":
        return str(it)
    if kind == "version":
        return show_version(it)
    return "[" + "".join(show_value(one) + "|" for one in it) + "]"


def show_attributes(them):
    return "{" + "".join(f"{shown(name)}={show_value(value)}|" for name, value in them) + "}"


def show_requirement(it):
    return (f"{shown(it.namespace)} {shown(it.name)} {show_range(it.range)} {'-' if it.from_name is None else shown(it.from_name)} "
            f"{show_range(it.from_range)} {show_attributes(it.equal)}{' optional' if it.optional else ' mandatory'}{' multiple' if it.multiple else ''}"
            f"{' reexport' if it.reexport else ''}{'' if it.effective else ' ineffective'}"
            f"{'' if it.filter is None else ' filter ' + shown(filter_text(it.filter))};")


def show_capability(it):
    return (f"{shown(it.namespace)} {shown(it.name)} {show_attributes(it.attributes)} uses {show_texts(it.uses)} "
            f"mandatory {show_texts(it.mandatory)};")


def show_fault(it):
    return f"fault {shown(it.header) or '-'} {it.kind} {it.at}"


def show_activator(it):
    return f"activator: {'none' if it.activator is None else chr(34) + shown(it.activator) + chr(34)}"


def show_script(answer):
    if isinstance(answer, Fault):
        return show_fault(answer)
    return f"{shown(answer.name)} {show_activator(answer)} script: [{''.join(f'{count}|' for count in answer.script)}]"


def show(answer):
    if isinstance(answer, Fault):
        return show_fault(answer)
    it = answer
    return (f"{shown(it.name)} {show_version(it.version)} {'singleton' if it.singleton else 'no-singleton'} {'attach' if it.attach else 'no-attach'} "
            f"host: {'none' if it.host is None else show_requirement(it.host)} "
            f"{show_activator(it)} "
            f"capabilities: {''.join(show_capability(one) for one in it.capabilities) or 'none'} "
            f"requirements: {''.join(show_requirement(one) for one in it.requirements) or 'none'} "
            f"files: {show_texts(it.files)}")


# ---------------------------------------------------------------- lines of the case file

def plain(text):
    """The bytes that a text of a line stands for."""
    out, at = b"", 0
    while at < len(text):
        if text[at] != "\\":
            out += text[at].encode("latin-1")
            at += 1
        elif text[at + 1] == "x":
            out += bytes([int(text[at + 2:at + 4], 16)])
            at += 4
        else:
            out += {"n": b"\n", "r": b"\r", "t": b"\t"}.get(text[at + 1]) or text[at + 1].encode("latin-1")
            at += 2
    return out


def in_line(data):
    """Bytes as a line of the case file writes them: no `|`, and no space at the end."""
    text = shown(data, b"|")
    return text[:-1] + "\\x20" if text.endswith(" ") else text


def in_path(path):
    return shown(path, b"| ")


def folder_of(line):
    """The files of a line."""
    pieces = line.split("|")
    word, text = (pieces[0].split(" ", 1) + [""])[:2]
    if word == "long":
        times, before = (text.split(" ", 1) + [""])[:2]
        return [(b"META-INF/MANIFEST.MF", plain(before) + b"x" * int(times) + plain(pieces[1]))]
    files = [(b"META-INF/MANIFEST.MF", plain(text))] if word in ("manifest", "script") else []
    for piece in pieces[1:]:
        path, data = (piece.split(" ", 2) + [""])[1:3]
        files.append((plain(path), plain(data)))
    return files


def read_line(line):
    """The line with its answer."""
    if line == "" or line.startswith("#"):
        return line
    shown_as = show_script if line.startswith("script ") else show
    return f"{line} => {shown_as(read(folder_of(line)))}"


def manifest_line(data, *files):
    """The line of a manifest, with further files as pairs of path and bytes."""
    return f"manifest {in_line(data)}{pieces_line(files)}".rstrip()


def folder_line(*files):
    """The line of a folder that has these files only."""
    return f"folder {pieces_line(files)}".rstrip()


def pieces_line(files):
    return "".join(f"|file {in_path(path)} {in_line(text)}" if text else f"|file {in_path(path)}" for path, text in files)


if __name__ == "__main__":
    import sys
    for given in sys.stdin.read().splitlines():
        print(read_line(given))
