"""What is at fault in a folder that the program does not install, with its text: a part of `tools/check-bundles` and
`tools/trace`."""
import os
import re
import subprocess
import tempfile

from manifests import cut
from matching import limits, version

REFUSAL = re.compile(r"refused 7 ManifestError (\S+) (\S+) (\d+)")
MOST, MOST_LINE = 160, 65_536  # what is shown of a text; what a line may have
END = re.compile(rb"\r\n|\n|\r")
MARKS = {b"\xef\xbb\xbf": "a byte order mark (EF BB BF)", b"\xff\xfe": "a byte order mark of UTF-16",
         b"\xfe\xff": "a byte order mark of UTF-16"}
TOO_OLD = "no bundle of OSGi R4 or later: its manifest has no Bundle-ManifestVersion: 2"


class Fault:
    """What a refusal means: `told` says it, if there is more to say than the reply, and `lines` show the text."""

    def __init__(self, told="", lines=()):
        self.told, self.lines = told, list(lines)


def find(reply, folder, program):
    """What is at fault in a folder, by the program's reply to its install."""
    it = REFUSAL.fullmatch(reply.strip(" "))
    path = os.path.join(folder, "META-INF/MANIFEST.MF")
    if not it or not os.path.isfile(path):
        return Fault()
    with open(path, "rb") as opened:
        manifest = opened.read()
    header, kind, at = it[1], it[2], int(it[3])
    if kind == "Header":
        return of_line(manifest, at)
    value = value_of(manifest, header)
    if kind == "ManifestVersion":
        return of_manifest_version(value, manifest)
    if kind in ("NoScript", "BadScript"):
        return of_script(folder, f"{value.decode('utf-8', 'replace').replace('.', '/')}.osc", kind, program)
    return Fault() if value is None else Fault("", with_caret(header, kind, value, at))


def value_of(manifest, header):
    """The bytes of the last header of a name, in one line; none if there is none."""
    section = re.split(rb"\n\n", END.sub(b"\n", manifest), maxsplit=1)[0].replace(b"\n ", b"")
    begin = header.lower().encode() + b":"
    values = [line[len(begin):] for line in section.split(b"\n") if line.lower().startswith(begin)]
    return re.sub(rb"\A ", b"", values[-1]) if values else None


def of_manifest_version(value, manifest):
    if value is None:
        early = re.match(rb"(\s*\n|\s*\r)", manifest)
        return Fault("its manifest begins with an empty line, which ends the main section" if early else TOO_OLD)
    if value.strip() == b"2":
        is_after = value.startswith(b"2")
        caret = " " * (len("Bundle-ManifestVersion: '") + is_after) + "^"
        return Fault(f"a blank stands {'after' if is_after else 'before'} the 2",
                     [f"Bundle-ManifestVersion: {shown(value)}", caret])
    return Fault(f"it is {shown(value)}, and not 2: no bundle of OSGi R4 or later")


def of_line(manifest, at):
    """The line of the manifest that is no header, and why it is none."""
    number = len(END.findall(manifest[:at])) + 1
    line = END.split(manifest[at:], maxsplit=1)[0]
    mark = next((told for bytes_, told in MARKS.items() if manifest.startswith(bytes_)), "") if at == 0 else ""
    if mark:
        return Fault(f"its manifest begins with {mark}, which no header may have: save it without",
                     [f"line 1: {shown(line)}", "        ^"])
    name = line.split(b":", 1)[0]
    if len(line) > MOST_LINE:
        why = f"it has more than {MOST_LINE} bytes"
    elif b":" not in line:
        why = "it has no colon" + ", and does not begin with a space, so it continues nothing" * (at > 0)
    elif not re.fullmatch(rb"[A-Za-z0-9][\w-]*", name, re.ASCII):
        why = "a name has letters, digits, _ and - alone, and this one is " + repr(name.decode("utf-8", "replace"))
    else:
        why = "it is not UTF-8"
    return Fault(f"line {number} of its manifest is no header: {why}", [f"line {number}: {shown(line)}"])


def of_script(folder, name, kind, program):
    """The line at which a text stops being a script. The program says it, of the script's first lines alone."""
    if kind == "NoScript":
        return Fault(f"there is no file {name}")
    with open(os.path.join(folder, name), "rb") as it:
        lines = it.read().split(b"\n")
    with tempfile.TemporaryDirectory() as room:
        os.makedirs(f"{room}/b/META-INF")
        with open(f"{room}/b/META-INF/MANIFEST.MF", "w", encoding="ascii") as it:
            it.write("Bundle-ManifestVersion: 2\nBundle-SymbolicName: b\nBundle-Activator: a\n")
        good, bad = 0, len(lines)
        while good + 1 < bad:
            middle = (good + bad) // 2
            with open(f"{room}/b/a.osc", "wb") as it:
                it.write(b"\n".join(lines[:middle]) + b"\n")
            ran = subprocess.run([program, "run"], cwd=room, input=b"install b\n", stdout=subprocess.PIPE, check=False)
            good, bad = (good, middle) if ran.stdout.endswith(b" BadScript 0\n") else (middle, bad)
    line = lines[bad - 1][:-1] if lines[bad - 1].endswith(b"\r") else lines[bad - 1]
    return Fault(f"line {bad} of {name} cannot stand there", [f"{name}, line {bad}: {shown(line)}"])


# ---- clauses

def with_caret(header, kind, value, at):
    """The faulty clause of a header, and a caret under the part of it that is at fault."""
    text = value[at:].decode("utf-8", "replace").replace("\t", " ")
    clause = re.match(r'(?:"(?:\\.|[^"\\])*"|[^",])*("[^"]*\Z)?', text)[0]
    part = part_at(kind, clause)
    start = max(0, part - MOST // 2)
    label = f"{header}: {'.. ' * (at + start > 0)}"
    more = " .." * (start + MOST < len(text) or len(clause) < len(text))
    place = at + len(clause[:part].encode())
    return [f"{label}{clause[start:start + MOST]}{more}", f"{' ' * (len(label) + part - start)}^ byte {place}"]


def part_at(kind, clause):
    """Where the part of a clause begins that is at fault, as far as one can be named."""
    for it in re.finditer(r'(?:"(?:\\.|[^"\\])*"|[^";])+', clause):
        name, _, value = (text.strip(" ") for text in it[0].partition("="))
        value = value[1:-1] if value[:1] == '"' else value
        key = name.rstrip(":").split(":")[0].strip(" ")
        is_version = key in ("version", "bundle-version") and not name.endswith(":")
        if {"BadRange": is_version and not limits(value), "BadVersion": is_version and not version(value),
                "BadFilter": name == "filter:", "DoubleType": re.search(r":.*\bDouble\b", name)}.get(kind):
            return it.start() + len(it[0]) - len(it[0].lstrip(" "))
    return len(clause) - len(clause.lstrip(" ")) if cut(clause, ";") else 0


def shown(data):
    """Bytes as a text in quotes where blanks at its ends or other signs would not be seen."""
    text = data.decode("utf-8", "backslashreplace")
    text = text if len(text) <= MOST else f"{text[:MOST]} .."
    return text if text.isprintable() and text == text.strip() else "'" + text.encode("unicode_escape").decode() + "'"
