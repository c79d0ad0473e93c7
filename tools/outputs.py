"""What tools write besides lines: JSON, of which docs/TOOLS.md has the schema, JUnit's XML, a counter at a terminal."""
import json
import re
import sys
import xml.etree.ElementTree as xml

SCHEMA = 1


def write_json(tool, status, **parts):
    """Writes what a tool found as JSON, to standard output, and gives the status."""
    json.dump({"tool": tool, "schema": SCHEMA, "status": status, **parts}, sys.stdout, indent=1)
    print()
    return status


def said(text):
    """A text without signs that neither JSON nor XML can hold: those of names of files that are not UTF-8."""
    text = text.encode("utf-8", "backslashreplace").decode()
    return re.sub("[\x00-\x08\x0b\x0c\x0e-\x1f\ufffe\uffff]", lambda it: f"\\x{ord(it[0]):02x}", text)


def bundle(it):
    """A bundle by its name and version, as `str` tells it; a fragment's host that stands for it likewise."""
    return {"name": it.name, "version": it.version}


def requirement(need):
    """A requirement: whose it is, and what it asks for."""
    return {"owner": bundle(need.owner), "kind": need.kind, "name": need.name, "text": str(need)}


def of_set(bundles, first, causes, notes, counts):
    """The parts of what tools/check-bundles writes."""
    rows = []
    for it in bundles:
        name, version = it.title.split(" ") if it.number else (None, None)
        rows.append({"file": said(it.word), "name": name, "version": version, "state": it.state, "why": said(it.why),
                     "fault": [said(line) for line in it.fault], "needs": [requirement(need) for need in it.needs],
                     "causes": [at for at, cause in enumerate(causes) if it in cause.fallen]})
    told = [{"texts": [said(text) for text in it.texts], "falls": len(it.fallen),
             "bundles": [one.title for one in it.fallen], "alone": [one.title for one in it.alone]} for it in causes]
    return {"bundles": rows, "causes": told, "first": [it.title for it in first], "notes": notes, "counts": counts}


def write_junit(path, bundles):
    """Writes a file that shows each bundle as a test: one that is refused as failed, another one that is not resolved
    as an error."""
    states = [it.state for it in bundles]
    errors = len(states) - states.count("resolved") - states.count("refused")
    suites = xml.Element("testsuites")
    suite = xml.SubElement(suites, "testsuite", name="check-bundles", tests=str(len(states)),
                           failures=str(states.count("refused")), errors=str(errors), skipped="0")
    for it in bundles:
        case = xml.SubElement(suite, "testcase", classname=said(it.word), name=said(it.title))
        if it.state != "resolved":
            kind = "failure" if it.state == "refused" else "error"
            fault = xml.SubElement(case, kind, type=it.state, message=said(it.why))
            fault.text = said("\n".join([it.why, *it.fault]))
    xml.ElementTree(suites).write(path, encoding="utf-8", xml_declaration=True)


class Counter:
    """A line at a terminal that says how far a tool is. Each replaces the one before; nothing is left of the last."""

    def __init__(self, tool):
        self.tool, self.is_shown = tool, sys.stderr.isatty()

    def say(self, text):
        if self.is_shown:
            print(f"\r\033[K{self.tool}: {text}\r" if text else "\r\033[K", end="", file=sys.stderr, flush=True)
