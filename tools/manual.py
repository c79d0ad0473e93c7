"""What the manual, docs/CONSOLE.md, says of a command, a refusal, and a line that is `syntax`, as plain text."""
import functools
import os
import re
import textwrap

from shared import TOP

PAGE = os.path.join(TOP, "docs", "CONSOLE.md")
WIDTH = 100


@functools.lru_cache(maxsize=None)
def text():
    with open(PAGE, encoding="utf-8") as it:
        return it.read()


def plain(cell):
    """A cell or a line without Markdown: of a link its words, and no backticks or stars."""
    return re.sub(r"[`]|\*\*", "", re.sub(r"\[([^]]*)\]\([^)]*\)", r"\1", cell)).replace(r"\|", "|").strip()


def spans(cell):
    """The texts between backticks."""
    return [it.replace(r"\|", "|") for it in re.findall(r"`([^`]*)`", cell)]


def table(*names):
    """The rows of the table with these columns first, each a list of cells as they are written."""
    head = r"^\| " + r" \| ".join(map(re.escape, names)) + r" \|.*\n\|[-|]+\|\n((?:\|.*\n)+)"
    rows = re.search(head, text(), re.MULTILINE)[1].splitlines()
    return [cells(it) for it in rows]


def cells(line):
    return [it.strip() for it in re.split(r"(?<!\\)\|", line.strip())[1:-1]]


def commands():
    """How each command is written, and what it does."""
    return [(spans(usage)[0], plain(what)) for usage, what in table("Command", "What it does")]


def names():
    return list(dict.fromkeys(usage.split()[0] for usage, _ in commands()))


def causes():
    """Each cause of `syntax`, with lines that have it, and with what is right in their place."""
    return [(plain(cause), spans(wrong), spans(right)) for cause, wrong, right in table("Cause", "Wrong", "Right")]


def elsewhere(word):
    """What stands here for a command of another console; no text if it is not known."""
    for there, here, *_ in table("There", "Here", "What is different"):
        if word in [it.split()[0] for it in spans(there)]:
            return plain(here)
    return ""


def refusal(number):
    """What a refusal means and what to do, as lines; none if there is no such refusal."""
    for told, meaning, to_do in table("Refusal", "Meaning", "What to do"):
        if spans(told)[0].split()[0] == number:
            return [*map(plain, spans(told)), *filled(meaning), *filled(f"To do: {to_do}")]
    return []


def filled(line, indent="  "):
    return textwrap.wrap(plain(line), WIDTH, initial_indent=indent, subsequent_indent=indent)


def section(command):
    """The section of a command, as lines: its text, its table of replies, and its example; none if it has none."""
    found = re.search(rf"^### `{re.escape(command)}\b.*?(?=^##)", text(), re.MULTILINE | re.DOTALL)
    if not found:
        return []
    lines = []
    for line in re.sub(r"```mermaid.*?```\n", "", found[0], flags=re.DOTALL).splitlines():
        if line.startswith("### "):
            lines.append(plain(line[4:]))
        elif line.startswith("    "):
            lines.append(line)
        elif line.startswith("|"):
            lines += row(line)
        else:
            lines += filled(line) or [""]
    return lines


def row(line):
    """A row of a table: its first cell, and the others under it. The heading and the line below it are left out."""
    first, *others = cells(line)
    if re.fullmatch("-+", first) or first.startswith(("Reply", "Arrow")):
        return []
    return filled(first, "    ") + [it for other in others for it in filled(other, "        ")]
