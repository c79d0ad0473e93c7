"""Why a line of a session is `syntax`: the cause, in the words of the manual's table of causes."""
import re

STATEMENTS = ["print", "fail", "listen", "unlisten", "job"]
TYPES = ["String", "Version", "Long", "List", "List<String>", "List<Version>", "List<Long>"]
CLASSES = r"[A-Za-z0-9_$.]+"
QUOTED = r'"(?:\\["\\]|\\(?!["\\])|[^"\\])*"'
ID = "an id is not one to ten digits"
BUNDLE = "a bundle is named by something else than its id, or by a number above 4,294,967,295"
LEFT = "a word is left over"
CLASS = "the class is missing, or there are several"
PARENTHESES = "a filter has no parentheses, or one is missing"


def cause_of(line, commands):
    """The cause that is seen first; no text where none is seen. `commands` are the names of all commands."""
    first, _, rest = line.strip(" ").partition(" ")
    rest = rest.strip(" ")
    if "\t" in line and not rest.startswith("("):
        return "a tab is not a space"
    if first not in commands:
        return no_command(first, commands)
    if "#" in rest.split() and first != "register":
        return "something stands behind join" if first == "join" else "a comment stands after a command"
    return PARTS[first](rest)


def no_command(first, commands):
    if first.lower() in commands:
        return "commands are lowercase words"
    if first in STATEMENTS:
        return "a statement of scripts is no command"
    return "a lane is named" if first == "lane" else "a command is misspelled or does not exist"


# ---- services

def of_register(rest):
    names, _, after = rest.partition(" ")
    after = after.strip(" ")
    if names.endswith(",") or after.startswith(","):
        return "there is a space at a comma between class names"
    if names and not re.fullmatch(f"{CLASSES}(,{CLASSES})*", names):
        return "a class name has other bytes than letters, digits, _, $ and ."
    if not after:
        return "the text is missing"
    if not after.startswith('"'):
        return "the text has no quotes, or single ones"
    text = re.match(QUOTED, after)
    if not text:
        return "a \\ at the end of the text takes the quote" if after.endswith('\\"') else "a quote is not closed"
    tail = after[text.end():]
    if tail and not tail.startswith(" "):
        inner = '"' in tail and "=" not in tail
        return 'a quote in the text has no \\ before it' if inner else "there is no space between two words"
    return of_properties(tail)


def of_modify(rest):
    number, _, after = rest.partition(" ")
    return of_properties(after) if re.fullmatch("[0-9]{1,10}", number) else ID


def of_properties(text):
    seen = ""
    for word in re.findall(rf'[^ "=]*=?{QUOTED}|\S+', text):
        if word.startswith("="):
            return "there is a space at the = of a property"
        if "=" not in word or word.startswith('"'):
            is_value = seen and not seen.endswith(('"', "=")) and '"' not in word
            at_equals = re.search(r"(^| )" + re.escape(word) + " *=", text)
            return "there is a space at the = of a property" if at_equals else (
                "a value with a space has no quotes" if is_value else LEFT)
        key, _, value = word.partition("=")
        if '"' in value and not re.fullmatch(QUOTED, value):
            return "only a part of a value is in quotes"
        _, colon, kind = key.partition(":")
        if colon and kind not in TYPES:
            return "there is no type of this name; types are spelled exactly"
        seen = word
    return "the text is not a value of its type" if ":" in text else ""


def of_service(rest):
    number, *more = rest.split() or [""]
    return LEFT if more and re.fullmatch("[0-9]{1,10}", number) else ID


def of_none(rest):
    return LEFT if rest else ""


def of_find(rest):
    name, _, text = rest.partition(" ")
    text = text.strip(" ")
    if not re.fullmatch(CLASSES, name):
        return CLASS
    if text.startswith('"'):
        return "a filter is in quotes"
    end = end_of_filter(text)
    if not end:
        return PARENTHESES
    if re.search(r"\(\s+[&|!]", text):
        return "there is white space between ( and &, | or !"
    for it in re.finditer(r"\(!\s*", text):
        if text[it.end() + end_of_filter(text[it.end():]):].strip().startswith("("):
            return "! has more than one filter"
    return "two filters are not joined" if text[end:].strip().startswith("(") else PARENTHESES


def end_of_filter(text):
    """Where the first filter of a text ends, by its parentheses; 0 if it does not."""
    open_ones = 0
    for it in re.finditer(r"\\.|[()]", text):
        open_ones += {"(": 1, ")": -1}.get(it[0], 0)
        if open_ones <= 0 or not text.startswith("("):
            return it.end() if it[0] == ")" and text.startswith("(") else 0
    return 0


# ---- bundles

def of_install(rest):
    return "a location has a space, which quotes do not change" if rest else "the location is missing"


def is_bundle(word):
    return re.fullmatch("[0-9]{1,10}", word) and int(word) < 2**32


def of_bundle(rest, then=""):
    """The words after the id are all that is wanted besides it; `then` is the cause where they are missing."""
    number, *more = rest.split() or [""]
    if not is_bundle(number):
        return BUNDLE
    return then if then and not more else LEFT


def of_start(rest):
    words = [it for it in rest.split() if it != "-t"]
    is_option = any(it.startswith("-") for it in words) or "-t" in rest.split()[1:]
    return "an option stands behind the id, or is not -t" if is_option else of_bundle(" ".join(words))


def of_load(rest):
    found = of_bundle(rest, CLASS)
    return CLASS if found == LEFT else found


def of_level(rest):
    return LEFT if re.fullmatch(r"[0-9]{1,10} .*", rest) else "a level is above 255, or not a number"


def of_blevel(rest):
    found = of_bundle(rest, "the location or the level is missing")
    return of_level(" ".join(rest.split()[1:])) if found == LEFT else found


PARTS = {
    "register": of_register, "modify": of_modify, "find": of_find, "findall": of_find, "services": of_none,
    "unregister": of_service, "get": of_service, "unget": of_service, "install": of_install, "bundles": of_none,
    "resolve": of_bundle, "wires": of_bundle, "uninstall": of_bundle, "refresh": of_bundle, "start": of_start,
    "stop": of_start, "load": of_load, "update": lambda rest: of_bundle(rest, "the location or the level is missing"),
    "level": of_level, "blevel": of_blevel, "join": lambda rest: "something stands behind join"}
