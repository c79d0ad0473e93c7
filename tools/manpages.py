"""Pages for `man`, and words for Bash to complete, made from what a command says with --help."""
import re


def escaped(line):
    """A line as roff, which takes a `.` or `'` at its beginning, a `\\` and a `-` otherwise."""
    line = line.replace("\\", "\\e").replace("-", "\\-")
    return f"\\&{line}" if line.startswith((".", "'")) else line


def entries(block):
    """The arguments and options of a block of help: how each is written, and what it is."""
    found = []
    for line in block.splitlines()[1:]:
        entry = re.fullmatch(r"  (\S.*?)(?:  +(\S.*))?", line)
        if entry:
            found.append((entry[1], [entry[2]] if entry[2] else []))
        elif found:
            found[-1][1].append(line.strip())
    return [(term, " ".join(texts)) for term, texts in found]


def is_list(block):
    return re.match("(positional arguments|optional arguments|options):\n", block)


def options(text):
    """The words of a command that begin with `-`."""
    found = [it for block in text.split("\n\n") if is_list(block) for term, _ in entries(block)
             for it in re.findall(r"(?:^|, )(--?[\w-]+)", term)]
    return list(dict.fromkeys([*found, "--version"]))


def page(name, what, text, version):
    """The page of a command, of the text of its help."""
    blocks = text.strip("\n").split("\n\n")
    lines = [f'.TH {name.upper()} 1 "" "Winthazu {version}"', ".SH NAME", f"{escaped(name)} \\- {escaped(what)}"]
    usage = [it for it in blocks if it.startswith("usage: ")]
    told = [it for it in blocks if it not in usage and not is_list(it) and not it.startswith("status:")]
    if usage:
        lines += [".SH SYNOPSIS", ".nf", *map(escaped, usage[0][7:].splitlines()), ".fi"]
    lines.append(".SH DESCRIPTION")
    for block in told:
        lines += [".PP", *([] if usage else [".nf"]), *map(escaped, block.splitlines()), *([] if usage else [".fi"])]
    listed = [it for block in blocks if is_list(block) for it in entries(block)]
    if listed:
        lines.append(".SH OPTIONS")
    for term, meaning in listed:
        lines += [".TP", f"\\fB{escaped(term)}\\fR", escaped(meaning)]
    for block in (it for it in blocks if it.startswith("status:")):
        lines += [".SH EXIT STATUS", *map(escaped, block[7:].strip().splitlines())]
    lines += [".SH SEE ALSO", "The manual, docs/CONSOLE.md, and docs/TOOLS.md beside the program."]
    return "\n".join(lines) + "\n"


def completion(words):
    """What Bash reads to complete the words of these commands. Files are completed where no word is."""
    cases = "".join(f"        {name}) words='{' '.join(some)}' ;;\n" for name, some in words.items() if name != "osgi")
    return f"""# Completes the words of osgi and its tools in Bash. Made by tools/install of what each says with --help.

_osgi() {{
    local word=${{COMP_WORDS[COMP_CWORD]}} words=''
    case ${{1##*/}} in
        osgi)
            words='{" ".join(words["osgi"])}'
            [[ $COMP_CWORD -eq 1 ]] || words='--budget --handings'
            ;;
{cases}    esac
    COMPREPLY=()
    [[ $word != -* && ${{1##*/}} != osgi ]] || mapfile -t COMPREPLY < <(compgen -W "$words" -- "$word")
}}

complete -o default -F _osgi {' '.join(words)}
"""
