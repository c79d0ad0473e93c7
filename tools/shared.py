"""What all tools share: how they end, which program they ask, and their words that are checked alike."""
import argparse
import os
import re
import shutil
import signal
import subprocess
import sys

TOP = os.path.dirname(os.path.dirname(os.path.realpath(__file__)))
OSGI = os.path.join(TOP, "osgi")
MOST = 1_000_000_000  # the greatest budget
MOST_HANDINGS = 1_000_000


def version():
    """The version of what stands here: the day of the newest changes that CHANGELOG.md tells of."""
    with open(os.path.join(TOP, "CHANGELOG.md"), encoding="utf-8") as it:
        day = re.search(r"^## (\d+)-(\d+)-(\d+)$", it.read(), re.MULTILINE)
    return ".".join(str(int(part)) for part in day.groups())


def end_quietly(main):
    """Runs a tool and ends with its status. Ctrl-C ends it with 130, a pipe that nobody reads any more with 141, and
    SIGTERM with 143, each after its files are removed. The word `--version` alone has the version written.
    """
    signal.signal(signal.SIGTERM, lambda *_: sys.exit(143))
    try:
        try:
            status = main() if sys.argv[1:] != ["--version"] else print(version())
        finally:
            sys.stdout.flush()
    except KeyboardInterrupt:
        status = 130
    except BrokenPipeError:
        nothing = os.open(os.devnull, os.O_WRONLY)
        os.dup2(nothing, 1)  # what is left to be written goes nowhere
        os.dup2(nothing, 2)
        status = 141
    sys.exit(status)


def number(text, most, what):
    if not re.fullmatch("[0-9]{1,10}", text) or not 1 <= int(text) <= most:
        raise argparse.ArgumentTypeError(f"the {what} is a number from 1 to {most}")
    return int(text)


def budget(text):
    """The limit on the effort of a resolve, of the word of `--budget`."""
    return number(text, MOST, "budget")


def handings(text):
    """The limit on the events that are handed in a session, of the word of `--handings`."""
    return number(text, MOST_HANDINGS, "limit on handed events")


def refuse_jars(parser, paths):
    """Ends the tool if one of these is a jar, which the program does not read."""
    for path in filter(os.path.isfile, paths):
        try:
            with open(path, "rb") as it:
                is_jar = it.read(2) == b"PK"
        except OSError as fault:
            parser.error(f"{path}: {fault.strerror}")
        if is_jar:
            parser.error(f"{path} is a jar: make a folder of it by tools/unpack")


def find_program(parser, path):
    """The program at this path, or the one that the launcher would run: that is asked of it once, since it looks at all
    sources each time. The program is asked once too, so that no other command is taken for it."""
    program = shutil.which(os.path.abspath(path)) or parser.error(f"no program: {path}")
    try:
        if os.path.realpath(program) == OSGI:
            ran = subprocess.run([program, "--program"], stdin=subprocess.DEVNULL, stdout=subprocess.PIPE, check=False)
            if ran.returncode != 0:
                parser.exit(ran.returncode, f"{parser.prog}: the launcher ended with status {ran.returncode}\n")
            program = os.fsdecode(ran.stdout).rstrip("\n")
        ran = subprocess.run([program, "run"], input=b"bundles\n", stdout=subprocess.PIPE, check=False)
    except OSError as fault:
        parser.exit(2, f"{parser.prog}: {path} cannot be run: {fault.strerror}\n")
    if ran.returncode not in (0, 1):
        parser.exit(ran.returncode, f"{parser.prog}: the program ended with status {ran.returncode}\n")
    if not re.fullmatch(rb"bundle 0 32 0 system\.bundle \S+\n", ran.stdout):
        parser.exit(2, f"{parser.prog}: {path} is another program: it does not reply as this framework does\n")
    return program
