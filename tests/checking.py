"""What scripts that test tools share: they run a tool, make folders of bundles, and count checks."""
import os
import subprocess
import sys
import tempfile

TOP = os.path.dirname(os.path.dirname(os.path.realpath(__file__)))
failures = []
counts = {"run": 0}


def check(name, wanted, found):
    counts["run"] += 1
    if wanted != found:
        failures.append(f"{name}: FAILED: {clipped(found)}, and not {clipped(wanted)}")


def clipped(value):
    """A value as a line that can be read, also if it is the output of a large session."""
    text = repr(value)
    return text if len(text) < 1_500 else f"{text[:1_000]} .. {text[-400:]}"


def has(name, part, lines):
    """Checks that some line has a part."""
    check(f"{name}: {part}", True, any(part in it for it in lines) or lines)


def run(words, folder=TOP, session=None, tools=f"{TOP}/tools", **more):
    """Runs a tool, and gives its status, its output and what it wrote to standard error."""
    ran = subprocess.run([f"{tools}/{words[0]}", *words[1:]], cwd=folder, input=session, stdout=subprocess.PIPE,
                         stderr=subprocess.PIPE, timeout=900, check=False, **more)
    return ran.returncode, ran.stdout.decode(), ran.stderr.decode()


def told(*words, **more):
    """The status of tools/check-bundles, the lines of its output, and what it wrote to standard error."""
    ran = subprocess.run([f"{TOP}/tools/check-bundles", *words], stdout=subprocess.PIPE, stderr=subprocess.PIPE,
                         timeout=300, check=False, **more)
    return ran.returncode, ran.stdout.decode().splitlines(), ran.stderr.decode()


def write_bundle(folder, name, **headers):
    """Writes the folder of a bundle, whose name may have directives. In names of headers `_` stands for `-`."""
    os.makedirs(f"{folder}/META-INF", exist_ok=True)
    named = {key.replace("_", "-"): value for key, value in headers.items()}
    rows = {"Bundle-ManifestVersion": "2", "Bundle-SymbolicName": name, **named}
    with open(f"{folder}/META-INF/MANIFEST.MF", "w", encoding="utf-8", newline="") as it:
        it.write("".join(f"{key}: {value}\n" for key, value in rows.items() if value is not None))


def make(at, name, **headers):
    """Makes the folder of a bundle of version 1.0.0 in a folder, and gives its path."""
    folder = f"{at}/{name.split(';')[0]}"
    write_bundle(folder, name, **{"Bundle_Version": "1.0.0", **headers})
    return folder


def find_program(name):
    """The program that the launcher runs, which is built where it has to be: no limit of time stops that."""
    ran = subprocess.run([f"{TOP}/osgi", "--program"], stdin=subprocess.DEVNULL, stdout=subprocess.PIPE, check=False)
    if ran.returncode != 0:
        sys.exit(f"{name}: the program cannot be had")
    return os.fsdecode(ran.stdout).rstrip("\n")


def finish(name):
    """Writes a line for each check that failed, and the last line, which counts. Gives the status."""
    for it in failures:
        print(it)
    print(f"{name}: {counts['run']} run, {len(failures)} failed")
    return 1 if failures else 0


def run_all(name, parts):
    """Runs the parts, each in a folder of its own, and gives the status."""
    find_program(name)
    for part in parts:
        with tempfile.TemporaryDirectory() as at:
            part(os.path.realpath(at))
    return finish(name)
