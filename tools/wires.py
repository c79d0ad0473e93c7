"""What rows of `wires` say, and which bundles are near others by their wires."""
import re

PLATFORM = "osgi.ee"


def wire_of(row):
    """Whereto a row of a bundle's `wires` leads, as id, kind and name; none if it is no wire of that bundle.

    The kinds are package, bundle and capability. What is of another namespace has that as its name.
    """
    wire = re.fullmatch(r"wire (.*) (\d+) (\S+) r(\d+)", row)
    if not wire:
        return None
    named = wire[1]
    if named.startswith("osgi.wiring.bundle "):
        return wire[2], "bundle", named[19:]
    if named.startswith("osgi.wiring.package "):
        return wire[2], "package", named[20:]
    return wire[2], "capability", named[:len(named) // 2]  # it stands twice


def fragment_of(row):
    """The id of the fragment that a row of `wires` tells of; none if it tells of none."""
    fragment = re.fullmatch(r"fragment (\d+) .*", row)
    return fragment and fragment[1]


def near(pairs, starts, depth):
    """The ids that are at most so many pairs away from one of these, in either direction."""
    found, last = set(starts), set(starts)
    for _ in range(depth):
        last = {end for pair in pairs for end in pair if set(pair) & last} - found
        found |= last
    return found
