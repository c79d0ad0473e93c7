"""The bundles of a set, as they are named and as their manifests say: a part of `tools/check-bundles`."""
import collections
import importlib.machinery
import os
import sys
import types

import environments
from manifests import OFFERS
from manifests import Bundle as Manifest

HERE = os.path.dirname(os.path.realpath(__file__))
unpack = types.ModuleType("unpack")
importlib.machinery.SourceFileLoader("unpack", f"{HERE}/unpack").exec_module(unpack)


def words_of(parser, words):
    """The jars and folders that words stand for: `@FILE` for the lines of a file, `-` for those of standard input, and
    a folder that is no bundle's for the jars in it."""
    found = []
    for word in words:
        if word == "-" or word.startswith("@"):
            try:
                with open(0 if word == "-" else word[1:], encoding=sys.getfilesystemencoding(),
                          errors="surrogateescape") as it:
                    found += words_of(parser, [line for line in it.read().splitlines() if line])
            except OSError as fault:
                parser.error(f"{word}: {fault.strerror}")
        elif os.path.isdir(word) and not os.path.isfile(f"{word}/{unpack.MANIFEST}"):
            jars = sorted(it for it in os.listdir(word) if it.lower().endswith(".jar"))
            found += [os.path.join(word, it) for it in jars] or [word]
        else:
            found.append(word)
    return found


class Bundle:
    """A bundle of the set: its place in the room, its headers, its number in a session, and what comes of it."""

    def __init__(self, word, room, taken):
        self.word, self.title, self.place, self.number, self.state = word, word, "", 0, "refused"
        self.why, self.fault, self.headers, self.read, self.causes, self.needs = "", [], {}, None, set(), []
        self.environment = ""
        try:
            if os.path.isdir(word):  # linked, since a location can have no space
                self.place = unpack.free_name(unpack.folder_name(os.path.abspath(word)), taken)
                os.symlink(os.path.abspath(word), f"{room}/{self.place}")
            else:
                self.place = unpack.unpack(word, room, taken, with_files=False)
        except unpack.Unreadable as error:
            self.state, self.why = "unread", str(error)
        self.folder = f"{room}/{self.place}"
        if self.place and os.path.isfile(f"{self.folder}/{unpack.MANIFEST}"):
            with open(f"{self.folder}/{unpack.MANIFEST}", "rb") as it:
                manifest = it.read(unpack.MAX_BYTES)
            self.headers = unpack.read_headers(manifest)
            self.environment = environments.require(self.folder, manifest, self.headers)
        self.host = (unpack.names(self.headers, "fragment-host") or [""])[0]

    def is_named(self, number, title):
        """Takes what the program says of the bundle, which it has installed."""
        self.number, self.title = number, title
        self.read = Manifest(self.headers, *title.split(" "))

    def would_offer(self, need):
        """Whether a bundle that is not installed names what a requirement asks for."""
        headers = {"bundle": ["bundle-symbolicname"]}.get(need.kind) or [it for it in OFFERS if OFFERS[it] == need.kind]
        return any(need.name in unpack.names(self.headers, it) for it in headers)


def bottom_up(bundles):
    """The bundles that are no fragments, each after those that it needs as far as there is no ring."""
    whole = [it for it in bundles if not it.host]
    named, offering = collections.defaultdict(list), collections.defaultdict(list)
    needs, order, seen = collections.defaultdict(list), [], set()
    for it in whole:
        named[it.read.name].append(it)
    for it in bundles:
        for owner in named[it.host] if it.host else [it]:
            needs[owner] += [(need.kind, need.name) for need in it.read.needs]
            for offer in it.read.offers:
                offering[offer.kind, offer.name].append(owner)

    def visit(bundle):
        if bundle not in seen:
            seen.add(bundle)
            for below in (it for key in needs[bundle] for it in offering[key]):
                visit(below)
            order.append(bundle)

    sys.setrecursionlimit(10_000)  # a session has at most 1,024 bundles
    list(map(visit, whole))
    return order
