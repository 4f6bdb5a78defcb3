"""Which wrong bodies are to be tried: what the verdict on each rests on, and .ci/refused.txt, where those that were seen refused stand."""
import collections
import enum
import functools
import hashlib
import json
import os
import re
import sys
import typing

sys.dont_write_bytecode = True
from reach import Files, Reach, lines_of
from sources import read, rt, rtlib, source_of, text_of

HERE = os.path.dirname(os.path.realpath(__file__))
HEAD = """\
# Written by .ci/wrong_bodies.py: each wrong body that was seen refused, with a checksum of the logic, the functions that it
# changes and what these reach, one of all else in its crate and below and of how it was judged, the kit, and how many gates
# there had been then.
# Lines of comment stay as they are.
"""
# The files of proofs/ that belong to one function. The others may be cited by any other, and by the crates above.
OF_A_FUNCTION = re.compile(r"proofs/.+/(Answers|Invariants|Proof)\.antt")
# A landing tries one of so many parts of all wrong bodies, whatever their standing.
PARTS = 8
# Of the wrong bodies of one function a landing draws so many, since only one stands in a check.
OF_ONE = 3
# A verdict is believed at so many gates after it was seen.
BELIEVED = 16
# A line of .ci/refused.txt.
ROW = re.compile(r"(\S+/\S+) ([0-9a-f]{16}) ([0-9a-f]{16}) (\S+) (\d+)")


def sum_of(what):
    """Returns a checksum of plain data."""
    return hashlib.sha256(json.dumps(what, sort_keys=True).encode()).hexdigest()[:16]


# -- what a verdict rests on


class Key(typing.NamedTuple):
    """All that the verdict on a wrong body rests on."""

    # a checksum of the logic, the edit, the functions that it changes with their proofs, and what these reach: of its crate, and of definitions below it
    must: str
    # one of all else that the proofs of its crate may read there and in the crates below, and of how it is judged
    rest: str
    # the kit's name
    kit: str


@functools.lru_cache(maxsize=None)
def sum_of_text(path, text):
    """Returns a checksum of what others may read of a file: no comment of its own line, and of src/ no body that only its own proof reads."""
    if path.endswith(".rt"):
        return sum_of(source_of(path, text).outline(lambda it: it.is_open) or text)
    return sum_of(lines_of(text) or text)


def compiled_files(crate):
    """Returns the texts of the crate's files by their paths in it, but for those of its modules that are compiled for tests alone."""
    top = f"{crate.folder}/src/{'main' if crate.is_program else 'lib'}.rt"
    text = text_of(top)
    tests = re.findall(r"(?m)^#\[cfg\(test\)\]\nmod (\w+);$", text)
    tests = [it for it in tests if len(re.findall(rf"\bmod\s+{it}\b", text)) == 1]
    left_out = tuple(f"src/{it}{end}" for it in tests for end in (".rt", "/"))
    found = {os.path.relpath(it, crate.folder): it for it in rtlib.files_of(crate.folder)}
    return {path: text_of(file) for path, file in sorted(found.items()) if not path.startswith(left_out)}


class Parts:
    """What there is of a crate for verdicts to rest on."""

    def __init__(self, crate):
        texts = compiled_files(crate)
        read([text for path, text in texts.items() if path.endswith(".rt")])
        sources = [source_of(path, text) for path, text in texts.items() if path.endswith(".rt")]
        # (each with the file that it is in)
        self.functions = {it: of for of in sources for it in of.functions}
        self.proofs = {path: sum_of_text(path, text) for path, text in texts.items() if OF_A_FUNCTION.fullmatch(path)}
        self.files = Files(texts)
        # the crates that it stands on, its definitions, its contracts and its lemmas
        self.rest = [crate.said, [[path, sum_of_text(path, text)] for path, text in texts.items() if path not in self.proofs]]

    def proof_of(self, changed):
        """Returns these functions and those that share a proof with one, each with the words of its body, and their own files of proofs/."""
        cycles = {it.cycle for it in changed if it.cycle}
        mine = [(it, of.words(it)) for it, of in self.functions.items() if it in changed or it.cycle in cycles]
        names = {it.name for it, _ in mine}
        # (a folder's name may be that of several functions: the proofs of all of them count)
        is_mine = lambda folders: names & {*folders} or cycles and any(it.startswith("+") for it in folders)
        return mine, [it for it in self.proofs.items() if is_mine(it[0].split("/"))]


class Basis:
    """What the verdicts on wrong bodies rest on, as the files stand when it is asked."""

    def __init__(self, identity=None):
        # 'NAME logic CHECKSUM': kits of one logic differ in what they print and how fast they are
        identity = identity or text_of(f"{rt.KIT}/KIT-ID").strip()
        named = re.fullmatch(r"(\S+) logic (\S+)", identity)
        self.kit, self.logic = (named[1], named[2]) if named else (sum_of(identity), identity)
        self.judges = [text_of(f"{HERE}/{it}.py") for it in ("sources", "trials")]
        self.parts, self.texts, self.reach = {}, {}, Reach(lambda it: self.of(it).files)

    def of(self, crate):
        if crate.name not in self.parts:
            self.parts[crate.name] = Parts(crate)
        return self.parts[crate.name]

    def key(self, crate, edit):
        """Returns the key of an edit of the crate's that has been read."""
        own, below = self.of(crate), sorted(crate.below(), key=lambda it: it.name)
        is_of_bodies = edit.bodies and not edit.is_wider and edit.bodies.keys() <= own.functions.keys()
        if is_of_bodies and "cfg" not in edit.text:
            bodies, proofs = own.proof_of(edit.bodies)
            mine = [[[it.path, it.name, it.owner, it.cycle, words] for it, words in bodies], proofs]
            reached = self.reach.reached(crate, bodies, [path for path, _ in proofs], edit.text)
        else:
            # (one that speaks of cfg might have the tests compiled)
            mine = [crate.said, [[os.path.relpath(it, crate.folder), text_of(it)] for it in rtlib.files_of(crate.folder)]]
            reached = self.reach.reached_by_all(crate, [(it, of.words(it)) for it, of in own.functions.items()], edit.text)
        crates = {it.name: it for it in [crate, *below]}
        # (of the code below it only what is defined there)
        parts = [[name, it.path, self.text(crates[name], it)] for name, it in reached if name == crate.name or it.path.startswith("specs/")]
        code = [[it.name, self.of(it).rest] for it in [crate, *below]]
        return Key(sum_of([self.logic, crate.name, edit.label, edit.text, mine, sorted(parts)]), sum_of([self.judges, code]), self.kit)

    def text(self, crate, item):
        """Returns a checksum of an item's text."""
        if (crate.name, item) not in self.texts:
            self.texts[crate.name, item] = sum_of(self.of(crate).files.text(item))
        return self.texts[crate.name, item]


# -- what was seen refused


class Standing(enum.IntEnum):
    """What is known of a wrong body."""

    # it was not seen refused as it stands now
    MUST = 0
    # it was, and of what that rests on only code below its crate, definitions that it does not reach, how it is judged or the kit has changed
    DUE = 1
    # it was, and nothing has changed
    HELD = 2


class Known:
    """The wrong bodies that were seen refused, each label with its key, as .ci/refused.txt has them."""

    def __init__(self, text=""):
        rows = text.splitlines()
        self.comments = [it for it in rows if it.startswith("#")] or HEAD.splitlines()
        found = [it for it in map(ROW.fullmatch, rows) if it]
        self.keys = {it[1]: Key(it[2], it[3], it[4]) for it in found}
        # how many gates there had been when each was seen refused, and how many there were
        self.seen = {it[1]: int(it[5]) for it in found}
        self.gates = max([0, *self.seen.values(), *(int(it[6:]) for it in rows if re.fullmatch(r"gates \d+", it))])

    def text(self):
        rows = (" ".join([label, *key, str(self.seen[label])]) for label, key in sorted(self.keys.items()))
        return "".join(f"{it}\n" for it in [*self.comments, f"gates {self.gates}", *rows])

    def keep(self, labels):
        """Forgets all others."""
        self.keys = {label: key for label, key in self.keys.items() if label in labels}

    def standing(self, label, key):
        """Returns the standing of a wrong body whose key is now this one, or None where it could not be read."""
        seen = self.keys.get(label)
        if not seen or not key or seen.must != key.must or self.gates - self.seen[label] > BELIEVED:
            return Standing.MUST
        return Standing.HELD if seen == key else Standing.DUE

    def note(self, label, key):
        """Notes the key under which a wrong body was refused, or None for one that was not."""
        self.keys.pop(label, None)
        if key:
            self.keys[label], self.seen[label] = key, self.gates


def drawn(lot, numbers):
    """Returns the crates whose wrong bodies are all tried, also those that need not be, by a text that nobody chooses.

    numbers: how many each crate has. A crate is tried whole, since the proofs of what its edited functions call come first.
    """
    left, found = sum(numbers.values()) / PARTS, set()
    for it in sorted(numbers, key=lambda name: sum_of([lot, name])):
        if left > 0:
            left -= numbers[it]
            found.add(it)
    return found


def few(lot, edits):
    """Returns those of a drawn crate's wrong bodies that are tried, also those that need not be: of each function at most three, by the same text."""
    taken, found = collections.Counter(), []
    for it in sorted(edits, key=lambda edit: sum_of([lot, edit.label])):
        if all(taken[place] < OF_ONE for place in it.places()):
            taken.update(it.places())
            found.append(it)
    return found
