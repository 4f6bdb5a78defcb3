"""Reads the text of a crate's src/: its functions, what is left of a file without their bodies, and the check's names for them."""
import functools
import importlib.machinery
import importlib.util
import json
import os
import re
import shutil
import subprocess
import sys
import tempfile
import typing

sys.dont_write_bytecode = True


def load_rt():
    """Returns the module of the rt that is on the path, for its crates, its lanes and how it applies an edit."""
    found = shutil.which("rt") or sys.exit("wrong_bodies: there is no rt on the path")
    loader = importlib.machinery.SourceFileLoader("rt", os.path.realpath(found))
    module = importlib.util.module_from_spec(importlib.util.spec_from_loader("rt", loader))
    loader.exec_module(module)
    return module


rt = load_rt()
rtlib = rt.rtlib


def text_of(file):
    with open(file, encoding="utf-8", errors="surrogateescape", newline="") as it:
        return it.read()


class Token(typing.NamedTuple):
    line: int
    start: int
    end: int
    kind: str
    text: str


class Owner(typing.NamedTuple):
    """What a method belongs to: a type, a trait, or a type and the trait that it implements."""

    of_type: str
    of_trait: str
    # what stands in the trait's angle brackets
    arguments: tuple = ()


class Function(typing.NamedTuple):
    path: str
    name: str
    owner: typing.Optional[Owner]
    # the cycle of calls that it is declared to be in, or ""
    cycle: str
    # its body's first byte and the one after its last, and its first line and its last
    body: tuple
    lines: tuple
    # whether another crate may see its body: in a constant, or as the default of a trait
    is_open: bool


# The tokens of texts that were read, so that each is read once.
READ = {}


def read(texts):
    """Reads the tokens of these texts of src/, without comments, as rattle has them, or None for one that it cannot read. Many are read at once."""
    new = [it for it in dict.fromkeys(texts) if it not in READ]
    if not new:
        return
    with tempfile.TemporaryDirectory(prefix="tokens-") as room:
        files = [f"{room}/{at}.rt" for at in range(len(new))]
        for file, text in zip(files, new):
            with open(file, "w", encoding="utf-8", errors="surrogateescape", newline="") as it:
                it.write(text)
        ran = subprocess.run([rtlib.RATTLE, "fmt", "--tokens", *files], stdin=subprocess.DEVNULL, capture_output=True, encoding="utf-8")
    # (a line before the tokens of each file names it)
    parts = re.split(r"(?m)^file .*\n", ran.stdout)[1:]
    if len(new) == 1:
        READ[new[0]] = tokens_in(ran.stdout.partition("\n")[2]) if ran.returncode == 0 else None
    elif ran.returncode == 0 and len(parts) == len(new):
        READ.update((text, tokens_in(part)) for text, part in zip(new, parts))
    else:
        for it in new:
            read([it])


def tokens_in(part):
    rows = [it.split(" ", 4) for it in part.split("\n") if it]
    words = json.loads(f"[{','.join(it[4] for it in rows)}]")
    return [Token(int(line), int(start), int(end), kind, word) for (line, start, end, kind, _), word in zip(rows, words)]


def tokens_of(text):
    """Returns the tokens of a text of src/, or None where rattle cannot read it."""
    read([text])
    return READ[text]


def closing(words, at):
    """Returns the place of the bracket that closes the one there."""
    depth = 0
    for i in range(at, len(words)):
        depth += (words[i] in ("(", "[", "{")) - (words[i] in (")", "]", "}"))
        if not depth:
            return i
    return len(words) - 1


def opening(words, at):
    """Returns the place of the brace that opens the body of the item there, or None where it has none."""
    while at < len(words) and words[at] not in ("{", ";"):
        at = closing(words, at) + 1 if words[at] in ("(", "[") else at + 1
    return at if at < len(words) and words[at] == "{" else None


def without_generics(words):
    """Returns the words after the < > that they may begin with, and the words in it."""
    depth = 0
    for at, word in enumerate(words if words[:1] == ["<"] else []):
        depth += (word == "<") - (word == ">")
        if not depth:
            return words[at + 1 :], words[1:at]
    return words, []


def last_name(words):
    """Returns the last name of the path that a type or a trait begins with, and the names in its < >."""
    at = words.index("<") if "<" in words else len(words)
    names = [it for it in words[:at] if it.isidentifier()]
    return names[-1] if names else "", tuple(it for it in words[at:] if it.isidentifier())


def owner_of(word, head):
    """Returns the owner of the methods in an impl or a trait, by the words between that keyword and its brace."""
    head = head[: head.index("where")] if "where" in head else head
    if word == "trait":
        return Owner("", head[0])
    head, _ = without_generics(head)
    if "for" not in head:
        return Owner(last_name(head)[0], "")
    at = head.index("for")
    trait, arguments = last_name(head[:at])
    return Owner(last_name(head[at + 1 :])[0], trait, arguments)


def functions_in(path, tokens):
    """Returns the functions of a file of src/ that have a body, but for those inside another one."""
    # (the braces of a clause are no code, and neither is what stands in them)
    code = [it for it in tokens if it.kind == "Code"]
    words = [it.text for it in code]
    found, owners, cycle, at = [], [], "", 0
    has_macros = "macro_rules" in words or "macro" in words
    while at < len(words):
        owners = [it for it in owners if at < it[0]]
        if words[at : at + 4] == ["#", "[", "cycle", "("]:
            cycle = words[at + 4]
        is_function = words[at] == "fn" and words[at + 1 : at + 2] != ["("]
        opens = opening(words, at + 1) if is_function or words[at] in ("impl", "trait") else None
        if opens is None:
            at += 1
            continue
        closes = closing(words, opens)
        if not is_function:
            owners.append((closes, owner_of(words[at], words[at + 1 : opens])))
            at = opens + 1
            continue
        owner = owners[-1][1] if owners else None
        is_open = has_macros or "const" in words[max(at - 3, 0) : at] or bool(owner and not owner.of_type)
        body, lines = (code[opens].start, code[closes].end), (code[at].line, code[closes].line)
        found.append(Function(path, words[at + 1], owner, cycle, body, lines, is_open))
        cycle, at = "", closes + 1
    return found


def is_in_attribute(code, at):
    """Returns whether the token there stands in the brackets of an attribute that ends before the next item."""
    depth = 0
    for i in range(at, -1, -1):
        depth += (code[i].text == "]") - (code[i].text == "[")
        if code[i].text in ("{", "}", ";") and depth <= 0:
            return False
        if code[i].text == "[" and depth <= 0:
            return i > 0 and code[i - 1].text == "#"
    return False


class Source:
    """A file of src/ with its functions. One that rattle cannot read has none, and no outline."""

    def __init__(self, path, text):
        self.bytes, self.tokens = text.encode(), tokens_of(text)
        self.functions = functions_in(path, self.tokens or [])
        # all but their bodies
        self.bare = self.outline()

    def body(self, function):
        return self.bytes[function.body[0] : function.body[1]]

    def words(self, function):
        """Returns the words of a function's body."""
        start, end = function.body
        return [(it.kind, it.text) for it in self.tokens if start <= it.start < end]

    def outline(self, keeps=lambda _: False):
        """Returns the file's words without the functions' bodies, but for those to be kept, or None."""
        if self.tokens is None:
            return None
        hidden, found = [it.body for it in self.functions if not keeps(it)], []
        for it in self.tokens:
            while hidden and it.start >= hidden[0][1]:
                hidden.pop(0)
            if not hidden or it.start < hidden[0][0]:
                found.append((it.kind, it.text))
        return found

    def item(self, function):
        """Returns where a function begins, with its attributes and its visibility, and where its name stands: both as a range of bytes."""
        code = [it for it in self.tokens if it.kind == "Code" and it.end <= function.body[0]]
        at = max(i for i, it in enumerate(code) if it.text == "fn" and code[i + 1].text == function.name)
        first = at
        while first and code[first - 1].text in ("pub", "crate", "(", ")", "#", "[", "]", "unsafe") or first and is_in_attribute(code, first - 1):
            first -= 1
        return (code[first].start, function.body[0]), (code[at + 1].start, code[at + 1].end)

    def with_twins(self, twins):
        """Returns the text with functions beside its own that have another name and body, but the same contract. twins: a function, a name and a body each."""
        made = self.bytes
        for function in sorted({it for it, _, _ in twins}, key=lambda it: it.body, reverse=True):
            (start, end), (before, after) = self.item(function)
            head = lambda name: made[start:before] + name.encode() + made[after:end]
            its = b"".join(b"\n\n" + head(name) + body for it, name, body in twins if it == function)
            made = made[: function.body[1]] + its + made[function.body[1] :]
        return made.decode()

    def with_bodies(self, bodies):
        """Returns the text with these bodies in place of its own, by function."""
        made = self.bytes
        for function in sorted(bodies, key=lambda it: it.body, reverse=True):
            made = made[: function.body[0]] + bodies[function] + made[function.body[1] :]
        return made.decode()


@functools.lru_cache(maxsize=None)
def source_of(path, text):
    return Source(path, text)


def fits(function, parts):
    """Returns whether the parts of a name of the check's, below a module, are this function's or of a closure in it."""
    is_closure = parts[:1] == ["fn"]
    parts = parts[is_closure:]
    owner = function.owner
    if owner:
        first = parts[0] if parts else ""
        if owner.of_type and owner.of_trait:
            rest = first.removeprefix(owner.of_type)
            is_owner = first != rest and rest.startswith(owner.of_trait)
            is_owner = is_owner and all(it.replace("_", "").lower() in rest.lower() for it in owner.arguments)
        else:
            is_owner = first == (owner.of_type or owner.of_trait)
        if not is_owner:
            return False
        parts = parts[1:]
    return parts[:1] == [function.name] and (is_closure or len(parts) == 1)


def module_of(function):
    parts = re.sub(r"(/mod)?\.rt$", "", function.path).split("/")[1:]
    return [it for it in parts if it not in ("lib", "main")]


def names_of(function, said):
    """Returns the check's names for the function and the closures in it, and none where its own is not certain."""
    module, parts = module_of(function), {it: it.split("::")[1:] for it in said}
    depth = len(module)
    found = [it for it, its in parts.items() if its[:depth] == module and fits(function, its[depth:])]
    if not found and function.owner:
        # an impl may stand in another module than its type
        found = [it for it, its in parts.items() if any(fits(function, its[at:]) for at in range(len(its)))]
    own = [it for it in found if it.split("::")[-1] == function.name and "fn" not in parts[it]]
    return found if len(own) == 1 else []


def likely_names_of(function, said):
    """Returns the check's names for it, and where its own is not certain all that have the function's name in them."""
    return names_of(function, said) or [it for it in said if function.name in re.split(r"::|\+", it)]


def path_of(function):
    """Returns what the check's --only takes for the function: for a method of an impl of a trait its module."""
    module = "::".join(module_of(function))
    if function.owner and function.owner.of_trait:
        return module
    return "::".join(it for it in (function.owner.of_type if function.owner else module, function.name) if it)
