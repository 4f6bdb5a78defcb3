"""What a change of functions' bodies reaches: heads of functions, what else stands in files of src/, definitions, and files of lemmas. Where that is not certain, it counts as reached."""
import bisect
import functools
import re
import sys
import typing

sys.dont_write_bytecode = True
from sources import source_of

# A path of a module, as specs/, proofs/ and the clauses of src/ write it: its crate, and what is below that.
PATH = re.compile(r"\bRattle\b(?:\.(\w+))?((?:\.\w+)*)")
# What declares a type, a constant or a macro in the words of src/.
DECLARES = re.compile(r"\b(pub )?(?:unsafe )?(?:struct|enum|union|trait|type|const|static|macro|macro_rules !) (?:mut )?([A-Za-z]\w*)")
# What gives one another name there, and where crates above may use that.
AGAIN = re.compile(r"\b(\w+) as (\w+)")
# The name that a line of specs/ declares.
DEFINES = re.compile(r" *(?:(?:pub|abbrev|unfoldable|opaque|private|unfolding) )*(?:(?:record|data) ([^\s:(){}]+)|([^\s:(){}]+)(?=[^=]* :))")
NAME = re.compile(r"[\w'-]+")
# The type that a trait is implemented for: such an impl may say of it what does not stand where it is declared.
FOR = re.compile(r"\bimpl\b[^{};]*\bfor ([A-Z]\w*)")


def lines_of(text):
    """Returns the lines of a text of specs/ or proofs/, but for those of comment, and none where that is not certain."""
    # (a line may stand inside a longer comment)
    lines = text.split("\n") if "{-" not in text else []
    return [it for it in lines if it.strip() and not it.lstrip().startswith("--")]


def words_in(text):
    return {*re.findall(r"\w+", text)}


def split(words):
    """Returns the words, and those between dots in them."""
    return {part for it in words for part in (it, *it.split("."))}


class Item(typing.NamedTuple):
    """A part of a file: a function's head or a definition, by its place there, what else stands there (-1), or all of it (-1)."""

    path: str
    at: int = -1


def uses_in(tokens):
    """Returns the ranges of the lines among these tokens that bring names in, or say which modules there are."""
    found, first = [], 0
    for at, it in enumerate(tokens):
        if it.kind == "Antt" or it.text not in (";", "{", "}"):
            continue
        words = [word.text for word in tokens[first:at] if word.kind != "Antt" and word.text not in ("pub", "(", "crate", ")", "ghost")]
        if words[:1] == ["use"] and it.text != ";":
            continue
        if words[:1] in (["use"], ["mod"]) and it.text == ";":
            found.append((first, at + 1))
        first = at + 1
    return found


def block(tokens, first):
    """Returns the place of the brace that opens the next block of code after a place, and of the one that closes it, or None."""
    depth, start = 0, None
    for at in range(first, len(tokens)):
        if tokens[at].kind == "Code" and tokens[at].text in (";", "{", "}"):
            if tokens[at].text == ";" and not depth:
                return None
            depth += {"{": 1, "}": -1}.get(tokens[at].text, 0)
            start = at if depth == 1 and tokens[at].text == "{" else start
            if not depth:
                return start, at
    return None


def clause(tokens, start, end, name):
    """Returns the range of the words that a block says a ghost item of this name is, or an empty one."""
    for at in range(start, end - 3):
        if [it.text for it in tokens[at : at + 4]] == ["ghost", name, "=", "{"]:
            last = next((k for k in range(at + 4, end) if tokens[k].kind == "End"), at + 4)
            return range(at + 4, last)
    return range(0)


def inner_of(tokens):
    """Returns where the tokens are that only the crate itself can use: of a type that contracts see as a value, the fields, where all are private, how the
    value is made of them, and what is always true of them."""
    structs, found = {}, set()
    for at, it in enumerate(tokens[:-1]):
        if it.kind == "Code" and it.text == "struct":
            its = block(tokens, at)
            words = tokens[its[0] + 1 : its[1]] if its else []
            is_private = its and not any(word.text == "pub" or word.kind != "Code" for word in words)
            structs[tokens[at + 1].text] = range(its[0] + 1, its[1]) if is_private else None
    for at in range(len(tokens) - 2):
        if [it.text for it in tokens[at : at + 2]] == ["Model", "for"] and structs.get(tokens[at + 2].text):
            its = block(tokens, at)
            if its:
                found.update(structs[tokens[at + 2].text], clause(tokens, *its, "view"), clause(tokens, *its, "invariant"))
    return {tokens[at].start for at in found}


def import_of(line):
    """Returns the path of a line that brings names in, and these, or the line and None where they are not certain."""
    path, _, names = line.partition(".{")
    is_plain = re.fullmatch(r"(\w+, *)*\w+,? *\}", names)
    return (path, words_in(names)) if is_plain else (line, None)


@functools.lru_cache(maxsize=None)
def part_of(path, text):
    """Returns the parts of a file, or None for one that has none."""
    source = source_of(path, text) if path.endswith(".rt") else None
    return Code(source) if source and source.tokens is not None else Definitions(text) if path.startswith("specs/") else None


class Code:
    """A file of src/: the words of each function's head and of what else stands there, what these name, and what brings names in."""

    def __init__(self, source):
        self.functions, self.imports, self.again = source.functions, [], []
        # what has another name for crates above
        self.shown = []
        kept, left = [], 0
        for first, end in uses_in(source.tokens):
            kept, line, left = [*kept, *source.tokens[left:first]], source.tokens[first:end], end
            words = [it.text for it in line if it.kind == "Antt"]
            if words:
                self.imports.append(import_of("".join(words)))
            else:
                names = AGAIN.findall(" ".join(it.text for it in line))
                self.again += names
                self.shown += names if line[0].text == "pub" else []
        heads = [(source.item(it)[0][0], *it.body, it.is_open) for it in self.functions]
        starts = [it[0] for it in heads]
        self.texts, inner = {at: [] for at in range(-1, len(heads))}, inner_of(source.tokens)
        # what crates above may use of what else stands there
        self.outer = []
        for it in [*kept, *source.tokens[left:]]:
            at = bisect.bisect(starts, it.start) - 1
            at = at if at >= 0 and it.start < heads[at][2] else -1
            if at < 0 or it.start < heads[at][1] or heads[at][3]:
                self.texts[at].append((it.kind, it.text))
            if at < 0 and it.start not in inner:
                self.outer.append((it.kind, it.text))
        self.note_names()

    def note_names(self):
        """Notes what words name here, and what of that crates above may name: functions, each with the type that it belongs to, and types and constants."""
        rest = " ".join(text for _, text in self.texts[-1])
        types = [(name, -1, bool(is_shown)) for is_shown, name in DECLARES.findall(rest)]
        types += [(name, -1, True) for name in [*FOR.findall(rest), *(new for _, new in self.shown)]]
        self.calls = []
        for at, it in enumerate(self.functions):
            is_of_trait = bool(it.owner and it.owner.of_type and it.owner.of_trait)
            head = [word for _, word in self.texts[at]]
            is_shown = is_of_trait or "pub" in head and head[head.index("pub") + 1] != "("
            self.calls.append((it.name, at, is_shown, it.owner.of_type or it.owner.of_trait if it.owner else ""))
            types += [(it.owner.of_type, at, True)] if is_of_trait else []
        self.types = types

    def words(self, at, is_own):
        owner = self.functions[at].owner if at >= 0 else None
        more = {old for old, _ in self.shown} if at < 0 else {owner.of_type, owner.of_trait, *owner.arguments} if owner else set()
        return split(it for _, it in (self.texts[at] if is_own or at >= 0 else self.outer)) | more

    def named(self, words):
        """Returns the parts that these words name in a path of this file."""
        return {-1, *(at for at, it in enumerate(self.functions) if it.name in words)}


class Definitions:
    """A file of specs/: its definitions, each with its lines, and what brings names in. Where they are not certain, all of it is one."""

    calls, types, again, functions = (), (), (), ()

    def __init__(self, text):
        lines = lines_of(text)
        self.imports = [import_of(it.strip()[4:]) for it in lines if it.startswith("use ")]
        self.texts, self.names, known, at = {}, {}, {}, -1
        for line in lines:
            if line.startswith("use ") or re.match(r"(pub )?mod \w+$", line):
                continue
            declared = DEFINES.match(line)
            again = import_of(line[8:])[1] if line.startswith("pub use ") else None
            if again:
                # (what has a name here too)
                at = known.setdefault(line, len(known))
                self.names[at] = again
            elif line.startswith("pub use "):
                at = -1
            elif declared and not line.startswith(" "):
                at = known.setdefault(declared[1] or declared[2], len(known))
            elif not line.startswith(" "):
                # (a clause that begins with no name is one of the definition before it)
                at = known.get(re.match(r"\S+", line)[0], at)
            self.texts.setdefault(at, []).append(line)
            name = (declared[1] or declared[2]) if declared else ""
            self.names.setdefault(at, set()).update([name] if NAME.fullmatch(name) or name and not line.startswith(" ") else [])
        if -1 in self.texts or not lines:
            self.texts, self.names, self.imports = {0: lines or text}, {0: {"◌"}}, [(text, None)]
        # an operator counts always
        self.names = {at: None if any(not NAME.fullmatch(it) for it in its) else words_in(" ".join(its)) for at, its in self.names.items()}

    def words(self, at, is_own=True):
        return words_in("\n".join(self.texts[at]))

    def named(self, words):
        """Returns the definitions that these words name."""
        return {at for at, its in self.names.items() if its is None or its & words}


class Files:
    """The texts of a crate's files by their paths, their parts, and what words name."""

    def __init__(self, texts):
        self.texts = texts
        self.parts = {path: part_of(path, text) for path, text in texts.items() if part_of(path, text)}
        # (a file that cannot be read counts always, and so does what the crate's root says of all)
        self.always = {Item(it) for it in texts if it.endswith(".rt") and it not in self.parts or it in ("src/lib.rt", "src/main.rt")}
        # what crates above may name, and all
        self.types, self.calls = ({}, {}), ({}, {})
        for path, part in self.parts.items():
            for name, at, is_shown in part.types:
                for own in (True, False) if is_shown else (True,):
                    self.types[own].setdefault(name, set()).add(Item(path, at))
            for name, at, is_shown, owner in part.calls:
                for own in (True, False) if is_shown else (True,):
                    self.calls[own].setdefault(name, set()).add((owner, Item(path, at)))

    def text(self, item):
        """Returns what stands in an item, as plain data."""
        part = self.parts.get(item.path)
        return part.texts[item.at] if part else lines_of(self.texts[item.path]) or self.texts[item.path]

    def brought(self, path, words):
        """Returns the words that these stand for in a file, and the paths of what brings them in, with those words."""
        part = self.parts.get(path)
        if not part:
            return words, [self.texts[path]]
        words = words | {old for old, new in part.again if new in words}
        return words, [f"{text} {' '.join((names or set()) & words)}" for text, names in part.imports if names is None or names & words]

    def at(self, path, words, is_own):
        """Returns the items that a path below the crate's name may stand for, in a text of these words."""
        top, *parts = path.removeprefix(".").split(".")
        if top == "proofs" and not is_own:
            # (a lemma of a crate below counts as contracts do)
            return set()
        if top == "specs" and parts[:1] in (["declared"], ["contracts"]):
            # what is made of the items of src/
            top, parts = "src", parts[1:]
        above = ["/".join([top, *parts[: at + 1]]) for at in range(len(parts))]
        ends, inside = {f"{it}{end}" for it in above for end in (".antt", ".rt", "/mod.rt")}, "/".join([top, *parts, ""])
        found = [it for it in self.texts if it in ends or top != "proofs" and it.startswith(inside)]
        if top == "src" and len(parts) == 1:
            # (an item of the crate's root, where it is in no module of that name)
            found = found or [it for it in self.texts if it in ("src/lib.rt", "src/main.rt")]
        if not found and top != "proofs":
            found = [it for it in self.texts if not it.startswith("proofs/")]
            return {Item(it, at) for it in found for at in (self.parts[it].texts if it in self.parts else (-1,))}
        return {Item(it, at) for it in found for at in (self.parts[it].named(words) if it in self.parts else (-1,))}


class Reach:
    """What edits of crates reach, as items with their crate's name. of: gives a crate's Files."""

    def __init__(self, of):
        self.of, self.crates, self.known = of, {}, {}

    def below(self, crate):
        """Returns the crate and those below it, by their names."""
        if crate.name not in self.crates:
            self.crates[crate.name] = {it.name: it for it in [crate, *crate.below()]}
        return self.crates[crate.name]

    def by_paths(self, crate, text):
        """Returns what a text of the crate names by paths."""
        crates, found, words = self.below(crate), set(), words_in(text)
        for name, path in PATH.findall(text):
            # (a path that does not name its crate may be of any)
            its = [crates[name]] if name in crates else [] if name else crates.values()
            found.update((it.name, item) for it in its for item in self.of(it).at(path, words, it is crate))
        return found

    def by_words(self, crate, path, words, calls):
        """Returns what words in a file of the crate's name, and the functions that they may call: methods, each with its type. calls: whether they may."""
        words, brought = self.of(crate).brought(path, words)
        found, methods = self.by_paths(crate, "\n".join([*brought, *(it for it in words if "." in it)])), set()
        for it in self.below(crate).values():
            types, functions = self.of(it).types[it is crate], self.of(it).calls[it is crate]
            found.update((it.name, item) for word in types.keys() & words for item in types[word])
            for owner, item in (one for word in functions.keys() & words for one in functions[word]) if calls else ():
                if owner:
                    methods.add((it.name, owner, item))
                else:
                    found.add((it.name, item))
        return found, methods

    def step(self, crate, item, is_own):
        """Returns what an item of the crate names, and the methods that it may call. is_own: whether the crate itself asks, and none above it."""
        key = (crate.name, item, is_own)
        if key not in self.known:
            files = self.of(crate)
            part = files.parts.get(item.path)
            if item.path.endswith(".rt"):
                is_open = not part or item.at >= 0 and part.functions[item.at].is_open
                found, methods = self.by_words(crate, item.path, part.words(item.at, is_own) if part else words_in(files.texts[item.path]), is_open)
                # (what an impl says at its head stands in the rest of its file)
                found = found | {(crate.name, Item(item.path))} if part and item.at >= 0 and part.functions[item.at].owner else found, methods
            elif part:
                words, brought = files.brought(item.path, part.words(item.at))
                own = {(crate.name, Item(item.path, at)) for at in part.named(words)}
                found = own | self.by_paths(crate, "\n".join([*brought, *part.texts[item.at]])), set()
            else:
                text = files.text(item)
                found = self.by_paths(crate, text if isinstance(text, str) else "\n".join(text)), set()
            self.known[key] = found
        return self.known[key]

    def reached(self, crate, bodies, proofs, text):
        """Returns all that an edit of this text reaches. bodies: the functions that share a proof with one that it changes, with the words of their bodies;
        proofs: their own files of proofs/."""
        files = self.of(crate)
        first = [*((crate.name, it) for it in files.always), *((crate.name, Item(it)) for it in proofs), *self.by_paths(crate, text)]
        return self.all_from(crate, first, bodies, text)

    def reached_by_all(self, crate, bodies, text):
        """Returns the same of an edit that changes more than bodies."""
        files = self.of(crate)
        first = [(crate.name, Item(it, at)) for it in files.texts for at in (files.parts[it].texts if it in files.parts else (-1,))]
        return self.all_from(crate, [*first, *self.by_paths(crate, text)], bodies, text)

    def all_from(self, crate, first, bodies, text):
        """Returns these and all that they, or bodies, reach. A method counts once the type that it belongs to does."""
        files, crates = self.of(crate), self.below(crate)
        left, seen, methods = [*first], set(), set()
        for function, words in bodies:
            left.append((crate.name, Item(function.path, files.parts[function.path].functions.index(function))))
            found, more = self.by_words(crate, function.path, split(it for _, it in words) | words_in(text), True)
            left, methods = [*left, *found], methods | more
        while left:
            it = left.pop()
            if it not in seen:
                seen.add(it)
                found, more = self.step(crates[it[0]], it[1], it[0] == crate.name)
                left, methods = [*left, *found], methods | more
            if not left:
                ready = {(name, item) for name, owner, item in methods if any((name, of) in seen for of in self.of(crates[name]).types[True].get(owner, ()))}
                left = [*(ready - seen)]
        return seen
