#!/usr/bin/env python3
"""Turns what OpenFGA or SpiceDB holds into lines that `zanz run` reads: one `config`, and as many `write` as the tuples take.

usage: tools/import.py openfga MODEL [TUPLES ..]
       tools/import.py spicedb SCHEMA [RELATIONSHIPS ..]

MODEL is an authorization model in JSON (schema 1.1), by itself or as OpenFGA's API answers it. TUPLES are JSON too: a list of
tuples, or pages as the API's `read` answers them, in their order. SCHEMA is the text of a schema. RELATIONSHIPS has one on each
line, such as document:a#viewer@group:g#member.

A type or a definition becomes a namespace of that name, a relation or a permission a relation of that name. A subject keeps its
type: user:ann and service:ann stay two. Each tuple is written once, and as a touch, so the lines may be given twice.

An id keeps its letters, digits, dots, dashes and underscores. Each other byte of it, in UTF-8, becomes a dot and two digits of
base 16, with capitals. So does a dot that two such digits follow, so that no two ids become one: ann@example.com becomes
ann.40example.com, and 1.20 becomes 1.2E20. To go back, make the byte again of each dot that two such digits follow.

What cannot be said here is refused, each on a line of standard error, with status 1 and no lines. An input that cannot be
read, or is not of its form, is told on one line, with status 2.
"""
import json
import os
import re
import signal
import sys
from bisect import bisect_left
from collections import namedtuple
from json.decoder import JSONDecoder, JSONObject
from json.scanner import py_make_scanner

MOST_NAMESPACES = 64
MOST_RELATIONS = 256
MOST_TYPES = 32
MOST_PARTS = 64
DEEPEST = 16
LONGEST_ID = 64
MOST_BYTES = 65_536
MOST_OPERATIONS = 256
MOST_TUPLES = 1_000_000
NAME = re.compile(r"[a-z][a-z0-9_]{0,31}")
ESCAPED = re.compile(rb"[^A-Za-z0-9._-]|\.(?=[0-9A-F]{2})")
NO_NAME = "no name here, which has 1 to 32 small letters, digits and underscores, the first a letter"

# Where something stands in an input.
Place = namedtuple("Place", "path line")
# A subject type; a type of objects has no relation.
Type = namedtuple("Type", "place namespace relation")
# The parts are rewrites, or the names that a leaf has.
Rewrite = namedtuple("Rewrite", "place kind parts")
Relation = namedtuple("Relation", "place types rewrite")
Tuple = namedtuple("Tuple", "namespace id relation subject_namespace subject_id subject_relation")
LEAVES = ("this", "computed", "tuple_to")


class Unreadable(Exception):
    """An input that cannot be read, or is not of its form."""


def shown(text):
    """A text on one line, cut where it is long."""
    text = text if text.isprintable() else ascii(text)
    return text if len(text) <= 200 else f"{text[:200]} .."


def at(place):
    return f"{shown(place.path)}:{place.line}"


class Source:
    """The text of a file, in which each offset has its line."""

    def __init__(self, path):
        self.path = path
        try:
            with open(path, "rb") as it:
                data = it.read()
        except OSError as error:
            raise Unreadable(f"{shown(path)}: {error.strerror}") from None
        try:
            self.text = data.decode("utf-8-sig")
        except UnicodeDecodeError as error:
            line = data.count(b"\n", 0, error.start) + 1
            raise Unreadable(f"{at(Place(path, line))}: no text in UTF-8") from None
        self.ends = [it.start() for it in re.finditer("\n", self.text)]

    def place(self, offset):
        return Place(self.path, bisect_left(self.ends, offset) + 1)


class Model:
    """The namespaces with their relations as they are read, and all that is refused."""

    def __init__(self, path):
        self.path = path
        self.namespaces = {}
        self.refused = []

    def refuse(self, place, name, why):
        self.refused.append((place, f"{at(place)}: {shown(name)}: {why}"))

    def add_namespace(self, place, name):
        if name in self.namespaces:
            self.refuse(place, name, "stands twice")
        elif not NAME.fullmatch(name):
            self.refuse(place, name, NO_NAME)
        self.namespaces.setdefault(name, {})

    def add_relation(self, namespace, name, relation):
        if name in self.namespaces[namespace]:
            self.refuse(relation.place, f"{namespace}#{name}", "stands twice")
        elif not NAME.fullmatch(name):
            self.refuse(relation.place, f"{namespace}#{name}", NO_NAME)
        self.namespaces[namespace].setdefault(name, relation)

    def relation(self, namespace, name):
        return self.namespaces.get(namespace, {}).get(name)

    def relations(self):
        """Each relation, with its namespace and its name."""
        for namespace, relations in self.namespaces.items():
            for name, relation in relations.items():
                yield namespace, name, relation


# Which models are valid: crates/config/specs/Valid.antt says the same.


def leaves_of(rewrite):
    """The leaves of a rewrite, each with whether it is in the second part of an exclusion."""
    if rewrite.kind in LEAVES:
        yield rewrite, False
        return
    for number, part in enumerate(rewrite.parts):
        for leaf, excluded in leaves_of(part):
            yield leaf, excluded or (rewrite.kind == "exclusion" and number == 1)


def size_of(rewrite):
    """How many rewrites are in one, itself included, and how deep it is."""
    if rewrite.kind in LEAVES:
        return 1, 1
    sizes = [size_of(it) for it in rewrite.parts]
    return 1 + sum(it for it, _ in sizes), 1 + max((it for _, it in sizes), default=0)


def uses_this(rewrite):
    return any(leaf.kind == "this" for leaf, _ in leaves_of(rewrite))


def text_of(kind):
    """A subject type as it is written."""
    return kind.namespace if kind.relation is None else f"{kind.namespace}#{kind.relation}"


def judge_types(model, name, relation):
    """Refuses types that are not there or too many, and a relation that has some and no use for them, or none."""
    for kind in relation.types:
        is_there = kind.namespace in model.namespaces if kind.relation is None else model.relation(kind.namespace, kind.relation)
        if not is_there:
            model.refuse(kind.place, name, f"its type {shown(text_of(kind))} is not there")
    count = len(set(map(text_of, relation.types)))
    if count > MOST_TYPES:
        model.refuse(relation.place, name, f"it has {count} types, and {MOST_TYPES} are the most")
    if uses_this(relation.rewrite) and not relation.types:
        model.refuse(relation.place, name, "it takes tuples, and no type is said of them")
    if relation.types and not uses_this(relation.rewrite):
        model.refuse(relation.place, name, "it has types, and its rewrite takes no tuples")


def judge_rewrite(model, namespace, name, relation):
    """Refuses what a rewrite names in vain, and one that is too large."""
    parts, depth = size_of(relation.rewrite)
    if parts > MOST_PARTS:
        model.refuse(relation.place, name, f"its rewrite has {parts} parts, and {MOST_PARTS} are the most")
    if depth > DEEPEST:
        model.refuse(relation.place, name, f"its rewrite is {depth} deep, and {DEEPEST} is the most")
    for leaf, _ in leaves_of(relation.rewrite):
        if leaf.kind == "computed" and not model.relation(namespace, leaf.parts[0]):
            model.refuse(leaf.place, name, f"{shown(namespace)}#{shown(leaf.parts[0])} is not there")
        if leaf.kind == "tuple_to":
            judge_arrow(model, namespace, name, leaf)


def judge_arrow(model, namespace, name, leaf):
    """Refuses an arrow over what is no relation of plain objects, one of which has the relation that is looked for."""
    tupleset, wanted = leaf.parts
    arrow = f"{shown(tupleset)}->{shown(wanted)}"
    over = model.relation(namespace, tupleset)
    if not over:
        model.refuse(leaf.place, name, f"{arrow} goes over {shown(tupleset)}, which is not there")
        return
    if over.rewrite.kind != "this":
        model.refuse(leaf.place, name, f"{arrow} goes over {shown(tupleset)}, which is more than its tuples")
        return
    for kind in over.types:
        if kind.relation is not None:
            model.refuse(leaf.place, name, f"{arrow} goes over {shown(tupleset)}, whose type {shown(text_of(kind))} is not one of objects")
    if not any(model.relation(it.namespace, wanted) for it in over.types):
        model.refuse(leaf.place, name, f"{arrow} is {shown(wanted)} of types of which none has it")


def steps_of(model, namespace, relation):
    """The relations on which a relation depends, each with whether it is excluded."""
    for leaf, excluded in leaves_of(relation.rewrite):
        if leaf.kind == "this":
            yield from (((it.namespace, it.relation), excluded) for it in relation.types if it.relation is not None)
        elif leaf.kind == "computed":
            yield (namespace, leaf.parts[0]), excluded
        else:
            over = model.relation(namespace, leaf.parts[0])
            yield from (((it.namespace, leaf.parts[1]), excluded) for it in (over.types if over else ()) if it.relation is None)


def judge_cycles(model):
    """Refuses each relation that excludes one that depends on it."""
    steps = {(namespace, name): list(steps_of(model, namespace, it)) for namespace, name, it in model.relations()}
    for start, taken in steps.items():
        for excluded in dict.fromkeys(to for to, is_excluded in taken if is_excluded):
            reached, waiting = {excluded}, [excluded]
            while waiting:
                further = {to for to, _ in steps.get(waiting.pop(), ())} - reached
                reached |= further
                waiting += further
            if start in reached:
                place = model.relation(*start).place
                model.refuse(place, "#".join(start), f"it excludes {shown('#'.join(excluded))}, which depends on it")


def judge(model):
    """Refuses what no valid configuration can say."""
    for namespace, name, relation in model.relations():
        judge_types(model, f"{namespace}#{name}", relation)
        judge_rewrite(model, namespace, f"{namespace}#{name}", relation)
    judge_cycles(model)
    for what, count, most in (
        ("namespaces", len(model.namespaces), MOST_NAMESPACES),
        ("relations", len(list(model.relations())), MOST_RELATIONS),
        ("bytes of a configuration", len(configuration(model)), MOST_BYTES),
    ):
        if count > most:
            model.refuse(Place(model.path, 1), "the whole", f"it has {count} {what}, and {most} are the most")


# What is written.


def compact(value):
    return json.dumps(value, separators=(",", ":"))


def written(rewrite):
    """A rewrite as a configuration has it."""
    if rewrite.kind == "this":
        return "this"
    if rewrite.kind == "computed":
        return {"computed": rewrite.parts[0]}
    if rewrite.kind == "tuple_to":
        return {"tuple_to": {"tupleset": rewrite.parts[0], "relation": rewrite.parts[1]}}
    return {rewrite.kind: [written(it) for it in rewrite.parts]}


def configuration(model):
    """The body of the configuration."""
    namespaces = {it: {} for it in model.namespaces}
    for namespace, name, relation in model.relations():
        made = namespaces[namespace][name] = {}
        if relation.types:
            made["types"] = list(dict.fromkeys(map(text_of, relation.types)))
        if relation.rewrite.kind != "this":
            made["rewrite"] = written(relation.rewrite)
    return compact({"namespaces": namespaces})


def escaped(text):
    """An id as it is written here."""
    return ESCAPED.sub(lambda it: b".%02X" % it[0][0], text.encode("utf-8", "surrogatepass")).decode()


def writes(tuples):
    """The bodies of the writes: as many operations in each as it takes."""
    operations, size = [], 0
    for text in tuples:
        operation = f'{{"op":"touch","tuple":"{text}"}}'
        if operations and (len(operations) == MOST_OPERATIONS or size + 1 + len(operation) > MOST_BYTES):
            yield f'{{"ops":[{",".join(operations)}]}}'
            operations = []
        size = size + 1 + len(operation) if operations else len('{"ops":[]}') + len(operation)
        operations.append(operation)
    if operations:
        yield f'{{"ops":[{",".join(operations)}]}}'


class Tuples:
    """The tuples as they are written, each once and in the order in which they came."""

    def __init__(self, model):
        self.model = model
        self.types = {}
        self.texts = {}
        for namespace, name, relation in model.relations():
            self.types[namespace, name] = {(it.namespace, it.relation) for it in relation.types}

    def add(self, place, name, it):
        """Adds a tuple, or refuses it by the name that it has where it stands."""
        why = self.refusal(it)
        object_id, subject_id = escaped(it.id), escaped(it.subject_id)
        for made, given in ((object_id, it.id), (subject_id, it.subject_id)):
            if len(made) > LONGEST_ID:
                why = why or f"the id {shown(given)} takes {len(made)} bytes, and {LONGEST_ID} are the most"
        if why:
            self.model.refuse(place, name, why)
            return
        userset = "" if it.subject_relation is None else f"#{it.subject_relation}"
        text = f"{it.namespace}:{object_id}#{it.relation}@{it.subject_namespace}:{subject_id}{userset}"
        self.texts[text] = None
        if len(self.texts) == MOST_TUPLES + 1:
            self.model.refuse(place, name, f"{MOST_TUPLES} tuples are the most")

    def refusal(self, it):
        """Why the model admits no such tuple."""
        if "*" in (it.id, it.subject_id):
            return "a public wildcard"
        types = self.types.get((it.namespace, it.relation))
        relation = f"{shown(it.namespace)}#{shown(it.relation)}"
        if types is None:
            return f"{relation} is not there"
        if not types:
            return f"{relation} has no tuples of its own"
        if (it.subject_namespace, it.subject_relation) not in types:
            return f"{relation} has no type {shown(text_of(Type(None, it.subject_namespace, it.subject_relation)))}"
        return None


# OpenFGA.


class Located(dict):
    """An object of JSON that knows where it stands."""

    __slots__ = ("place",)


class Json(JSONDecoder):
    """Reads JSON into objects that know where they stand. The decoder that is written in C cannot tell where an object begins."""

    def __init__(self, source):
        super().__init__()
        self.source = source
        self.parse_object = self.located
        self.scan_once = py_make_scanner(self)

    def located(self, start, strict, scan_once, _hook, _pairs_hook, memo):
        pairs, end = JSONObject(start, strict, scan_once, None, list, memo)
        made = Located(pairs)
        made.place = self.source.place(start[1])
        if len(made) < len(pairs):
            names = [name for name, _ in pairs]
            raise Unreadable(f"{at(made.place)}: {shown(next(it for it in names if names.count(it) > 1))} stands twice in one object")
        return made, end


def json_of(path):
    """What a file of JSON says, and the place where it begins."""
    source = Source(path)
    try:
        return Json(source).decode(source.text), source.place(0)
    except json.JSONDecodeError as error:
        raise Unreadable(f"{at(Place(path, error.lineno))}: no JSON: {error.msg}") from None
    except ValueError:
        raise Unreadable(f"{shown(path)}: no JSON: a number is too long") from None


KINDS = {Located: "an object", list: "a list", str: "a text"}
# What each rewrite has in it. That of a computed relation is an object relation.
MEMBERS = {
    "this": (),
    "tupleToUserset": ("tupleset", "computedUserset"),
    "union": ("child",),
    "intersection": ("child",),
    "difference": ("base", "subtract"),
}


def is_of(value, kind, place, what):
    """The value, where it is of the kind."""
    if not isinstance(value, kind):
        raise Unreadable(f"{at(place)}: {what} is not {KINDS[kind]}")
    return value


def member(it, name, kind):
    """A member that must be there."""
    if name not in it:
        raise Unreadable(f"{at(it.place)}: {name} is missing")
    return is_of(it[name], kind, it.place, name)


def member_or(it, name, kind, otherwise):
    """A member that may be missing or null."""
    return otherwise if it.get(name) is None else member(it, name, kind)


def has_only(it, *names):
    """Sees that an object has no member whose meaning is not known."""
    for name in it:
        if name not in names:
            raise Unreadable(f"{at(it.place)}: the member {shown(name)} is not known")


def read_model(path):
    """An authorization model of OpenFGA."""
    whole, place = json_of(path)
    whole = is_of(whole, Located, place, "the model")
    if "authorization_model" in whole:
        whole = member(whole, "authorization_model", Located)
    has_only(whole, "id", "schema_version", "type_definitions", "conditions")
    model = Model(path)
    version = member(whole, "schema_version", str)
    if version != "1.1":
        model.refuse(whole.place, f"schema {version}", "1.1 alone is read")
    for name, condition in member_or(whole, "conditions", Located, {}).items():
        model.refuse(is_of(condition, Located, whole.place, name).place, name, "a condition")
    for it in member(whole, "type_definitions", list):
        read_type_definition(model, is_of(it, Located, whole.place, "a type definition"))
    return model


def read_type_definition(model, it):
    """A type of OpenFGA with its relations."""
    has_only(it, "type", "relations", "metadata")
    namespace = member(it, "type", str)
    model.add_namespace(it.place, namespace)
    rewrites = member_or(it, "relations", Located, {})
    metadata = member_or(it, "metadata", Located, Located())
    has_only(metadata, "relations", "module", "source_info")
    said = member_or(metadata, "relations", Located, {})
    for name in said:
        if name not in rewrites:
            model.refuse(it.place, f"{namespace}#{name}", "it has metadata, and no rewrite")
    for name, rewrite in rewrites.items():
        rewrite = is_of(rewrite, Located, it.place, name)
        types = []
        if said and said.get(name) is not None:
            about = member(said, name, Located)
            has_only(about, "directly_related_user_types", "module", "source_info")
            for kind in member_or(about, "directly_related_user_types", list, []):
                types.append(read_type(model, f"{namespace}#{name}", is_of(kind, Located, about.place, "a type")))
        model.add_relation(namespace, name, Relation(rewrite.place, types, read_rewrite(model, f"{namespace}#{name}", rewrite)))


def read_type(model, name, it):
    """A type of users. What it has beside that is refused, and it is then read without it."""
    has_only(it, "type", "relation", "wildcard", "condition")
    namespace = member(it, "type", str)
    condition = member_or(it, "condition", str, "")
    if it.get("wildcard") is not None:
        model.refuse(it.place, name, f"{shown(namespace)}:* is a public wildcard")
    if condition:
        model.refuse(it.place, name, f"its type {shown(namespace)} has the condition {shown(condition)}")
    return Type(it.place, namespace, member_or(it, "relation", str, "") or None)


def relation_of(it, name):
    """The relation of an object relation, as OpenFGA calls it, which names no object of its own."""
    made = member(it, name, Located)
    has_only(made, "object", "relation")
    if member_or(made, "object", str, "") not in ("", "$TUPLE_USERSET_OBJECT"):
        raise Unreadable(f"{at(made.place)}: {name} is of an object of its own")
    return member(made, "relation", str)


def read_rewrite(model, name, it):
    """A rewrite of OpenFGA."""
    if len(it) != 1:
        raise Unreadable(f"{at(it.place)}: a rewrite has one member, and not {len(it)}")
    kind = next(iter(it))
    if kind == "computedUserset":
        return Rewrite(it.place, "computed", (relation_of(it, kind),))
    has_only(it, *MEMBERS)
    inner = member(it, kind, Located)
    has_only(inner, *MEMBERS[kind])
    if kind == "this":
        return Rewrite(it.place, "this", ())
    if kind == "tupleToUserset":
        return Rewrite(it.place, "tuple_to", (relation_of(inner, "tupleset"), relation_of(inner, "computedUserset")))
    if kind == "difference":
        return Rewrite(it.place, "exclusion", [read_rewrite(model, name, member(inner, part, Located)) for part in MEMBERS[kind]])
    parts = member(inner, "child", list)
    if not parts:
        model.refuse(it.place, name, f"its {kind} is of nothing")
    return Rewrite(it.place, kind, [read_rewrite(model, name, is_of(part, Located, inner.place, "a child")) for part in parts])


def keys_of(path):
    """The tuples in a file of OpenFGA, and whether it says that more come after them."""
    whole, place = json_of(path)
    more = False
    if isinstance(whole, Located):
        has_only(whole, "tuples", "tuple_keys", "continuation_token")
        more = bool(member_or(whole, "continuation_token", str, ""))
        listed = member(whole, "tuple_keys" if "tuple_keys" in whole else "tuples", list)
    elif isinstance(whole, list):
        listed = whole
    else:
        raise Unreadable(f"{at(place)}: the tuples are neither a list nor an object")
    keys = []
    for it in listed:
        it = is_of(it, Located, place, "a tuple")
        if "key" in it:
            has_only(it, "key", "timestamp")
            it = member(it, "key", Located)
        has_only(it, "user", "relation", "object", "condition", "timestamp")
        keys.append(it)
    return keys, more


def read_tuples(paths, tuples):
    """The tuples of OpenFGA, page after page."""
    for number, path in enumerate(paths, 1):
        keys, more = keys_of(path)
        if more and number == len(paths):
            raise Unreadable(f"{shown(path)}: its continuation_token says that more tuples come, and no file has them")
        for it in keys:
            read_key(tuples, it)


def read_key(tuples, it):
    """A tuple of OpenFGA."""
    user, relation, thing = (member(it, name, str) for name in ("user", "relation", "object"))
    name = f"{thing}#{relation}@{user}"
    namespace, colon, object_id = thing.partition(":")
    if not namespace or not object_id or "#" in thing:
        raise Unreadable(f"{at(it.place)}: {shown(thing)} is no object")
    subject, sign, subject_relation = user.partition("#")
    subject_namespace, typed, subject_id = subject.partition(":")
    if not subject_namespace or (typed and not subject_id) or (sign and not subject_relation):
        raise Unreadable(f"{at(it.place)}: {shown(user)} is no user")
    condition = member_or(it, "condition", Located, {})
    if not typed:
        tuples.model.refuse(it.place, name, f"the user {shown(user)} has no type")
    elif condition:
        tuples.model.refuse(it.place, name, f"it has the condition {shown(member_or(condition, 'name', str, ''))}")
    else:
        tuples.add(it.place, name, Tuple(namespace, object_id, relation, subject_namespace, subject_id, subject_relation if sign else None))


# SpiceDB.

TOKEN = re.compile(
    r"""(?P<gap>\s+|//[^\n]*|/\*.*?\*/)|(?P<word>\w+(?:/\w+)*)|(?P<sign>->|\.\.\.|"(?:\\.|[^"\\\n])*"|'(?:\\.|[^'\\\n])*'|.)""", re.DOTALL
)
# In the order in which SpiceDB reads them, where no parentheses stand.
OPERATORS = {"+": "union", "&": "intersection", "-": "exclusion"}
KEYWORDS = ("definition", "caveat", "relation", "permission", "with", "nil")
RELATIONSHIP = re.compile(r"([^:#@\s]+):([^:#@\s]+)#([^:#@\s]+)@([^:#@\s]+):([^:#@\s]+)(?:#([^:#@\s]+))?")
Token = namedtuple("Token", "kind text offset")


class Schema:
    """Reads a schema of SpiceDB, token by token."""

    def __init__(self, path):
        self.source = Source(path)
        self.model = Model(path)
        found = TOKEN.finditer(self.source.text)
        self.tokens = [Token(it.lastgroup, it.group(), it.start()) for it in found if it.lastgroup != "gap"]
        self.tokens.append(Token("end", "", len(self.source.text)))
        self.next = 0

    def place(self):
        return self.source.place(self.tokens[self.next].offset)

    def fail(self, wanted):
        token = self.tokens[self.next]
        raise Unreadable(f"{at(self.place())}: {wanted} should be here, and not {shown(token.text) or 'the end'}")

    def took(self, *texts):
        """The token that is next, where it is one of these texts."""
        token = self.tokens[self.next]
        if token.text not in texts:
            return None
        self.next += 1
        return token.text

    def expect(self, text):
        if not self.took(text):
            self.fail(text)

    def word(self, what):
        token = self.tokens[self.next]
        if token.kind != "word" or token.text in KEYWORDS:
            self.fail(what)
        self.next += 1
        return token.text

    def read(self):
        while self.tokens[self.next].kind != "end":
            place = self.place()
            if self.took("definition"):
                self.read_definition()
            elif self.took("caveat"):
                self.pass_over_caveat(place)
            elif self.took("use"):
                self.model.refuse(place, f"use {self.word('what is used')}", "what it changes cannot be said here")
            elif not self.took(";"):
                self.fail("a definition or a caveat")
        return self.model

    def pass_over_caveat(self, place):
        """Refuses a caveat, and goes on after it."""
        self.model.refuse(place, self.word("the name of a caveat"), "a caveat")
        depth = 0
        while self.tokens[self.next].kind != "end":
            text = self.tokens[self.next].text
            self.next += 1
            depth += (text == "{") - (text == "}")
            if text == "}" and depth <= 0:
                return
        self.fail("}")

    def read_definition(self):
        place = self.place()
        namespace = self.word("the name of a definition")
        self.model.add_namespace(place, namespace)
        self.expect("{")
        while not self.took("}"):
            if self.took("relation"):
                self.read_relation(namespace)
            elif self.took("permission"):
                self.read_permission(namespace)
            elif not self.took(";"):
                self.fail("a relation, a permission or }")

    def read_relation(self, namespace):
        place = self.place()
        name = self.word("the name of a relation")
        self.expect(":")
        types = [self.read_type(f"{namespace}#{name}")]
        while self.took("|"):
            types.append(self.read_type(f"{namespace}#{name}"))
        self.model.add_relation(namespace, name, Relation(place, types, Rewrite(place, "this", ())))

    def read_type(self, name):
        """A subject type. What it has beside that is refused, and it is then read without it."""
        place = self.place()
        namespace, relation = self.word("a type"), None
        if self.took(":"):
            self.expect("*")
            self.model.refuse(place, name, f"{shown(namespace)}:* is a public wildcard")
        elif self.took("#") and not self.took("..."):
            relation = self.word("a relation of the type")
        if self.took("with"):
            traits = [self.word("what it comes with")]
            while self.took("and"):
                traits.append(self.word("what it comes with"))
            for it in traits:
                what = "an expiration" if it == "expiration" else f"the caveat {shown(it)}"
                self.model.refuse(place, name, f"its type {shown(namespace)} has {what}")
        return Type(place, namespace, relation)

    def read_permission(self, namespace):
        place = self.place()
        name = self.word("the name of a permission")
        self.expect("=")
        self.model.add_relation(namespace, name, Relation(place, [], self.read_expression(f"{namespace}#{name}")))

    def read_expression(self, name):
        """Operands from left to right. Where SpiceDB would take a later operator first, it is refused."""
        place, made, before = self.place(), self.read_operand(name), None
        while True:
            here = self.place()
            operator = self.took(*OPERATORS)
            if not operator:
                return made
            order = list(OPERATORS)
            if before and order.index(operator) < order.index(before):
                self.model.refuse(here, name, f"its {operator} after {before} needs parentheses")
            part = self.read_operand(name)
            if operator == before and operator != "-":
                made.parts.append(part)
            else:
                made = Rewrite(place, OPERATORS[operator], [made, part])
            before = operator

    def read_operand(self, name):
        """A relation, an arrow, nil, or an expression in parentheses."""
        place = self.place()
        if self.took("nil"):
            self.model.refuse(place, name, "nil is nobody, which cannot be said here")
            return Rewrite(place, "union", [])
        if self.took("("):
            made = self.read_expression(name)
            self.expect(")")
        else:
            made = self.read_name(name)
        while self.took("->"):
            self.model.refuse(place, name, f"its arrow to {shown(self.word('a relation'))} is over more than a relation")
        return made

    def read_name(self, name):
        """A relation, or an arrow from one."""
        place = self.place()
        first = self.word("a relation")
        if self.took("->"):
            return Rewrite(place, "tuple_to", (first, self.word("a relation")))
        if self.took("."):
            way = self.took("any", "all") or self.fail("any or all")
            self.expect("(")
            wanted = self.word("a relation")
            self.expect(")")
            if way == "all":
                self.model.refuse(place, name, f"{shown(first)}.all({shown(wanted)}) asks it of all")
            return Rewrite(place, "tuple_to", (first, wanted))
        return Rewrite(place, "computed", (first,))


def read_relationships(paths, tuples):
    """The relationships of SpiceDB, line by line."""
    for path in paths:
        for number, line in enumerate(Source(path).text.split("\n"), 1):
            line = line.strip()
            if line and not line.startswith("//"):
                read_relationship(tuples, Place(path, number), line)


def read_relationship(tuples, place, line):
    """A relationship of SpiceDB. In brackets after it stand its caveat and when it expires."""
    text, bracket, trait = line.partition("[")
    found = RELATIONSHIP.fullmatch(text.strip())
    if not found or (bracket and not trait.endswith("]")):
        raise Unreadable(f"{at(place)}: {shown(line)} is no relationship")
    *parts, relation = found.groups()
    if bracket:
        what = "an expiration" if trait.startswith("expiration:") else f"the caveat {shown(re.split('[]:]', trait)[0])}"
        tuples.model.refuse(place, text, f"it has {what}")
    else:
        tuples.add(place, text, Tuple(*parts, None if relation == "..." else relation))


# The command.


def imported(words):
    """The lines, and what is refused."""
    model = read_model(words[1]) if words[0] == "openfga" else Schema(words[1]).read()
    judge(model)
    tuples = Tuples(model)
    (read_tuples if words[0] == "openfga" else read_relationships)(words[2:], tuples)
    order = {path: number for number, path in reversed(list(enumerate(words[1:])))}
    refused = sorted(model.refused, key=lambda it: (order[it[0].path], it[0].line))
    return [f"config {configuration(model)}", *(f"write {it}" for it in writes(tuples.texts))], [text for _, text in refused]


def tell(*lines):
    if sys.stderr:
        sys.stderr.write("".join(f"{it}\n" for it in lines))


def put(lines):
    """Writes the lines out."""
    try:
        for it in lines:
            sys.stdout.write(f"{it}\n")
        sys.stdout.flush()
    except (AttributeError, OSError) as error:
        if sys.stdout:
            os.dup2(os.open(os.devnull, os.O_WRONLY), sys.stdout.fileno())
        raise Unreadable(f"standard output: {getattr(error, 'strerror', None) or 'it is closed'}") from None


def main(words):
    try:
        if words in (["--help"], ["-h"]):
            put([__doc__.strip()])
            return 0
        if len(words) < 2 or words[0] not in ("openfga", "spicedb"):
            tell("import: usage: tools/import.py openfga MODEL [TUPLES ..], or tools/import.py spicedb SCHEMA [RELATIONSHIPS ..]")
            return 2
        lines, refused = imported(words)
        if refused:
            tell(*refused)
            return 1
        put(lines)
        return 0
    except Unreadable as error:
        tell(f"import: {error}")
    except RecursionError:
        tell("import: something is nested too deeply to be read")
    except MemoryError:
        tell("import: memory was refused")
    return 2


if __name__ == "__main__":
    signal.signal(signal.SIGINT, signal.SIG_DFL)
    sys.exit(main(sys.argv[1:]))
