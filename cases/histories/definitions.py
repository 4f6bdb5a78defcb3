"""What the calls mean, from scratch: a history is a list of commits, and each question is answered from the tuples of a revision.

Nothing here is quick. Membership is the least set closed under the rewrites, level by level: within a level all nodes are gone
over again and again, until nothing is added. It follows docs/DEFINITIONS.md, and shares no code with the program.
"""
import base64
import json
from collections import namedtuple

# A tuple's text is NAMESPACE:ID#RELATION@SUBJECT. A subject is an object, or a node: NAMESPACE:ID#RELATION.
Refusal = namedtuple("Refusal", "code name more", defaults=({},))
STATUSES = {400: (1, 2, 3, 4, 9, 11, 12, 16), 409: (5, 6, 7, 10, 13, 17, 18, 19), 410: (14,), 413: (15,), 503: (8, 20, 21, 22, 23)}
MALFORMED, BAD_ZOOKIE = Refusal(1, "Malformed"), Refusal(11, "BadZookie")
UNKNOWN, UNTYPED, TWICE = Refusal(2, "UnknownRelation"), Refusal(3, "TypeRefused"), Refusal(4, "TwiceInOneWrite")
FOREIGN, FUTURE, EXPIRED, TOO_LARGE = Refusal(12, "ForeignZookie"), Refusal(13, "Future"), Refusal(14, "Expired"), Refusal(15, "TooLarge")
NOT_INDEXED, IN_USE, FULL = Refusal(16, "NotIndexed"), Refusal(17, "InUse"), Refusal(8, "Full")
MOST_TREE_NODES, MOST_MARKS = 4096, 256


class Refused(Exception):
    """A call is refused."""


def compact(value):
    return json.dumps(value, separators=(",", ":"), sort_keys=True)


def said(status, reply):
    return f"{status} {compact(reply)}"


def told(refusal):
    """The line of a refusal."""
    status = next(it for it, codes in STATUSES.items() if refusal.code in codes)
    return said(status, {"error": {"code": refusal.code, "name": refusal.name, **refusal.more}})


# -- texts


def zookie_of(revision, store=1):
    return base64.urlsafe_b64encode(b"\2" + store.to_bytes(8, "big") + revision.to_bytes(8, "big")).decode().rstrip("=")


def read_zookie(text):
    """The store and the revision of a zookie's text."""
    for store in (1, 2):
        for revision in range(200):
            if zookie_of(revision, store) == text:
                return store, revision
    raise Refused(BAD_ZOOKIE)


def parts_of(node):
    """The namespace, the id and the relation of a node, or of an object, which has none."""
    thing, _, relation = node.partition("#")
    namespace, _, name = thing.partition(":")
    return namespace, name, relation


def order_of(text):
    """By their node, then by their subject, an object before its nodes."""
    node, _, subject = text.partition("@")
    return parts_of(node), parts_of(subject)


# -- configurations


class Config:
    """The relations of each namespace: for each its types, its rewrite and whether it is indexed."""

    def __init__(self, namespaces):
        self.namespaces = namespaces

    def relations(self):
        return [(namespace, name) for namespace, its in sorted(self.namespaces.items()) for name in sorted(its)]

    def has(self, namespace, relation):
        return relation in self.namespaces.get(namespace, {})

    def types(self, namespace, relation):
        return self.namespaces[namespace][relation].get("types", [])

    def rewrite(self, namespace, relation):
        return self.namespaces[namespace][relation].get("rewrite", "this")

    def is_indexed(self, namespace, relation):
        return self.namespaces[namespace][relation].get("indexed", False)

    def refusal_of(self, text):
        """Why a tuple is not admitted, or nothing."""
        node, _, subject = text.partition("@")
        namespace, _, relation = parts_of(node)
        if not self.has(namespace, relation):
            return UNKNOWN
        of, _, its = parts_of(subject)
        return None if (f"{of}#{its}" if its else of) in self.types(namespace, relation) else UNTYPED

    def steps(self, namespace, relation):
        """What a relation depends on: each relation with whether the step to it is subtracted."""
        found = set()

        def look(rewrite, subtracted):
            if rewrite == "this":
                found.update((*it.split("#"), subtracted) for it in self.types(namespace, relation) if "#" in it)
                return
            ((kind, inside),) = rewrite.items()
            if kind == "computed":
                found.add((namespace, inside, subtracted))
            elif kind == "tuple_to":
                types = self.types(namespace, inside["tupleset"])
                found.update((it, inside["relation"], subtracted) for it in types if self.has(it, inside["relation"]))
            elif kind == "exclusion":
                look(inside[0], subtracted)
                look(inside[1], True)
            else:
                for part in inside:
                    look(part, subtracted)

        look(self.rewrite(namespace, relation), False)
        return found

    def levels(self):
        """The greatest number of subtracted steps on a path from each relation, or nothing where there is no greatest one."""
        level = {it: 0 for it in self.relations()}
        for _ in range(len(level) + 1):
            for at in level:
                for namespace, relation, subtracted in self.steps(*at):
                    level[at] = max(level[at], level[namespace, relation] + subtracted)
        return None if any(it > len(level) for it in level.values()) or self.rises(level) else level

    def rises(self, level):
        return any(level[at] < level[namespace, name] + subtracted for at in level for namespace, name, subtracted in self.steps(*at))

    def cause(self):
        """The first cause for which it is refused, of those that a well-formed small one can have, or nothing."""
        tests = {"type": self.lacks_type, "this": self.lacks_this, "computed": self.lacks_computed, "tupleset": self.lacks_tupleset, "indexed": self.lacks_index}
        for name, test in tests.items():
            if any(test(*it) for it in self.relations()):
                return name
        return None if self.levels() else "cycle" if self.relations() else None

    def leaves(self, namespace, relation):
        """The leaves of the rewrite: this, computed or tuple_to, with what it names."""
        pending, found = [self.rewrite(namespace, relation)], []
        while pending:
            it = pending.pop()
            kind, inside = ("this", None) if it == "this" else next(iter(it.items()))
            if kind in ("this", "computed", "tuple_to"):
                found.append((kind, inside))
            else:
                pending += inside
        return found

    def lacks_type(self, namespace, relation):
        types = self.types(namespace, relation)
        missing = [it for it in types if it.partition("#")[0] not in self.namespaces or "#" in it and not self.has(*it.split("#"))]
        return missing or len(set(types)) < len(types)

    def lacks_this(self, namespace, relation):
        return bool(self.types(namespace, relation)) != any(kind == "this" for kind, _ in self.leaves(namespace, relation))

    def lacks_computed(self, namespace, relation):
        return any(kind == "computed" and not self.has(namespace, it) for kind, it in self.leaves(namespace, relation))

    def lacks_tupleset(self, namespace, relation):
        for kind, it in self.leaves(namespace, relation):
            if kind == "tuple_to":
                tupleset = it["tupleset"]
                if not self.has(namespace, tupleset) or self.rewrite(namespace, tupleset) != "this":
                    return True
                types = self.types(namespace, tupleset)
                if any("#" in each for each in types) or not any(self.has(each, it["relation"]) for each in types):
                    return True
        return False

    def lacks_index(self, namespace, relation):
        if not self.is_indexed(namespace, relation):
            return False
        pending = [self.rewrite(namespace, relation)]
        while pending:
            it = pending.pop()
            if it == "this":
                continue
            ((kind, inside),) = it.items()
            if kind == "computed":
                if not self.is_indexed(namespace, inside):
                    return True
            elif kind == "union":
                pending += inside
            else:
                return True
        return any("#" in it and not self.is_indexed(*it.split("#")) for it in self.types(namespace, relation))


# -- what the tuples of a revision mean


class Snapshot:
    """A configuration and the tuples of a revision."""

    def __init__(self, config, tuples):
        self.config, self.tuples = config, frozenset(tuples)
        self.known = None

    def subjects(self, node):
        """The subjects of a node's tuples, in their order."""
        return [it.partition("@")[2] for it in sorted(self.tuples, key=order_of) if it.partition("@")[0] == node]

    def parents(self, thing, inside):
        """The nodes of a tupleset: those of its objects whose namespace has the relation."""
        found = self.subjects(f"{thing}#{inside['tupleset']}")
        return [f"{it}#{inside['relation']}" for it in found if self.config.has(parts_of(it)[0], inside["relation"])]

    def gives(self, node, rewrite, user, now, lower):
        """Whether a rewrite at a node gives a user, by the pairs that are held and those of lower levels."""
        thing, _, _ = node.partition("#")
        if rewrite == "this":
            return any(it == user or (user, it) in now for it in self.subjects(node))
        ((kind, inside),) = rewrite.items()
        if kind == "computed":
            return (user, f"{thing}#{inside}") in now
        if kind == "tuple_to":
            return any((user, it) in now for it in self.parents(thing, inside))
        if kind == "union":
            return any(self.gives(node, it, user, now, lower) for it in inside)
        if kind == "intersection":
            return all(self.gives(node, it, user, now, lower) for it in inside)
        first, second = inside
        return self.gives(node, first, user, now, lower) and not self.gives(node, second, user, lower, lower)

    def members(self):
        """All pairs of a user and a node of which it is a member, among what the tuples name."""
        if self.known is None:
            named = {text for it in self.tuples for text in it.split("@")}
            users = {it for it in named if "#" not in it}
            things = {it.partition("#")[0] for it in named}
            levels = self.config.levels() or {}
            lower = frozenset()
            for level in range(max(levels.values(), default=-1) + 1):
                nodes = [f"{it}#{name}" for it in things for (namespace, name), at in levels.items() if at == level and parts_of(it)[0] == namespace]
                lower = self.closed(nodes, users, lower)
            self.known = lower
        return self.known

    def closed(self, nodes, users, lower):
        """The least set that has the pairs of lower levels, and whatever the rewrites of these nodes give by it."""
        now, before = set(lower), None
        while before != len(now):
            before = len(now)
            now |= {(user, node) for node in nodes for user in users if self.gives(node, self.config.rewrite(*parts_of(node)[::2]), user, now, lower)}
        return frozenset(now)

    def check(self, node, user):
        self.needs(node)
        return (user, node) in self.members()

    def needs(self, node):
        if not self.config.has(*parts_of(node)[::2]):
            raise Refused(UNKNOWN)

    def lookup(self, namespace, relation, user, after=None, limit=1000):
        """The first of the namespace's objects of whose relation the user is a member."""
        if not self.config.has(namespace, relation):
            raise Refused(UNKNOWN)
        found = sorted(parts_of(node)[1] for it, node in self.members() if it == user and parts_of(node)[::2] == (namespace, relation))
        return [f"{namespace}:{it}" for it in found if after is None or after < it][:limit]

    def tree(self, node, depth):
        self.needs(node)
        count = [0]

        def one(tree):
            count[0] += 1
            if count[0] > MOST_TREE_NODES:
                raise Refused(TOO_LARGE)
            return tree

        def userset(it, path):
            if len(path) >= depth or it in path:
                return one({"userset": it})
            return one({"of": filled(it, self.config.rewrite(*parts_of(it)[::2]), (*path, it)), "userset": it})

        def filled(it, rewrite, path):
            thing, _, _ = it.partition("#")
            if rewrite == "this":
                return one({"union": [userset(each, path) if "#" in each else one({"user": each}) for each in self.subjects(it)]})
            ((kind, inside),) = rewrite.items()
            if kind == "computed":
                return userset(f"{thing}#{inside}", path)
            if kind == "tuple_to":
                return one({"union": [userset(each, path) for each in self.parents(thing, inside)]})
            return one({kind: [filled(it, each, path) for each in inside]})

        return userset(node, ())

    def means(self, tree, user):
        """Whether a tree means a user."""
        ((kind, inside),) = [it for it in tree.items() if it[0] != "userset"] or [("userset", tree.get("userset"))]
        if kind == "of":
            return self.means(inside, user)
        if kind == "user":
            return inside == user
        if kind == "userset":
            return (user, inside) in self.members()
        found = [self.means(it, user) for it in inside]
        if kind == "union":
            return any(found)
        return all(found) if kind == "intersection" else found[0] and not found[1]

    # Groups: nodes of indexed relations. A group leads to the userset of each of its tuples, and to what it computes.

    def led_to(self, group):
        """The ends of all walks from a group, itself among them."""
        found, before = {group}, None
        while before != len(found):
            before = len(found)
            for it in sorted(found):
                found.update(each for each in self.subjects(it) if "#" in each)
                namespace, _, relation = parts_of(it)
                leaves = self.config.leaves(namespace, relation) if self.config.has(namespace, relation) else []
                found.update(f"{it.partition('#')[0]}#{name}" for kind, name in leaves if kind == "computed")
        return found

    def naming(self, user):
        """The groups that name a user by a tuple of their own."""
        nodes = {it.partition("@")[0] for it in self.tuples if it.partition("@")[2] == user}
        return {it for it in nodes if self.config.is_indexed(*parts_of(it)[::2])}

    def meant(self, expr):
        """The groups that an expression means."""
        ((kind, inside),) = expr.items()
        if kind == "m2g":
            return self.naming(inside)
        if kind == "g2g":
            return self.led_to(inside)
        found = [self.meant(it) for it in inside]
        return {"union": set.union, "intersection": set.intersection, "exclusion": set.difference}[kind](*found)

    def leopard(self, expr, limit):
        """The first groups of an expression. Each closure that is asked for must be of a group."""
        asked = [parts_of(it)[::2] for it in closures_in(expr)]
        if not all(self.config.has(*it) for it in asked):
            raise Refused(UNKNOWN)
        if not all(self.config.is_indexed(*it) for it in asked):
            raise Refused(NOT_INDEXED)
        found = sorted(self.meant(expr), key=parts_of)
        for user in self.users_named():
            for group in closures_in(expr):
                assert bool(self.led_to(group) & self.naming(user)) == self.check(group, user), f"{group} by {user}"
        return found[:limit]

    def users_named(self):
        """The objects that are subjects."""
        return {it.partition("@")[2] for it in self.tuples if "#" not in it.partition("@")[2]}

    def read(self, namespace, thing=None, relation=None, subject=None, after=None, limit=1000):
        found = []
        for it in sorted(self.tuples, key=order_of):
            node, _, its = it.partition("@")
            of, name, called = parts_of(node)
            fits = of == namespace and thing in (None, name) and relation in (None, called) and subject in (None, its)
            if fits and (after is None or order_of(after) < order_of(it)):
                found.append(it)
        return found[:limit]


def closures_in(expr):
    """The groups whose closures an expression asks for."""
    ((kind, inside),) = expr.items()
    if kind in ("m2g", "g2g"):
        return [inside] if kind == "g2g" else []
    return [each for it in inside for each in closures_in(it)]


# -- histories


class History:
    """All commits of a store. One is a configuration, or a list of events: each a tuple and whether it is put."""

    def __init__(self):
        self.commits, self.snapshots = [], [Snapshot(Config({}), ())]
        self.base = self.index = self.hot = self.floor = 0
        self.marks = frozenset()

    @property
    def newest(self):
        return len(self.commits)

    def commit(self, change):
        last = self.snapshots[-1]
        self.commits.append(change)
        if isinstance(change, Config):
            self.snapshots.append(Snapshot(change, last.tuples))
        else:
            put, gone = {it for it, is_put in change if is_put}, {it for it, is_put in change if not is_put}
            self.snapshots.append(Snapshot(last.config, (last.tuples - gone) | put))

    def opened_again(self):
        self.base = self.index = self.hot = self.newest
        self.marks = frozenset()

    def events(self, text):
        """The revisions of the events on a tuple."""
        return [rev for rev, it in enumerate(self.commits, 1) if not isinstance(it, Config) and any(each == text for each, _ in it)]

    def choose(self, at):
        """The revision at which a question is answered."""
        if at is None or at == "latest":
            return self.newest
        ((kind, text),) = at.items()
        revision = self.within(read_zookie(text), kind == "exactly")
        return revision if kind == "exactly" else self.index if self.index >= revision else self.newest

    def within(self, zookie, is_exact):
        store, revision = zookie
        for is_so, refusal in ((store != 1, FOREIGN), (revision > self.newest, FUTURE), (is_exact and revision < self.floor, EXPIRED)):
            if is_so:
                raise Refused(refusal)
        return revision

    def ask(self, at, question):
        """The answer to a question, and the zookie of its revision."""
        revision = self.choose(at)
        try:
            return question(self.snapshots[revision]), zookie_of(revision)
        except Refused as refused:
            raise Refused(refused.args[0]._replace(more={"zookie": zookie_of(revision)})) from None

    def watch(self, cursor, commits, namespaces):
        first = self.within(read_zookie(cursor), True)
        last = min(first + commits, self.newest)
        found = []
        for revision in range(first + 1, last + 1):
            change = self.commits[revision - 1]
            for text, is_put in [] if isinstance(change, Config) else sorted(change, key=lambda it: order_of(it[0])):
                if namespaces is None or parts_of(text)[0] in namespaces:
                    found.append({"event": "put" if is_put else "del", "tuple": text, "zookie": zookie_of(revision)})
        return {"events": found, "heartbeat": zookie_of(last)}

    def take(self, part, commits):
        before = getattr(self, part)
        cursor = min(before + commits, self.newest)
        setattr(self, part, cursor)
        if part == "index":
            taken = [rev for rev in range(before + 1, cursor + 1) if isinstance(self.commits[rev - 1], Config)]
            self.base = max([self.base, *taken])
        return {"cursor": zookie_of(cursor), "shown": True}

    def rebuild(self):
        """Makes the base of the newest revision; the index comes to it too."""
        self.base = self.index = self.newest
        return {"base": zookie_of(self.base), "shown": True}

    def mark(self, node):
        """Marks a node, once, whose relation the newest configuration must have."""
        self.snapshots[-1].needs(node)
        marks = self.marks | {node}
        if len(marks) > MOST_MARKS:
            raise Refused(FULL)
        self.marks = marks
        return self.marked()

    def unmark(self, node):
        """Takes a node's mark away, where it has one."""
        self.marks -= {node}
        return self.marked()

    def marked(self):
        return {"marked": len(self.marks), "shown": True}

    def trim(self, zookie):
        """Raises the floor to the zookie's revision, which no cursor may be below, or leaves it where it is."""
        revision = self.within(zookie, False)
        if revision > min(self.index, self.hot):
            raise Refused(IN_USE)
        self.floor = max(self.floor, revision)
        return {"floor": zookie_of(self.floor), "shown": True}

    def state(self):
        puts = sum(is_put for it in self.commits[self.floor :] if not isinstance(it, Config) for _, is_put in it)
        revisions = {name: zookie_of(getattr(self, name)) for name in ("base", "floor", "hot", "index", "newest")}
        return {**revisions, "marked": len(self.marks), "rows": len(self.snapshots[self.floor].tuples) + puts, "tuples": len(self.snapshots[-1].tuples)}

    # -- changes

    def write(self, operations, conditions=()):
        """Judges a write, each cause over the whole of it before the next, and does it. An operation is its kind and its tuple."""
        now = self.snapshots[-1]
        zookies = [read_zookie(it["zookie"]) for it in conditions if it["if"] == "unchanged"]
        refusals = [now.config.refusal_of(text) for _, text in operations]
        for refusal in (UNKNOWN, UNTYPED):
            if refusal in refusals:
                raise Refused(refusal)
        if len({text for _, text in operations}) < len(operations):
            raise Refused(TWICE)
        for refusal in (FOREIGN, FUTURE, EXPIRED):
            for zookie in zookies:
                try:
                    self.within(zookie, True)
                except Refused as refused:
                    if refused.args[0] == refusal:
                        raise
        failed = (index for index, it in enumerate(conditions) if not self.holds(it))
        again = (index for index, (kind, text) in enumerate(operations) if kind == "insert" and text in now.tuples)
        absent = (index for index, (kind, text) in enumerate(operations) if kind == "delete" and text not in now.tuples)
        for code, name, found in ((5, "ConditionFailed", failed), (6, "AlreadyThere", again), (7, "NotThere", absent)):
            index = next(found, None)
            if index is not None:
                raise Refused(Refusal(code, name, {"index": index}))
        self.commit([(text, kind != "delete") for kind, text in operations])
        return {"shown": True, "zookie": zookie_of(self.newest)}

    def holds(self, condition):
        is_there = condition["tuple"] in self.snapshots[-1].tuples
        if condition["if"] == "unchanged":
            return all(it <= read_zookie(condition["zookie"])[1] for it in self.events(condition["tuple"]))
        return is_there == (condition["if"] == "exists")

    def configure(self, config):
        cause = config.cause()
        if cause:
            raise Refused(Refusal(9, "ConfigRefused", {"cause": cause}))
        for text in sorted(self.snapshots[-1].tuples, key=order_of):
            if config.refusal_of(text):
                raise Refused(Refusal(10, "TupleInTheWay", {"tuple": text}))
        self.commit(config)
        return {"shown": True, "zookie": zookie_of(self.newest)}
