#!/usr/bin/env python3
"""Random small histories: each answer of `zanz run` is the one that the definitions give, executed slowly (definitions.py).

usage: histories.py PROGRAM [--histories N] [--calls N] [--seed N]      2,000 histories of 40 calls each

cases/run runs fewer of them as a case. A history is a configuration and random calls: configurations, writes, checks, trees, groups,
pages of tuples and of events, catch-ups, floors, marks and rebuilds, at random revisions; every other one is in a file, which is opened again
after half of the calls. The answers are compared as texts, but for the cycle of a configuration, of which there may be several.
"""
import argparse
import json
import os
import random
import re
import subprocess
import sys
import tempfile

sys.dont_write_bytecode = True
sys.path.insert(0, os.path.dirname(os.path.realpath(__file__)))
from definitions import BAD_ZOOKIE, MALFORMED, Config, History, Refused, compact, read_zookie, said, told, zookie_of

LIMIT = int(os.environ.get("CASE_SECONDS", "60"))
USERS = ["user:ann", "user:bob"]
THINGS = {"user": ["ann", "bob"], "group": ["a", "b", "c"], "folder": ["f", "g"], "doc": ["1"]}
RELATIONS = {"group": ["member", "guest"], "folder": ["viewer", "parent"], "doc": ["viewer", "owner", "banned", "parent"]}
KINDS = ["insert", "touch", "delete"]
WHOLE = 0.7


def some(choose, chance):
    return choose.random() < chance


# -- configurations


def rewrite_of(choose, names, others, depth=2):
    """A rewrite of a relation in a namespace with these relations."""
    kind = choose.choice(["this", "this", "computed", "tuple_to", "union", "union", "intersection", "exclusion"] if depth else ["this", "computed", "tuple_to"])
    if kind == "computed":
        return {kind: choose.choice(names)}
    if kind == "tuple_to":
        return {kind: {"relation": choose.choice(names + others), "tupleset": "parent" if "parent" in names else choose.choice(names)}}
    if kind in ("union", "intersection"):
        return {kind: [rewrite_of(choose, names, others, depth - 1) for _ in range(choose.randrange(1, 4))]}
    if kind == "exclusion":
        return {kind: [rewrite_of(choose, names, others, depth - 1) for _ in range(2)]}
    return kind


def config_of(choose):
    """A configuration, well-formed but not always valid."""
    nodes = [f"{it}#{name}" for it, names in RELATIONS.items() for name in names]
    namespaces = {"user": {}}
    for namespace, names in RELATIONS.items():
        relations = {}
        for name in names:
            relation = {}
            if name == "parent":
                relation["types"] = choose.choice([["folder"], ["folder", "group"], ["group"]])
            else:
                if some(choose, 0.8):
                    relation["rewrite"] = rewrite_of(choose, names, ["viewer", "member"])
                if has_this(relation.get("rewrite", "this")) or some(choose, 0.02):
                    relation["types"] = choose.sample(["user", "user", "group#member", choose.choice(nodes)], choose.randrange(1, 4))
                if some(choose, 0.1):
                    relation["indexed"] = True
            relations[name] = relation
        namespaces[namespace] = relations
    if some(choose, 0.5):
        index_all(namespaces)
    return namespaces


def index_all(namespaces):
    """Indexes each relation that can be, with those that it needs."""
    config = Config(namespaces)
    for namespace, name in config.relations():
        namespaces[namespace][name]["indexed"] = True
    while True:
        lacking = [it for it in config.relations() if config.lacks_index(*it)]
        for namespace, name in lacking:
            del namespaces[namespace][name]["indexed"]
        if not lacking:
            return


def has_this(rewrite):
    return '"this"' in compact(rewrite)


def valid_config(choose):
    while True:
        found = config_of(choose)
        if not Config(found).cause():
            return found


# -- calls


def thing(choose):
    namespace = choose.choice(list(RELATIONS))
    return f"{namespace}:{choose.choice(THINGS[namespace])}"


def node(choose, unknown=0.03):
    found = thing(choose)
    names = RELATIONS[found.partition(":")[0]]
    return f"{found}#{'none' if some(choose, unknown) else choose.choice(names)}"


def new_tuple(choose, config):
    """A tuple, mostly one that the configuration admits."""
    declared = [(namespace, name, it) for namespace, name in config.relations() for it in config.types(namespace, name)]
    if not declared or some(choose, 0.03):
        return f"{node(choose)}@{choose.choice([choose.choice(USERS), thing(choose), node(choose, 0)])}"
    namespace, name, it = choose.choice(declared)
    of, _, relation = it.partition("#")
    subject = f"{of}:{choose.choice(THINGS[of])}" + f"#{relation}" * bool(relation)
    return f"{namespace}:{choose.choice(THINGS[namespace])}#{name}@{subject}"


def a_zookie(choose, newest):
    if some(choose, 0.04):
        return choose.choice(["", "AgAAAAAAAAABAAAAAAAAAAF", zookie_of(newest)[:-1], "x"])
    store = 2 if some(choose, 0.03) else 1
    return zookie_of(choose.randrange(newest + (2 if some(choose, 0.1) else 1)), store)


def asked_at(choose, newest):
    kind = choose.choice(["none", "latest", "at_least", "exactly", "exactly"])
    if kind in ("at_least", "exactly"):
        return {"at": {kind: a_zookie(choose, newest)}}
    return {"at": "latest"} if kind == "latest" else {}


class Script:
    """Random calls, each with the line that answers it."""

    def __init__(self, choose):
        self.choose, self.history = choose, History()
        self.lines, self.answers = [], []

    @property
    def config(self):
        return self.history.snapshots[-1].config

    def add(self, call, body, answer):
        """Adds a call; its answer is what the function gives, or the refusal that it raises."""
        try:
            line = said(200, answer())
        except Refused as refused:
            line = told(refused.args[0])
        self.lines.append(f"{call} {compact(body)}")
        self.answers.append(line)

    def configure(self):
        found = valid_config(self.choose) if some(self.choose, WHOLE) else config_of(self.choose)
        self.add("config", {"namespaces": found}, lambda: self.history.configure(Config(found)))

    def known(self, chance=0.6):
        """A tuple, often one that is there."""
        there = sorted(self.history.snapshots[-1].tuples)
        return self.choose.choice(there) if there and some(self.choose, chance) else new_tuple(self.choose, self.config)

    def asked_node(self):
        """A node, often one that has tuples."""
        return self.known().partition("@")[0] if some(self.choose, 0.6) else node(self.choose)

    def operation(self):
        text = self.known(0.3)
        kind = "delete" if text in self.history.snapshots[-1].tuples else "insert"
        if some(self.choose, 0.05):
            kind = self.choose.choice(KINDS)
        elif some(self.choose, 0.1):
            kind = "touch"
        return kind, text

    def condition(self):
        text = self.known()
        kind = self.choose.choice(["exists", "absent", "unchanged", "unchanged"])
        if kind == "unchanged":
            newest = self.history.newest
            return {"if": kind, "tuple": text, "zookie": zookie_of(newest) if some(self.choose, 0.6) else a_zookie(self.choose, newest)}
        is_there = text in self.history.snapshots[-1].tuples
        if some(self.choose, 0.8):
            kind = "exists" if is_there else "absent"
        return {"if": kind, "tuple": text}

    def write(self):
        operations = [self.operation() for _ in range(self.choose.randrange(1, 6))]
        if some(self.choose, 0.95):
            operations = [(kind, text) for text, kind in {text: kind for kind, text in operations}.items()]
        body = {"ops": [{"op": kind, "tuple": text} for kind, text in operations]}
        conditions = []
        if some(self.choose, 0.4):
            conditions = body["conditions"] = [self.condition() for _ in range(self.choose.randrange(4))]
        self.add("write", body, lambda: self.history.write(operations, conditions))

    def check(self):
        at, of, user = asked_at(self.choose, self.history.newest), self.asked_node(), self.choose.choice(USERS * 4 + [thing(self.choose)])

        def answer():
            allowed, zookie = self.history.ask(at.get("at"), lambda it: it.check(of, user))
            return {"allowed": allowed, "zookie": zookie}

        self.add("check", {**at, "node": of, "user": user}, answer)

    def expand(self):
        at, of, depth = asked_at(self.choose, self.history.newest), self.asked_node(), self.choose.choice([0, 9] if some(self.choose, 0.03) else [1, 2, 3, 8])

        def answer():
            if not 1 <= depth <= 8:
                raise Refused(MALFORMED)
            tree, zookie = self.history.ask(at.get("at"), lambda it: self.seen_tree(it, of, depth))
            return {"tree": tree, "zookie": zookie}

        self.add("expand", {**at, "depth": depth, "node": of}, answer)

    def seen_tree(self, snapshot, of, depth):
        """A tree, which means the node's members."""
        tree = snapshot.tree(of, depth)
        for user in USERS:
            assert snapshot.means(tree, user) == snapshot.check(of, user), f"{of} at depth {depth} by {user}"
        return tree

    def read(self):
        choose = self.choose
        at, of = asked_at(choose, self.history.newest), self.known()
        namespace, name = thing(choose).split(":")
        body = {"namespace": namespace}
        body.update({"object": name} if some(choose, 0.4) else {})
        body.update({"relation": choose.choice(RELATIONS[namespace] + ["none"])} if some(choose, 0.4) else {})
        body.update({"subject": of.partition("@")[2]} if some(choose, 0.3) else {})
        body.update({"after": self.known()} if some(choose, 0.4) else {})
        body.update({"limit": choose.choice([0, 1001] if some(choose, 0.1) else [1, 1, 2, 2, 3, 1000])} if some(choose, 0.5) else {})

        def answer():
            if not 1 <= body.get("limit", 1) <= 1000:
                raise Refused(MALFORMED)
            asked = (body.get(it) for it in ("object", "relation", "subject", "after"))
            tuples, zookie = self.history.ask(at.get("at"), lambda it: it.read(namespace, *asked, body.get("limit", 1000)))
            return {"tuples": tuples, "zookie": zookie}

        self.add("read", {**at, **body}, answer)

    def lookup(self):
        choose = self.choose
        at, (namespace, name) = asked_at(choose, self.history.newest), thing(choose).split(":")
        body = {"namespace": namespace, "relation": choose.choice(RELATIONS[namespace] * 8 + ["none"]), "user": choose.choice(USERS * 4 + [thing(choose)])}
        body.update({"after": choose.choice(["0", name])} if some(choose, 0.4) else {})
        body.update({"limit": choose.choice([0, 1001] if some(choose, 0.1) else [1, 1, 2, 1000])} if some(choose, 0.5) else {})

        def answer():
            if not 1 <= body.get("limit", 1) <= 1000:
                raise Refused(MALFORMED)
            asked = (body.get(it) for it in ("namespace", "relation", "user", "after"))
            objects, zookie = self.history.ask(at.get("at"), lambda it: it.lookup(*asked, body.get("limit", 1000)))
            return {"objects": objects, "zookie": zookie}

        self.add("lookup", {**at, **body}, answer)

    def expression(self, depth):
        """A set expression over groups."""
        choose = self.choose
        kind = choose.choice(["m2g", "g2g", "g2g", "union", "intersection", "exclusion"] if depth else ["m2g", "g2g"])
        if kind == "m2g":
            return {kind: choose.choice(USERS * 4 + [thing(choose)])}
        if kind == "g2g":
            return {kind: self.group() if some(choose, 0.9) else self.asked_node()}
        return {kind: [self.expression(depth - 1) for _ in range(2 if kind == "exclusion" else choose.randrange(1, 4))]}

    def group(self):
        """A node of an indexed relation, where there is one."""
        indexed = [it for it in self.config.relations() if self.config.is_indexed(*it)]
        if not indexed:
            return self.asked_node()
        namespace, name = self.choose.choice(indexed)
        return f"{namespace}:{self.choose.choice(THINGS[namespace])}#{name}"

    def leopard(self):
        at, expr, limit = asked_at(self.choose, self.history.newest), self.expression(2), self.choose.choice([1001] if some(self.choose, 0.03) else [0, 1, 1, 2, 3, 1000])

        def answer():
            if limit > 1000:
                raise Refused(MALFORMED)
            groups, zookie = self.history.ask(at.get("at"), lambda it: it.leopard(expr, limit))
            return {"groups": groups, "zookie": zookie}

        self.add("leopard", {**at, "expr": expr, "limit": limit}, answer)

    def watch(self):
        choose = self.choose
        body = {"commits": choose.choice([0, 257] if some(choose, 0.1) else [1, 1, 2, 3, 256]), "cursor": a_zookie(choose, self.history.newest)}
        if some(choose, 0.5):
            body["namespaces"] = choose.choices([*RELATIONS, "nobody"], k=choose.randrange(1, 4))

        def answer():
            if not 1 <= body["commits"] <= 256:
                raise Refused(MALFORMED)
            return self.history.watch(body["cursor"], body["commits"], body.get("namespaces"))

        self.add("watch", body, answer)

    def catch_up(self):
        part, commits = self.choose.choice(["index", "hot"]), self.choose.choice([0, 1, 2, 5, 65536, 65537])

        def answer():
            if commits > 65536:
                raise Refused(MALFORMED)
            return self.history.take(part, commits)

        self.add("catchup", {"commits": commits, "part": part}, answer)

    def marking(self):
        """A mark, or its removal, often of a node that is marked; or so many marks that not all of them can be."""
        choose, marks = self.choose, sorted(self.history.marks)
        if some(choose, 0.03):
            namespace = choose.choice(list(RELATIONS))
            for number in range(270):
                self.mark_or_not("mark", f"{namespace}:n{number}#{choose.choice(RELATIONS[namespace])}")
        of = choose.choice(marks) if marks and some(choose, 0.4) else node(choose, 0.1)
        self.mark_or_not(choose.choice(["mark", "mark", "unmark"]), of)

    def mark_or_not(self, kind, of):
        body = {kind: of}
        if some(self.choose, 0.03):
            body[self.choose.choice(["mark", "unmark", "node"])] = self.choose.choice([of, of.partition("#")[0], None])

        def answer():
            if list(body) != [kind] or body[kind] != of:
                raise Refused(MALFORMED)
            return self.history.mark(of) if kind == "mark" else self.history.unmark(of)

        self.add("hot", body, answer)

    def rebuild(self):
        body = {"commits": 1} if some(self.choose, 0.05) else {}

        def answer():
            if body:
                raise Refused(MALFORMED)
            return self.history.rebuild()

        self.add("rebuild", body, answer)

    def trim(self):
        """A floor, often one that both cursors have come to."""
        reached = min(self.history.index, self.history.hot)
        text = zookie_of(self.choose.randrange(reached + 1)) if some(self.choose, 0.6) else a_zookie(self.choose, self.history.newest)
        self.add("trim", {"floor": text}, lambda: self.history.trim(read_zookie(text)))

    def state(self):
        self.add("state", {}, self.history.state)

    def go_on(self, calls):
        kinds = [self.configure] + [self.write] * 8 + [self.check] * 8 + [self.expand] * 4 + [self.read] * 4 + [self.lookup] * 4 + [self.leopard] * 4 + [self.watch] * 3 + [self.catch_up] * 2
        kinds += [self.marking] * 2 + [self.trim, self.rebuild, self.state]
        for _ in range(calls):
            self.choose.choice(kinds)()


# -- the program


def answers(program, folder, words, lines):
    given = "".join(f"{it}\n" for it in lines).encode()
    ran = subprocess.run([program, "run", *words], cwd=folder, input=given, stdout=subprocess.PIPE, timeout=LIMIT, check=True)
    return [re.sub(r'"cycle":\[[^]]*\],', "", it) for it in ran.stdout.decode().splitlines()]


def hold(program, seed, calls):
    """Holds the answers to one history against the definitions."""
    script = Script(random.Random(seed))
    first = valid_config(script.choose)
    script.add("config", {"namespaces": first}, lambda: script.history.configure(Config(first)))
    script.go_on(calls // 2)
    is_kept, half = seed % 2 == 0, len(script.lines)
    if is_kept:
        script.history.opened_again()
    script.go_on(calls - calls // 2)
    with tempfile.TemporaryDirectory(prefix="history-") as folder:
        if is_kept:
            got = answers(program, folder, ["--db", "store.db", "--store", "1"], script.lines[:half])
            got += answers(program, folder, ["--db", "store.db"], script.lines[half:])
        else:
            got = answers(program, folder, [], script.lines)
    for at, (wanted, found) in enumerate(zip(script.answers, got)):
        if wanted != found:
            asked = "\n".join(script.lines[: at + 1])
            raise AssertionError(f"history {seed}, of which these are the calls:\n{asked}\nthe last, wanted\n  {wanted}\ngot\n  {found}\n")
    assert len(got) == len(script.answers), f"history {seed}: {len(got)} answers to {len(script.answers)} calls\n"
    return script


def random_histories_are_answered_as_the_definitions_say(program, folder):
    for seed in range(40):
        hold(program, seed, 40)


CASES = [random_histories_are_answered_as_the_definitions_say]


def main():
    words = argparse.ArgumentParser(usage=__doc__.split("usage: ")[1].split("  ")[0])
    words.add_argument("program")
    words.add_argument("--histories", type=int, default=2000)
    words.add_argument("--calls", type=int, default=40)
    words.add_argument("--seed", type=int, default=0)
    given = words.parse_args()
    counts = {}
    for seed in range(given.seed, given.seed + given.histories):
        for call, answer in zip(*(lambda it: (it.lines, it.answers))(hold(os.path.abspath(given.program), seed, given.calls))):
            error = json.loads(answer.partition(" ")[2]).get("error")
            kind = (call.partition(" ")[0], error["name"] if error else "answered")
            counts[kind] = counts.get(kind, 0) + 1
    for (call, name), count in sorted(counts.items()):
        print(f"{count:8} {call:8} {name}")
    print(f"{given.histories} histories, {sum(counts.values())} calls: each is answered as the definitions say")


if __name__ == "__main__":
    main()
