"""The stores and questions of `bench/checks`.

A workload has a configuration, tuples, and batches of questions; a question is a node's namespace, object and relation,
and a user. A tuple is written with its subject in three parts, the last empty where the subject is an object. Later
changes, where a workload has them, are commits of operations. The same words make the same workload each time.
"""
import json
import os
import random
from dataclasses import dataclass, field

THIS = "this"
GROUPS = {"user": {}, "group": {"member": {"types": ["user", "group#member"]}}}


@dataclass
class Workload:
    name: str
    config: dict
    tuples: list
    batches: dict
    later: list = field(default_factory=list)


def from_parent(relation):
    return {"tuple_to": {"tupleset": "parent", "relation": relation}}


def inheriting(*parts):
    return {"types": ["user", "group#member"], "rewrite": {"union": [THIS, *parts]}}


def folders_config():
    viewer = {"union": [THIS, {"computed": "editor"}, from_parent("viewer")]}
    shared = {
        "parent": {"types": ["folder"]},
        "owner": inheriting(from_parent("owner")),
        "editor": inheriting({"computed": "owner"}, from_parent("editor")),
        "banned": inheriting(from_parent("banned")),
        "viewer": {"types": ["user", "group#member"], "rewrite": {"exclusion": [viewer, {"computed": "banned"}]}},
    }
    return {**GROUPS, "folder": shared, "doc": shared}


# How many folders lie in each folder of a level: 39 folders in all, of which 8 lie eight deep.
BRANCHES = (2, 2, 1, 1, 2, 1, 1)
USERS = 40
TEAMS = 6
SIZE_OF_TEAM = 10


class Drive:
    """Folders eight deep with documents in them, and the people and groups that they are shared with."""

    def __init__(self, number, choose):
        self.number = number
        self.choose = choose
        self.documents = []
        self.fixed = []
        self.shares = []
        self.add_groups()
        level = [self.add_folder(0, None)]
        for branches in BRANCHES:
            level = [self.add_folder(i * branches + j, up) for i, up in enumerate(level) for j in range(branches)]

    def user(self):
        return f"u{self.number}-{self.choose.randrange(USERS)}"

    def group(self, i):
        return f"g{self.number}-{i}"

    def add_groups(self):
        for i in range(TEAMS):
            for user in sorted({self.user() for _ in range(SIZE_OF_TEAM)}):
                self.fixed.append(("group", self.group(i), "member", "user", user, ""))
            if i % 2 == 1:
                self.fixed.append(("group", self.group(i), "member", "group", self.group(i - 1), "member"))

    def add_folder(self, i, up):
        depth = 1 if up is None else int(up.rsplit("-", 2)[1]) + 1
        folder = f"f{self.number}-{depth}-{i}"
        if up is not None:
            self.fixed.append(("folder", folder, "parent", "folder", up, ""))
        self.share("folder", folder)
        for n in range(2):
            document = f"d{self.number}-{depth}-{i}-{n}"
            self.documents.append(document)
            self.fixed.append(("doc", document, "parent", "folder", folder, ""))
            self.shares.append(("doc", document, "owner", "user", self.user(), ""))
        return folder

    def share(self, namespace, object_id):
        relation = self.choose.choice(("owner", "editor", "viewer", "viewer", "viewer"))
        self.shares.append((namespace, object_id, relation, *self.subject()))
        if self.choose.randrange(10) == 0:
            self.shares.append((namespace, object_id, "banned", *self.subject()))

    def subject(self):
        if self.choose.randrange(2):
            return "user", self.user(), ""
        return "group", self.group(self.choose.randrange(TEAMS)), "member"


def drives(tuples, choose):
    made = []
    count = 0
    while True:
        drive = Drive(len(made), choose)
        count += len(drive.fixed) + len(drive.shares)
        if made and count > tuples:
            return made
        made.append(drive)


def changes(made, commits, choose):
    """Commits that each take eight shares away and give others in their place."""
    there = {share for drive in made for share in drive.shares}
    for _ in range(commits):
        operations = {}
        while len(operations) < 16:
            drive = choose.choice(made)
            i = choose.randrange(len(drive.shares))
            old = drive.shares[i]
            new = (*old[:3], "user", drive.user(), "")
            if new in there or new in operations or old in operations:
                continue
            operations[old] = "delete"
            operations[new] = "insert"
            there.remove(old)
            there.add(new)
            drive.shares[i] = new
        yield list(operations.items())


def folders(tuples, questions):
    choose = random.Random("folders")
    made = drives(tuples, choose)
    asked = []
    for _ in range(questions):
        drive = choose.choice(made)
        asked.append(("doc", choose.choice(drive.documents), "viewer", drive.user()))
    stored = [row for drive in made for row in drive.fixed + drive.shares]
    return Workload("folders", folders_config(), stored, {"folders": asked}, list(changes(made, 1000, choose)))


# A chain of groups has this many more groups than it is deep, each with so many users of its own.
MEMBERS = 8


def chain(name, depth, choose):
    """Groups that each hold the next; one chain in four ends in its beginning."""
    stored = []
    for level in range(depth + 1):
        group = f"{name}-{level}"
        stored += [("group", group, "member", "user", f"u{name}-{level}-{i}", "") for i in range(MEMBERS)]
        if level < depth:
            stored.append(("group", group, "member", "group", f"{name}-{level + 1}", "member"))
        elif choose.randrange(4) == 0:
            stored.append(("group", group, "member", "group", f"{name}-0", "member"))
    return stored


def ask_chains(depth, count, questions, choose):
    asked = []
    for _ in range(questions):
        at = choose.randrange(count)
        other = (at + choose.randrange(2)) % (count + 1)
        user = f"uc{depth}-{other}-{choose.randrange(depth + 1)}-{choose.randrange(MEMBERS)}"
        asked.append(("group", f"c{depth}-{at}-0", "member", user))
    return asked


def groups(tuples, questions):
    choose = random.Random("groups")
    stored = []
    batches = {}
    for depth in (1, 8, 32):
        size = (depth + 1) * (MEMBERS + 1)
        count = max(1, tuples // 3 // size)
        for i in range(count):
            stored += chain(f"c{depth}-{i}", depth, choose)
        batches[f"groups, {depth} deep"] = ask_chains(depth, count, questions, choose)
    batches["unknown"] = [("group", f"nobody{i}", "member", f"u{i}") for i in range(questions)]
    return Workload("groups", GROUPS, stored, batches)


def large_group(tuples, questions):
    """A group of 100,000 users and another group, among groups of ten; smaller where the store is."""
    choose = random.Random("large group")
    inside = max(1, min(100_000, tuples) // 10)
    most = min(100_000, tuples - inside - 1)
    stored = [("group", "large", "member", "user", f"u{i}", "") for i in range(most)]
    stored.append(("group", "large", "member", "group", "nested", "member"))
    stored += [("group", "nested", "member", "user", f"v{i}", "") for i in range(inside)]
    rest = tuples - len(stored)
    stored += [("group", f"small{i // 10}", "member", "user", f"w{i}", "") for i in range(rest)]
    kinds = {"member": ("u", most), "of the nested group": ("v", inside), "no member": ("w", most)}
    batches = {}
    for kind, (letter, count) in kinds.items():
        asked = [("group", "large", "member", f"{letter}{choose.randrange(count)}") for _ in range(questions)]
        batches[f"large group, {kind}"] = asked
    return Workload("large group", GROUPS, stored, batches)


ROLES = ("admin", "maintainer", "writer", "triager", "reader")
DEFAULTS = ("repo_admin", "repo_writer", "repo_reader")


class Organisation:
    """Forty people, ten teams of which some hold others, and twenty repositories."""

    def __init__(self, number, choose):
        self.number = number
        self.choose = choose
        self.name = f"o{number}"
        self.stored = {("organization", self.name, "owner", "user", self.user(), "")}
        for i in range(30):
            self.stored.add(("organization", self.name, "member", "user", f"u{number}-{i}", ""))
        if choose.randrange(3) == 0:
            default = choose.choice(DEFAULTS)
            self.stored.add(("organization", self.name, default, "organization", self.name, "member"))
        for i in range(10):
            self.add_team(i)
        for i in range(20):
            self.add_repository(f"r{number}-{i}")

    def user(self):
        return f"u{self.number}-{self.choose.randrange(40)}"

    def team(self, i):
        return f"t{self.number}-{i}"

    def add_team(self, i):
        for _ in range(6):
            self.stored.add(("team", self.team(i), "member", "user", self.user(), ""))
        if i > 0 and self.choose.randrange(2):
            self.stored.add(("team", self.team(self.choose.randrange(i)), "member", "team", self.team(i), "member"))

    def add_repository(self, repository):
        self.stored.add(("repo", repository, "owner", "organization", self.name, ""))
        for _ in range(3):
            role = self.choose.choice(ROLES)
            self.stored.add(("repo", repository, role, "user", self.user(), ""))
            team = self.team(self.choose.randrange(10))
            self.stored.add(("repo", repository, self.choose.choice(ROLES), "team", team, "member"))

    def question(self):
        role = self.choose.choice(("reader", "reader", "triager", "writer", "writer", "maintainer", "admin"))
        return ("repo", f"r{self.number}-{self.choose.randrange(20)}", role, self.user())


def organisations(tuples, questions):
    """With the policy of examples/github."""
    here = os.path.dirname(os.path.abspath(__file__))
    with open(os.path.join(here, "..", "examples", "github", "config.json"), encoding="utf-8") as file:
        config = json.load(file)["namespaces"]
    choose = random.Random("organisations")
    made = []
    count = 0
    while count < tuples:
        made.append(Organisation(len(made), choose))
        count += len(made[-1].stored)
    if len(made) > 1:
        made.pop()
    stored = [row for organisation in made for row in sorted(organisation.stored)]
    asked = [choose.choice(made).question() for _ in range(questions)]
    return Workload("organisations", config, stored, {"organisations": asked})


WORKLOADS = {"folders": folders, "groups": groups, "organisations": organisations, "large group": large_group}
