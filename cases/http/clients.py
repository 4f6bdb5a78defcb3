#!/usr/bin/env python3
"""Many clients at once: each answer of `zanz serve` is the one that the tuples of the revision that it names give.

usage: clients.py PROGRAM [--clients N] [--requests N] [--workers W]      8 clients with 200 requests each

cases/run runs it as a case, with the fewer requests that REQUESTS says. Writers insert and delete tuples of groups that hold one
another; readers ask who is a member, some as of a zookie that a writer was handed, each client on connections of its own. What is
there at each revision is known from the replies to the writes alone, and so is what each question must be answered.
"""
import argparse
import base64
import json
import os
import random
import sys
import tempfile
import threading
from collections import namedtuple

sys.dont_write_bytecode = True
sys.path.insert(0, os.path.dirname(os.path.realpath(__file__)))
from connections import CONFIG, LIMIT, Server, ask, same

CLIENTS, REQUESTS = 8, 60
GROUPS = [f"group:g{n}#member" for n in range(8)]
USERS = [f"user:u{n}" for n in range(8)]
# A client ends a connection after so many requests, so that one worker comes to all of them.
KEPT = 5
# A question, how fresh it was to be asked, the least revision that it may be answered at, and its answer.
Answered = namedtuple("Answered", "node user at least allowed revision")


def compact(value):
    return json.dumps(value, separators=(",", ":"))


def revision(zookie):
    """The revision that a zookie names: its last eight bytes."""
    return int.from_bytes(base64.urlsafe_b64decode(zookie + "=")[9:], "big")


class Shared:
    """What the clients know of one another: the zookies that they were handed, and what came of it all."""

    def __init__(self):
        self.lock = threading.Lock()
        self.zookies = []
        self.commits = {}
        self.answers = []
        self.faults = []

    def committed(self, zookie, operations):
        with self.lock:
            assert revision(zookie) not in self.commits, f"two writes are revision {revision(zookie)}\n"
            self.commits[revision(zookie)] = operations
            self.zookies.append(zookie)

    def answered(self, answer):
        with self.lock:
            self.answers.append(answer)

    def some_zookie(self, choose):
        with self.lock:
            return choose.choice(self.zookies[-20:] if choose.randrange(4) else self.zookies)


class Client(threading.Thread):
    """A client with tuples that nobody else writes."""

    def __init__(self, server, shared, number, requests, tuples):
        super().__init__(daemon=True)
        self.server, self.shared, self.requests, self.tuples = server, shared, requests, tuples
        self.choose = random.Random(number)
        self.there = set()

    def run(self):
        try:
            for first in range(0, self.requests, KEPT):
                with self.server.connect() as stream:
                    # What the worker of this connection has told of: the newest question is answered no older.
                    self.told = 1
                    for _ in range(min(KEPT, self.requests - first)):
                        if self.tuples and self.choose.randrange(2):
                            self.write(stream)
                        else:
                            self.check(stream)
        except (AssertionError, OSError, ValueError, KeyError) as fault:
            self.shared.faults.append(fault)

    def write(self, stream):
        chosen = self.choose.sample(self.tuples, self.choose.randrange(1, min(4, len(self.tuples) + 1)))
        operations = [("delete" if it in self.there else "insert", it) for it in chosen]
        wrong = self.choose.randrange(8) == 0
        if wrong:
            kind, last = operations[-1]
            operations[-1] = ("insert" if kind == "delete" else "delete", last)
        status, body = ask(stream, "write", compact({"ops": [{"op": kind, "tuple": it} for kind, it in operations]}))
        if wrong:
            code, name = (6, "AlreadyThere") if operations[-1][0] == "insert" else (7, "NotThere")
            wanted = {"error": {"code": code, "index": len(operations) - 1, "name": name}}
            same("a write in whose way a tuple is", (409, wanted), (status, json.loads(body)))
            return
        assert status == 200, f"{operations}: {status} {body}\n"
        told = json.loads(body)
        self.there ^= set(chosen)
        self.shared.committed(told["zookie"], operations)
        if told["shown"]:
            self.told = max(self.told, revision(told["zookie"]))

    def check(self, stream):
        node, user = self.choose.choice(GROUPS), self.choose.choice(USERS)
        question = {"node": node, "user": user}
        kind, least = self.choose.choice(("latest", "at_least", "exactly")), self.told
        if kind != "latest":
            zookie = self.shared.some_zookie(self.choose)
            question = {"at": {kind: zookie}, **question}
            least = revision(zookie)
        status, body = ask(stream, "check", compact(question))
        assert status == 200, f"{question}: {status} {body}\n"
        answer = json.loads(body)
        found = revision(answer["zookie"])
        if kind == "latest":
            self.told = max(self.told, found)
        self.shared.answered(Answered(node, user, kind, least, answer["allowed"], found))


def members(tuples):
    """The nodes and users of which the users are members, by the tuples."""
    held = {node: set() for node in GROUPS}
    for it in tuples:
        node, subject = it.split("@")
        held[node].add(subject)
    found = set()
    for node in GROUPS:
        reached, more = {node}, [node]
        while more:
            for subject in held[more.pop()]:
                if subject in held and subject not in reached:
                    reached.add(subject)
                    more.append(subject)
                elif subject not in held:
                    found.add((node, subject))
    return found


def hold_against_the_definition(shared, newest):
    """Each answer, against the tuples of its revision."""
    same("revisions of the writes", list(range(2, newest + 1)), sorted(shared.commits))
    tuples = set()
    at_revision = [None, members(tuples)]
    for number in range(2, newest + 1):
        for kind, it in shared.commits[number]:
            (tuples.add if kind == "insert" else tuples.remove)(it)
        at_revision.append(members(tuples))
    for it in shared.answers:
        fits = it.revision == it.least if it.at == "exactly" else it.least <= it.revision <= newest
        assert fits, f"it was answered at a revision that does not fit: {it}\n"
        same(f"{it}", (it.node, it.user) in at_revision[it.revision], it.allowed)


def tuples_of(clients):
    """Tuples for each client: of two users in each group, and of groups that hold others, in cycles. The last client writes none."""
    choose = random.Random("clients")
    every = [f"{node}@{user}" for node in GROUPS for user in choose.sample(USERS, 2)]
    every += [f"{node}@{GROUPS[(n + further) % len(GROUPS)]}" for n, node in enumerate(GROUPS) for further in (1, 3)]
    choose.shuffle(every)
    writers = max(1, clients - 1)
    return [every[n::writers] if n < writers else [] for n in range(clients)]


def ask_with(server, clients, requests):
    """The answers to so many clients with so many requests each, and the newest revision after that."""
    shared = Shared()
    with server.connect() as stream:
        status, body = ask(stream, "config", CONFIG)
        same("config", 200, status)
        shared.zookies.append(json.loads(body)["zookie"])
    threads = [Client(server, shared, n, requests, tuples) for n, tuples in enumerate(tuples_of(clients))]
    for it in threads:
        it.start()
    for it in threads:
        it.join(LIMIT)
        assert not it.is_alive(), "a client is not answered\n"
    if shared.faults:
        raise shared.faults[0]
    with server.connect() as stream:
        newest = revision(json.loads(ask(stream, "state")[1])["newest"])
    hold_against_the_definition(shared, newest)
    return shared


def many_clients_are_answered_by_the_revisions_that_are_named(program, folder):
    with Server(program, folder) as server:
        ask_with(server, CLIENTS, REQUESTS)


CASES = [many_clients_are_answered_by_the_revisions_that_are_named]


def main():
    parser = argparse.ArgumentParser(usage=__doc__)
    parser.add_argument("program")
    parser.add_argument("--clients", type=int, default=CLIENTS)
    parser.add_argument("--requests", type=int, default=200)
    parser.add_argument("--workers", type=int)
    given = parser.parse_args()
    words = ["--workers", str(given.workers)] if given.workers else []
    with tempfile.TemporaryDirectory() as folder, Server(os.path.abspath(given.program), folder, *words) as server:
        shared = ask_with(server, given.clients, given.requests)
    yes = sum(it.allowed for it in shared.answers)
    print(f"{len(shared.commits)} writes, {len(shared.answers)} checks, {yes} yes: each is answered by the revision that it names")


if __name__ == "__main__":
    main()
