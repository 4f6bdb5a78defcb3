#!/usr/bin/env python3
"""Writes lines for `zanz run` on standard output.

usage: lines.py writes N OPS      a configuration, and N writes of OPS inserts each, all accepted
       lines.py refused N         a configuration and a write, and N lines that are refused, one for each cause in turn
       lines.py unknown N         a configuration, and N checks of nodes that no tuple names
"""
import json
import sys

CONFIG = {"namespaces": {"group": {"member": {"types": ["user", "group#member"]}}, "user": {}}}


def say(call, body):
    print(call, json.dumps(body, separators=(",", ":")))


def insert(tuple_text):
    return {"op": "insert", "tuple": tuple_text}


def writes(count, ops):
    for i in range(count):
        say("write", {"ops": [insert(f"group:g{i * ops + j}#member@user:u{j}") for j in range(ops)]})


def refused(count):
    say("write", {"ops": [insert("group:a#member@user:ann")]})
    twice = [insert("group:b#member@user:ann")] * 2
    bodies = [
        {"ops": []},
        {"ops": [insert("group:a#viewer@user:ann")]},
        {"ops": [insert("group:a#member@group:b")]},
        {"ops": twice},
        {"ops": [insert("group:a#member@user:ann")]},
        {"ops": [{"op": "delete", "tuple": "group:a#member@user:bob"}]},
    ]
    for i in range(count):
        say("write", bodies[i % len(bodies)])


def unknown(count):
    for i in range(count):
        say("check", {"node": f"group:g{i}#member", "user": f"user:u{i}"})


def main(words):
    say("config", CONFIG)
    if len(words) == 3 and words[0] == "writes":
        writes(int(words[1]), int(words[2]))
    elif len(words) == 2 and words[0] == "refused":
        refused(int(words[1]))
    elif len(words) == 2 and words[0] == "unknown":
        unknown(int(words[1]))
    else:
        sys.exit(__doc__)


if __name__ == "__main__":
    main(sys.argv[1:])
