"""The cases of docs/openapi.json, which read it as a generator of clients does: its references lead somewhere, its schemas are of known keywords,
its examples fit them and are answered as they say. Its calls, members, statuses and refusals are those of docs/API.md and of the definitions.

The examples are sent in the order of the numbers with which their names begin, to a store that is empty at first.
"""
import json
import os
import re
import resource
import sys
from collections import namedtuple

sys.dont_write_bytecode = True
sys.path.insert(0, os.path.dirname(os.path.realpath(__file__)))
from connections import CONFIG, MALFORMED, TOP, Server, ask, insert, one_reply, same

# What the connection refuses has no number of its own.
OF_CONNECTIONS = {(0, "NoRoute", 404), (0, "LengthRequired", 411), (0, "BodyTooLarge", 413)}
# Malformed and BadZookie: what is refused so does not fit its schema, and all else does.
UNFIT = (1, 11)
# The calls that store a commit or a floor, which a fault of the tables meets, and those that change anything, which are refused after it.
STORED = ("config", "trim", "write")
CHANGES = (*STORED, "catchup", "hot", "rebuild")
ANNOTATIONS = ("default", "description")
TYPES = {"array": list, "boolean": bool, "integer": int, "object": dict, "string": str}
# The zookie of the first revision of the store with number 1.
FIRST = "AgAAAAAAAAABAAAAAAAAAAE"
ANN = "group:a#member@user:ann"
# What asks for the first revision, and is refused once the floor is above it.
EXPIRED = {
    "check": {"at": {"exactly": FIRST}, "node": "group:a#member", "user": "user:ann"},
    "expand": {"at": {"exactly": FIRST}, "depth": 1, "node": "group:a#member"},
    "lookup": {"at": {"exactly": FIRST}, "namespace": "group", "relation": "member", "user": "user:ann"},
    "leopard": {"at": {"exactly": FIRST}, "expr": {"m2g": "user:ann"}, "limit": 10},
    "read": {"at": {"exactly": FIRST}, "namespace": "group"},
    "watch": {"commits": 1, "cursor": FIRST},
    "write": {"conditions": [{"if": "unchanged", "tuple": ANN, "zookie": FIRST}], "ops": [{"op": "touch", "tuple": ANN}]},
}
# A request and its reply, each with its schema; a request without a body has none. It is answered so by as many workers as it names.
Exchange = namedtuple("Exchange", "name call workers asked asked_schema status told told_schema")


def text_of(file):
    with open(f"{TOP}/{file}", encoding="utf-8") as it:
        return it.read()


def members_once(pairs):
    """The members of an object, no two of which have one name."""
    same("members that stand twice", len(pairs), len(dict(pairs)))
    return dict(pairs)


def document():
    return json.loads(text_of("docs/openapi.json"), object_pairs_hook=members_once)


def compact(value):
    return json.dumps(value, separators=(",", ":"), ensure_ascii=False)


def referred(whole, reference):
    """What a reference leads to."""
    found = whole
    for step in reference.removeprefix("#/").split("/"):
        assert step in found, f"{reference} leads nowhere\n"
        found = found[step]
    return found


def operations(whole):
    """The operations of the document by their calls, each with its method."""
    return {path.removeprefix("/v1/"): (method, it) for path, item in whole["paths"].items() for method, it in item.items()}


def media(whole, part):
    """The schema and the examples of a request or a response; one that there is not has none."""
    part = referred(whole, part["$ref"]) if "$ref" in part else part
    return part.get("content", {}).get("application/json", {})


def responses(whole, operation):
    """What an operation is answered, by status."""
    return {int(status): media(whole, it) for status, it in operation["responses"].items()}


def exchanges(whole):
    """The examples in the order of their numbers, which are 1, 2 and so on. Those of a response that operations share have none."""
    found = []
    for call, (_, operation) in operations(whole).items():
        asked = media(whole, operation.get("requestBody", {}))
        taken, refused = asked.get("examples", {}), asked.get("x-refused", {})
        told = {}
        for status, answer in responses(whole, operation).items():
            for name, example in answer.get("examples", {}).items():
                if name[0].isdigit():
                    told[name] = (status, example["value"], answer["schema"])
        if asked:
            same(f"examples of {call} that are answered", sorted(taken), sorted(it for it in told if told[it][0] == 200))
            same(f"examples of {call} that are refused", sorted(refused), sorted(it for it in told if told[it][0] != 200))
        for name, reply in told.items():
            example = {**taken, **refused}.get(name, {})
            found.append(Exchange(name, call, example.get("x-workers"), example.get("value"), asked.get("schema"), *reply))
    found.sort(key=lambda it: int(it.name.split()[0]))
    same("the numbers of the examples", list(range(1, len(found) + 1)), [int(it.name.split()[0]) for it in found])
    return found


def tests(whole, schema, value):
    """What each keyword asks of a value. The lists let none of the members and items be passed over."""
    members = value if isinstance(value, dict) else {}
    others = [members[name] for name in members if name not in schema.get("properties", {})]
    items = value if isinstance(value, list) else []
    return {
        "$ref": lambda it: fits(whole, referred(whole, it), value),
        "oneOf": lambda it: [fits(whole, part, value) for part in it].count(True) == 1,
        "type": lambda it: type(value) is TYPES.get(it),
        "const": lambda it: type(value) is type(it) and value == it,
        "enum": lambda it: value in it,
        "pattern": lambda it: not isinstance(value, str) or re.search(it, value) is not None,
        "minimum": lambda it: type(value) is not int or value >= it,
        "maximum": lambda it: type(value) is not int or value <= it,
        "items": lambda it: all([fits(whole, it, item) for item in items]),
        "minItems": lambda it: not isinstance(value, list) or len(items) >= it,
        "maxItems": lambda it: len(items) <= it,
        "required": lambda it: not isinstance(value, dict) or set(it) <= set(members),
        "properties": lambda it: all([fits(whole, it[name], members[name]) for name in members if name in it]),
        "additionalProperties": lambda it: not others if it is False else all([fits(whole, it, other) for other in others]),
        "propertyNames": lambda it: all([fits(whole, it, name) for name in members]),
        "maxProperties": lambda it: len(members) <= it,
    }


def fits(whole, schema, value):
    """Whether a value is of a schema."""
    keywords = tests(whole, schema, value)
    same("keywords that are not known", set(), set(schema) - {*keywords, *ANNOTATIONS})
    return all([keywords[keyword](wanted) for keyword, wanted in schema.items() if keyword not in ANNOTATIONS])


def within(schema):
    """A schema, and those that stand in it."""
    yield schema
    parts = [*schema.get("oneOf", []), *schema.get("properties", {}).values()]
    for part in parts + [schema[it] for it in ("items", "propertyNames", "additionalProperties") if isinstance(schema.get(it), dict)]:
        yield from within(part)


def references(value):
    """Each reference in a part of the document."""
    if isinstance(value, dict):
        yield from (it for name, it in value.items() if name == "$ref")
    for part in value.values() if isinstance(value, dict) else value if isinstance(value, list) else ():
        yield from references(part)


def schemas(whole):
    """Each schema of the document."""
    found = list(whole["components"]["schemas"].values())
    for _, operation in operations(whole).values():
        parts = [media(whole, operation.get("requestBody", {})), *responses(whole, operation).values()]
        found += [it["schema"] for it in parts if it]
    return [it for schema in found for it in within(schema)]


def defined(function, text):
    """The values of a function that is defined by cases, each by its case."""
    return dict(re.findall(rf'^{function} \(?(\w+)[^=\n]*= (?:codes )?"?(\w+)"?$', text, re.M))


def refusals(whole, operation):
    """The numbers, names and statuses of what an operation may be refused with."""
    found = set()
    for status, answer in responses(whole, operation).items():
        for part in answer["schema"]["properties"]["error"]["oneOf"] if status != 200 else []:
            refusal = referred(whole, part["$ref"])["properties"]
            found.add((refusal["code"]["const"], refusal["name"]["const"], status))
    return found


def part_of(page, begin, end):
    """The text of a page between two of its lines."""
    assert begin in page and end in page, f"docs/API.md has no {begin!r} or no {end!r}\n"
    return page.partition(begin)[2].partition(end)[0]


def members_of(text):
    """The names of the members of the objects that a text shows, and not of those within them."""
    found, depth = [], 0
    for it in re.findall(r'"\w+"(?=:)|[\[{}\]]', text):
        depth += (it in "[{") - (it in "]}")
        found += [it.strip('"')] if depth == 1 and it[0] == '"' else []
    return sorted(set(found))


def properties(whole, schema):
    """The members that a schema has, or those that it is one of."""
    schema = referred(whole, schema["$ref"]) if "$ref" in schema else schema
    return sorted({name for it in (schema, *schema.get("oneOf", [])) for name in it.get("properties", {})})


def the_document_stands_by_itself(_program, _folder):
    whole = document()
    for it in references(whole):
        referred(whole, it)
    parts = {f"#/components/{kind}/{name}" for kind, its in whole["components"].items() for name in its}
    same("components that nothing refers to", set(), parts - set(references(whole)))
    known = {*tests(whole, {}, None), *ANNOTATIONS}
    for schema in schemas(whole):
        same(f"keywords of {schema} that are not known", set(), set(schema) - known)
        assert schema.get("type", "object") in TYPES, f"a type that is not known: {schema}\n"
        re.compile(schema.get("pattern", ""))
        if schema.get("type") == "object":
            same(f"members of {schema} without a schema", set(), set(schema.get("required", [])) - set(schema.get("properties", {})))
    for call, (_, operation) in operations(whole).items():
        same("the name of an operation", call, operation["operationId"])
        same(f"whether {call} needs its body", True, operation.get("requestBody", {"required": True})["required"])
        assert {200, 404} <= set(responses(whole, operation)), f"{call} has no response 200 or 404\n"


def the_routes_are_those_of_the_table(_program, _folder):
    text = text_of("crates/http_api/specs/Routes.antt")
    verbs = defined("verb", text)
    table = {(path, verbs.get(call, verbs["_"])) for call, path in re.findall(r'\broute (\w+) \(codes "([^"]+)"\)', text)}
    same("routes", sorted(table), sorted((f"/v1/{call}", method.upper()) for call, (method, _) in operations(document()).items()))


def the_calls_are_those_of_the_page(_program, _folder):
    whole, page = document(), text_of("docs/API.md")
    verbs = {call: verb for verb, call in re.findall(r"`(GET|POST) /v1/(\w+)`", part_of(page, "\n## HTTP\n", "\n### "))}
    listed = part_of(page, "\nEach call with its body", "\nEach write and each configuration makes")
    listed = re.findall(r"(?ms)^- `(\w+)`((?: (?:or )?`[^`]*`)*)[:;].*?^  - Answer: (.*?)\.?$", listed)
    same("calls", sorted(operations(whole)), sorted(call for call, *_ in listed))
    for call, asked, told in listed:
        method, operation = operations(whole)[call]
        same(f"the method of {call}", verbs.get(call, verbs["CALL"]), method.upper())
        same(f"members of {call}", members_of(asked), properties(whole, media(whole, operation.get("requestBody", {})).get("schema", {})))
        same(f"members of the answer to {call}", sorted(re.findall(r"`(\w+)`", told)), properties(whole, responses(whole, operation)[200]["schema"]))


def the_refusals_are_those_of_the_page(_program, _folder):
    whole, page = document(), text_of("docs/API.md")
    of_page, status = set(), None
    for told, code, name in re.findall(r"(?:\b([1-5][0-9]{2}), )?\b([0-9]+) `([A-Z]\w+)`", "".join(re.findall(r"(?m)^\|.*\n", page))):
        status = told or status
        of_page.add((int(code), name, int(status)))
    found = {call: refusals(whole, operation) for call, (_, operation) in operations(whole).items()}
    same("refusals", sorted(of_page), sorted(set.union(*found.values())))
    # Of any call the head may be refused.
    looked_for = {call: {1} for call in found}
    for calls, causes in re.findall(r"(?m)^\| (.*) \| (.*) \|$", part_of(page, "\n| Call | order |\n", "\n\n")):
        for call in re.findall(r"`(\w+)`", calls):
            looked_for.setdefault(call, set()).update(map(int, re.findall(r"\b[0-9]+\b", causes)))
    same("calls", sorted(found), sorted(looked_for))
    for call, (method, _) in operations(whole).items():
        of_connection = {it for it in OF_CONNECTIONS if method == "post" or it[2] != 411}
        faults = {21, 22, 23} if call in STORED else {21, 23} if call in CHANGES else {21}
        same(f"numbers of {call}", sorted(looked_for[call] | faults), sorted(code for code, *_ in found[call] - of_connection))
        same(f"what the connection refuses of {call}", set(), of_connection - found[call])


def the_refusals_are_those_of_the_definitions(_program, _folder):
    text, whole = text_of("crates/names/specs/Refusals.antt"), document()
    numbers, names, statuses = (defined(it, text) for it in ("number_of", "name_of", "status_of"))
    found = set.union(*(refusals(whole, operation) for _, operation in operations(whole).values()))
    table = {(int(numbers[it]), names[it], int(statuses[it])) for it in numbers}
    same("refusals that are not defined", [], sorted(found - table - OF_CONNECTIONS))
    error = whole["components"]["schemas"]["Refusal"]["properties"]["error"]
    same("causes", list(defined("cause_name_of", text).values()), error["properties"]["cause"]["enum"])


def each_example_fits_its_schema(_program, _folder):
    whole = document()
    for it in exchanges(whole):
        if it.asked_schema:
            code = it.told.get("error", {}).get("code")
            same(f"{it.name}: the request fits", code not in UNFIT, fits(whole, it.asked_schema, it.asked))
    for call, (_, operation) in operations(whole).items():
        for status, answer in responses(whole, operation).items():
            for name, example in answer.get("examples", {}).items():
                same(f"{call}, {status}, {name}: the reply fits", True, fits(whole, answer["schema"], example["value"]))


def is_declared(whole, call, reply):
    """Sees that a reply is one that the operation declares."""
    status, body = reply
    declared = responses(whole, operations(whole)[call][1])
    assert status in declared, f"{call} is answered with {status}, which it does not declare\n"
    same(f"{call}: {body} is of the schema of its status", True, fits(whole, declared[status]["schema"], json.loads(body)))


def shared_example(whole, response):
    """The text of the one example of a response that operations share."""
    [example] = media(whole, {"$ref": f"#/components/responses/{response}"})["examples"].values()
    return compact(example["value"])


def each_example_is_answered_as_it_says(program, folder):
    whole = document()
    for words, workers in (((), 4), (("--workers", "1"), 1), (("--workers", "30"), 30)):
        with Server(program, folder, *words) as server, server.connect() as stream:
            for it in exchanges(whole):
                if it.workers in (None, workers):
                    reply = ask(stream, it.call, compact(it.asked) if it.asked_schema else "")
                    same(f"{it.name}, {workers} workers", (it.status, compact(it.told)), reply)
                    is_declared(whole, it.call, reply)
            for call, asked in EXPIRED.items():
                reply = ask(stream, call, compact(asked))
                same(f"{call} below the floor", (410, shared_example(whole, "Expired")), reply)
                is_declared(whole, call, reply)


def what_no_example_asks_is_answered_as_declared(program, folder):
    whole = document()
    with Server(program, folder) as server:
        for call, (method, _) in operations(whole).items():
            line = f"{method.upper()} /v1/{call}"
            talks = [
                (400, MALFORMED, f"{line} HTTP/1.1\r\nContent-Length: a\r\n\r\n"),
                (404, shared_example(whole, "NoRoute"), f"HEAD /v1/{call} HTTP/1.1\r\n\r\n"),
                (404, shared_example(whole, "NoRoute"), f"{line}?a=b HTTP/1.1\r\nContent-Length: 0\r\n\r\n"),
                (413, shared_example(whole, "BodyTooLarge"), f"{line} HTTP/1.1\r\nContent-Length: 65537\r\n\r\n"),
            ]
            if method == "post":
                talks.append((411, shared_example(whole, "LengthRequired"), f"{line} HTTP/1.1\r\n\r\n"))
            for status, body, sent in talks:
                with server.connect() as stream:
                    stream.sendall(sent.encode())
                    reply = one_reply(stream)
                same(sent, (status, body), reply)
                is_declared(whole, call, reply)


def a_store_that_failed_is_answered_as_declared(program, folder):
    """No file of the program may grow any more, of which it hears by an answer and not by a signal."""
    whole = document()
    changes = [("catchup", '{"commits":0,"part":"index"}'), ("config", CONFIG), ("hot", '{"mark":"group:a#member"}'), ("rebuild", "{}")]
    changes += [("trim", f'{{"floor":"{FIRST}"}}'), ("write", insert("bob"))]
    same("the calls that change anything", sorted(CHANGES), [call for call, _ in changes])
    with Server(program, folder, "--db", "failing.db", "--store", "1", restore_signals=False) as server, server.connect() as stream:
        same("config", 200, ask(stream, "config", CONFIG)[0])
        resource.prlimit(server.process.pid, resource.RLIMIT_FSIZE, (0, resource.getrlimit(resource.RLIMIT_FSIZE)[1]))
        fault = (503, '{"error":{"code":22,"name":"StoreFault"}}')
        told = ask(stream, "write", insert("ann"))
        same("the change that meets the fault", fault, told)
        is_declared(whole, "write", told)
        for call, body in changes:
            told = ask(stream, call, body)
            same(f"{call} after it", (503, '{"error":{"code":23,"name":"Reopen"}}'), told)
            is_declared(whole, call, told)
        for call, body in (("state", ""), ("read", '{"namespace":"group"}')):
            told = ask(stream, call, body)
            same(f"{call} after it", 200, told[0])
            is_declared(whole, call, told)


CASES = [
    the_document_stands_by_itself,
    the_routes_are_those_of_the_table,
    the_calls_are_those_of_the_page,
    the_refusals_are_those_of_the_page,
    the_refusals_are_those_of_the_definitions,
    each_example_fits_its_schema,
    each_example_is_answered_as_it_says,
    what_no_example_asks_is_answered_as_declared,
    a_store_that_failed_is_answered_as_declared,
]
