#!/usr/bin/env python3
"""Cases of tools/import.py: the tables beside this file, ids, limits, inputs that are cut or changed at random, and random models.

usage: importer.py PROGRAM [--schemas N] [--seed N]      2,000 random schemas, each judged as the program judges it

Each case is a function of CASES, named for what it shows. It is given the program and an empty folder to run it in, and raises
AssertionError where something is not as it should be.
"""
import argparse
import contextlib
import importlib.util
import io
import itertools
import json
import os
import random
import re
import subprocess
import sys
import tempfile

sys.dont_write_bytecode = True
HERE = os.path.dirname(os.path.realpath(__file__))
IMPORTER = f"{os.path.dirname(os.path.dirname(HERE))}/tools/import.py"
LIMIT = int(os.environ.get("CASE_SECONDS", "10"))
SCHEMAS = 100


def loaded():
    """The importer as a module, for what would take too many processes."""
    spec = importlib.util.spec_from_file_location("importer_of_models", IMPORTER)
    made = importlib.util.module_from_spec(spec)
    spec.loader.exec_module(made)
    return made


def written(folder, name, text):
    with open(f"{folder}/{name}", "wb") as it:
        it.write(text if isinstance(text, bytes) else text.encode())
    return name


def imported(folder, *words, **how):
    """Runs the importer: its status, what it wrote and what it told."""
    ran = subprocess.run([IMPORTER, *words], cwd=folder, stdin=subprocess.DEVNULL, stderr=subprocess.PIPE, timeout=LIMIT, **{"stdout": subprocess.PIPE, **how})
    return ran.returncode, (ran.stdout or b"").decode(), ran.stderr.decode()


def answers(program, folder, lines):
    """Each answer of the program: its status and its body."""
    ran = subprocess.run([program, "run"], cwd=folder, input=lines.encode(), capture_output=True, timeout=LIMIT, check=True)
    return [(status, json.loads(body)) for status, _, body in (it.partition(" ") for it in ran.stdout.decode().splitlines())]


def statuses(program, folder, lines):
    return [status for status, _ in answers(program, folder, lines)]


def same(what, wanted, got):
    assert wanted == got, f"{what}: wanted {str(wanted)[:400]}, got {str(got)[:400]}\n"


def outcome_of(importer, folder, words):
    """The same of the module, after a look at whether what it wrote and told has the form that goes with its status."""
    out, err = io.StringIO(), io.StringIO()
    with contextlib.redirect_stdout(out), contextlib.redirect_stderr(err):
        status = importer.main([words[0], *(f"{folder}/{it}" for it in words[1:])])
    wrote, told = out.getvalue(), err.getvalue().replace(f"{folder}/", "").split("\n")[:-1]
    fits = {0: wrote and not told, 1: told and not wrote, 2: len(told) == 1 and told[0].startswith("import: ") and not wrote}
    assert fits[status], f"status {status}, and {told}\n"
    return status, wrote, told


# -- what is refused, and what cannot be read


def hold_rows(table, status, folder):
    """Sees what is told of each model of a table, with the tuples that stand below it."""
    importer = loaded()
    with open(f"{HERE}/{table}", encoding="utf-8") as it:
        blocks = [[line for line in block.split("\n") if line and not line.startswith("# ")] for block in it.read().split("\n\n")]
    for first, *rest in filter(None, blocks):
        kind, _, model = first.partition(" ")
        tuples = [it.removeprefix("tuples ") for it in rest if it.startswith("tuples ")]
        words = [kind, written(folder, "model", model + "\n")]
        if tuples:
            words.append(written(folder, "tuples", "\n".join(tuples) + "\n"))
        wanted = [it for it in rest if not it.startswith("tuples ")]
        same(first, (status, "", wanted), outcome_of(importer, folder, words))


def what_no_line_can_say_of_openfga_is_refused(_program, folder):
    hold_rows("refused_of_openfga.table", 1, folder)


def what_no_line_can_say_of_spicedb_is_refused(_program, folder):
    hold_rows("refused_of_spicedb.table", 1, folder)


def what_has_no_form_is_told_on_one_line(_program, folder):
    hold_rows("unreadable.table", 2, folder)


# -- ids

MODEL = {"schema_version": "1.1", "type_definitions": [{"type": "user"}, {"type": "doc", "relations": {"viewer": {"this": {}}}}]}
MODEL["type_definitions"][1]["metadata"] = {"relations": {"viewer": {"directly_related_user_types": [{"type": "user"}]}}}


def given_back(text):
    """The id that was written so, by the rule that tools/import.py --help tells."""
    return re.sub(rb"\.([0-9A-F]{2})", lambda it: bytes.fromhex(it[1].decode()), text.encode()).decode()


def ids_come_back_and_do_not_meet(program, folder):
    choose = random.Random(1)
    ids = ["".join(it) for length in range(1, 5) for it in itertools.product(".2Ea@", repeat=length)]
    ids += ["".join(chr(choose.choice((choose.randrange(33, 127), choose.randrange(0xA1, 0x2FF), 0x1F600))) for _ in range(5)) for _ in range(500)]
    ids = list(dict.fromkeys(it for it in ids if "#" not in it))
    tuples = [{"user": f"user:{it}", "relation": "viewer", "object": "doc:a"} for it in ids]
    words = [written(folder, "model", json.dumps(MODEL)), written(folder, "tuples", json.dumps(tuples))]
    status, lines, told = imported(folder, "openfga", *words)
    same("status and what is told", (0, ""), (status, told))
    found = re.findall(r'"doc:a#viewer@user:([^"]*)"', lines)
    same("ids", ids, [given_back(it) for it in found])
    for it in found:
        assert re.fullmatch(r"[A-Za-z0-9._-]{1,64}", it), f"{it} is no id\n"
    same("answers", {"200"}, set(statuses(program, folder, lines)))


# -- limits


def schemas_at_a_limit():
    """For each limit a schema that keeps it, one that does not, and what is told of that one."""

    def definitions(count):
        return "".join(f"definition n{it} {{}} " for it in range(count))

    def relations(count):
        return "definition n { %s }" % " ".join(f"relation r{it}: n" for it in range(count))

    def types(count):
        return "definition n { relation r: n } definition m { relation r: %s }" % " | ".join(["n", "n#r", *(f"k{it}" for it in range(count - 2))]) + definitions_of(count - 2)

    def definitions_of(count):
        return "".join(f" definition k{it} {{}}" for it in range(count))

    def parts(count):
        return "definition n { relation r: n permission p = %s }" % " + ".join(["r"] * (count - 1))

    def depth(count):
        return "definition n { relation r: n permission p = %s }" % " - ".join(["r"] * count)

    def named(length):
        return "definition n { relation %s: n }" % ("r" * length)

    def bytes_of(count):
        # 26 permissions of 50 parts take 63,243 bytes, and the last one 2,283 and its name
        named = [(f"r{it}", 50) for it in range(26)] + [("l" * (count - 63_243 - 2_283), 47)]
        permissions = " ".join(f"permission {name} = {' + '.join(['a' * 32] * parts)}" for name, parts in named)
        return "definition n { relation %s: n %s }" % ("a" * 32, permissions)

    yield "namespaces", definitions(64), definitions(65), "model:1: the whole: it has 65 namespaces, and 64 are the most\n"
    yield "relations", relations(256), relations(257), "model:1: the whole: it has 257 relations, and 256 are the most\n"
    yield "types", types(32), types(33), "model:1: m#r: it has 33 types, and 32 are the most\n"
    yield "parts", parts(64), parts(65), "model:1: n#p: its rewrite has 65 parts, and 64 are the most\n"
    yield "depth", depth(16), depth(17), "model:1: n#p: its rewrite is 17 deep, and 16 is the most\n"
    yield "names", named(32), named(33), f"model:1: n#{'r' * 33}: no name here, which has 1 to 32 small letters, digits and underscores, the first a letter\n"
    yield "bytes", bytes_of(65_536), bytes_of(65_537), "model:1: the whole: it has 65537 bytes of a configuration, and 65536 are the most\n"


def limits_of_a_configuration_are_kept(program, folder):
    for name, kept, passed, wanted in schemas_at_a_limit():
        status, lines, told = imported(folder, "spicedb", written(folder, "model", kept))
        same(name, (0, ""), (status, told))
        same(f"{name}: answers", ["200"], statuses(program, folder, lines))
        same(name, (1, "", wanted), imported(folder, "spicedb", written(folder, "model", passed)))


def writes_have_256_operations_and_65536_bytes_at_most(program, folder):
    long = "n" * 32
    schema = f"definition {long} {{ relation {long}: {long}#{long} | {long} }}"
    for size, wanted in ((1, [256, 256, 88]), (64, [228, 228, 144])):
        ids = [f"{it:0{size}}" for it in range(1000, 1600)]
        lines = [f"{long}:{it}#{long}@{long}:{it}#{long}" if size == 64 else f"{long}:{it}#{long}@{long}:{it}" for it in ids]
        words = [written(folder, "model", schema), written(folder, "tuples", "\n".join(lines))]
        status, wrote, told = imported(folder, "spicedb", *words)
        same("status and what is told", (0, ""), (status, told))
        bodies = [it.partition(" ")[2] for it in wrote.splitlines()[1:]]
        same("operations", wanted, [len(json.loads(it)["ops"]) for it in bodies])
        same("tuples", lines, [it["tuple"] for body in bodies for it in json.loads(body)["ops"]])
        assert all(len(it) <= 65536 for it in bodies)
        same("answers", {"200"}, set(statuses(program, folder, wrote)))


# -- files, and what is cut or changed in them


def files_that_cannot_be_read_are_told(_program, folder):
    deep = '{"schema_version":"1.1","type_definitions":[{"type":"a","relations":{"r":%s{"this":{}}%s}}]}'
    os.mkdir(f"{folder}/folder")
    for kind, text, wanted in (
        ("openfga", b'{"schema_version":\n"\xff"}', "model:2: no text in UTF-8"),
        ("spicedb", b"definition \xc3", "model:1: no text in UTF-8"),
        ("openfga", b"[" * 100_000, "something is nested too deeply to be read"),
        ("openfga", deep % ('{"union":{"child":[' * 5000, "]}}" * 5000), "something is nested too deeply to be read"),
        ("spicedb", "definition a { permission p = " + "(" * 100_000, "something is nested too deeply to be read"),
        ("spicedb", "definition a { permission p = " + "a - " * 5000 + "a }", "something is nested too deeply to be read"),
        ("openfga", b"1" * 5000, "model: no JSON: a number is too long"),
        ("openfga", b"", "model:1: no JSON: Expecting value"),
        ("openfga", b"\0", "model:1: no JSON: Expecting value"),
        ("spicedb", b"\0", "model:1: a definition or a caveat should be here, and not '\\x00'"),
    ):
        same(wanted, (2, "", f"import: {wanted}\n"), imported(folder, kind, written(folder, "model", text)))
    written(folder, "model", json.dumps(MODEL))
    for words, wanted in (
        (["openfga", "missing"], "missing: No such file or directory"),
        (["openfga", "model", "missing"], "missing: No such file or directory"),
        (["spicedb", "folder"], "folder: Is a directory"),
        (["openfga", ""], ": No such file or directory"),
        *((words, "usage: tools/import.py openfga MODEL [TUPLES ..], or tools/import.py spicedb SCHEMA [RELATIONSHIPS ..]") for words in ([], ["openfga"], ["zanzibar", "model"])),
    ):
        same(words, (2, "", f"import: {wanted}\n"), imported(folder, *words))


def an_output_that_takes_nothing_is_told(_program, folder):
    written(folder, "model", json.dumps(MODEL))
    with open("/dev/full", "wb") as full:
        same("a full device", (2, "", "import: standard output: No space left on device\n"), imported(folder, "openfga", "model", stdout=full))
    reader, writer = os.pipe()
    os.close(reader)
    same("a broken pipe", (2, "", "import: standard output: Broken pipe\n"), imported(folder, "openfga", "model", stdout=writer))
    os.close(writer)
    ran = subprocess.run(["sh", "-c", f"exec '{IMPORTER}' openfga model >&-"], cwd=folder, stderr=subprocess.PIPE, timeout=LIMIT)
    same("a closed output", (2, b"import: standard output: it is closed\n"), (ran.returncode, ran.stderr))


def texts_of_cases():
    """The inputs of the cases beside this file: the words of each, and its files with their texts."""
    for name in sorted(os.listdir(HERE)):
        if os.path.isfile(f"{HERE}/{name}/args"):
            with open(f"{HERE}/{name}/args", encoding="utf-8") as it:
                words = it.read().split()
            texts = {}
            for file in words[1:]:
                with open(f"{HERE}/{name}/{file}", encoding="utf-8") as it:
                    texts[file] = it.read()
            yield words, texts


def changed(choose, text):
    """A text that is cut, or in which a piece is left out, put twice, or replaced by another."""
    first, last = sorted(choose.randrange(len(text) + 1) for _ in range(2))
    last = min(last, first + choose.choice((1, 3, 20, len(text))))
    other = choose.choice(('"', "{", "}", "[", "]", "null", "1", "[]", "{}", '""', "*", "#", ":", "@", "->", "(", "\0", "\ud800", "é", "nil", "\\ud800"))
    return text[:first] + choose.choice(("", "", text[first:last] * 2, other)) + choose.choice((text[last:], text[last:], ""))


def changed_inputs_are_told_or_taken(program, folder):
    importer, choose = loaded(), random.Random(2)
    seen = [0, 0, 0]
    for words, texts in texts_of_cases():
        for _ in range(150):
            touched = choose.choice(words[1:])
            for file, text in texts.items():
                text = changed(choose, text) if file == touched else text
                written(folder, file, text.encode("utf-8", "surrogatepass"))
            status, lines, _ = outcome_of(importer, folder, words)
            seen[status] += 1
            if status == 0 and seen[0] % 10 == 0:
                same(f"answers to {lines}", {"200"}, set(statuses(program, folder, lines)))
    assert min(seen) > 50, f"{seen} of each status\n"


# -- random schemas


def random_expression(choose, names, depth):
    kind = choose.randrange(6 if depth else 3)
    if kind < 2:
        return choose.choice(names)
    if kind == 2:
        return f"{choose.choice('ttr')}->{choose.choice(names)}"
    return "(%s)" % choose.choice((" + ", " & ", " - ")).join(random_expression(choose, names, depth - 1) for _ in range(choose.choice((2, 2, 3))))


def random_schema(choose):
    """A schema of two definitions with a few relations and permissions, which may be invalid."""
    text = "definition user {}\n"
    for namespace in "ab":
        names = "prst" + "z" * (choose.randrange(12) == 0)
        text += f"definition {namespace} {{\n"
        for name, most in (("r", 4), ("s", 8), ("t", 20)):
            if choose.randrange(most):
                types = choose.sample(("a", "b") if choose.randrange(most) else ("user", "a", "b", "a#r", "b#s", "a#t", "b#p", "a#z"), choose.choice((1, 2)))
                text += f"    relation {name}: {' | '.join(types)}\n"
            else:
                text += f"    permission {name} = {random_expression(choose, names, 1)}\n"
        text += f"    permission p = {random_expression(choose, names, 2)}\n}}\n"
    return text


def judged(program, folder, count, seed):
    """Sees that the importer refuses those random schemas whose configuration the program refuses. How many there were of both."""
    importer, texts, refused, lines = loaded(), [], [], []
    for number in range(seed, seed + count):
        texts.append(random_schema(random.Random(number)))
        model = importer.Schema(f"{folder}/{written(folder, 'model', texts[-1])}").read()
        importer.judge(model)
        refused.append([text for _, text in model.refused])
        lines.append(f"config {importer.configuration(model)}\n")
    found = statuses(program, folder, "".join(lines))
    same("answers", count, len(found))
    for text, why, status in zip(texts, refused, found):
        assert bool(why) == (status == "400"), f"{text}is answered {status}, and the importer tells {why}\n"
    return found.count("200"), found.count("400")


def random_schemas_are_judged_as_the_program_judges_them(program, folder):
    accepted, refused = judged(program, folder, SCHEMAS, 0)
    assert min(accepted, refused) > SCHEMAS // 10, f"{accepted} accepted, {refused} refused\n"


# -- random permissions

USERS = ["".join(it) for size in range(5) for it in itertools.combinations("abcd", size)]
SIGNS = {"union": " + ", "intersection": " & ", "exclusion": " - "}


def random_tree(choose, depth):
    """A leaf, which is a relation or an arrow to one, or a kind of rewrite with its parts."""
    kind = choose.choice(("leaf", *SIGNS)) if depth else "leaf"
    if kind == "leaf":
        return choose.choice(("computed", "tuple_to")), choose.choice("abcd")
    return kind, [random_tree(choose, depth - 1) for _ in range(2 if kind == "exclusion" else choose.choice((2, 3)))]


def set_of(tree):
    """Whom it gives of the users, each of whom has the relations in its name at a thing, and all others at what is above it."""
    kind, parts = tree
    if kind in ("computed", "tuple_to"):
        return {it for it in USERS if (parts in it) == (kind == "computed")}
    operation = {"union": set.union, "intersection": set.intersection, "exclusion": set.difference}[kind]
    return operation(*map(set_of, parts))


def expression_of(tree):
    kind, parts = tree
    if kind in SIGNS:
        return "(" + SIGNS[kind].join(map(expression_of, parts)) + ")"
    return parts if kind == "computed" else f"up->{parts}"


def userset_of(tree):
    kind, parts = tree
    if kind == "exclusion":
        return {"difference": dict(zip(("base", "subtract"), map(userset_of, parts)))}
    if kind in SIGNS:
        return {kind: {"child": [userset_of(it) for it in parts]}}
    computed = {"computedUserset": {"relation": parts}}
    return computed if kind == "computed" else {"tupleToUserset": {"tupleset": {"relation": "up"}, **computed}}


def both_forms(folder, trees, tuples):
    """The same relations, with a permission for each tree, and the same tuples, as both projects have them. What the importer makes of each."""
    relations = {**{it: "user" for it in "abcd"}, "up": "thing"}
    said = [f"relation {name}: {kind}" for name, kind in relations.items()] + [f"permission p{number} = {expression_of(it)}" for number, it in enumerate(trees)]
    schema = "definition user {}\ndefinition thing {\n%s\n}" % "\n".join(said)
    yield imported(folder, "spicedb", written(folder, "schema", schema), written(folder, "relationships", "\n".join(f"{node}@{user}" for node, user in tuples)))
    thing = {"type": "thing", "relations": {**{it: {"this": {}} for it in relations}, **{f"p{number}": userset_of(it) for number, it in enumerate(trees)}}}
    thing["metadata"] = {"relations": {it: {"directly_related_user_types": [{"type": kind}]} for it, kind in relations.items()}}
    model = {"schema_version": "1.1", "type_definitions": [{"type": "user"}, thing]}
    keys = [dict(zip(("object", "relation", "user"), (*node.split("#"), user))) for node, user in tuples]
    yield imported(folder, "openfga", written(folder, "model", json.dumps(model)), written(folder, "tuples", json.dumps(keys)))


def random_permissions_give_whom_sets_give(program, folder):
    choose = random.Random(3)
    trees = [random_tree(choose, 3) for _ in range(12)]
    tuples = [("thing:t#up", "thing:top")] + [(f"thing:{'t' if it in user else 'top'}#{it}", f"user:u{user}") for user in USERS for it in "abcd"]
    first, second = both_forms(folder, trees, tuples)
    same("what is made of both", first, second)
    status, lines, told = first
    same("status and what is told", (0, ""), (status, told))
    questions = [(number, user) for number in range(len(trees)) for user in USERS]
    asked = "".join(f'check {{"node":"thing:t#p{number}","user":"user:u{user}"}}\n' for number, user in questions)
    found = answers(program, folder, lines + asked)
    same("changes", ["200", "200"], [status for status, _ in found[:2]])
    for (number, user), (_, body) in zip(questions, found[2:], strict=True):
        same(f"{expression_of(trees[number])} of u{user}", user in set_of(trees[number]), body.get("allowed"))


CASES = [
    what_no_line_can_say_of_openfga_is_refused,
    what_no_line_can_say_of_spicedb_is_refused,
    what_has_no_form_is_told_on_one_line,
    ids_come_back_and_do_not_meet,
    limits_of_a_configuration_are_kept,
    writes_have_256_operations_and_65536_bytes_at_most,
    files_that_cannot_be_read_are_told,
    an_output_that_takes_nothing_is_told,
    changed_inputs_are_told_or_taken,
    random_schemas_are_judged_as_the_program_judges_them,
    random_permissions_give_whom_sets_give,
]


def main():
    words = argparse.ArgumentParser(usage=__doc__.split("usage: ")[1].split("  ")[0])
    words.add_argument("program")
    words.add_argument("--schemas", type=int, default=2000)
    words.add_argument("--seed", type=int, default=0)
    given = words.parse_args()
    with tempfile.TemporaryDirectory() as folder:
        accepted, refused = judged(os.path.abspath(given.program), folder, given.schemas, given.seed)
    print(f"{accepted} accepted, {refused} refused")


if __name__ == "__main__":
    main()
