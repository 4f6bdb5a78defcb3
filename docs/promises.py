#!/usr/bin/env python3
"""Sees that each function, clause and definition that a crate's README names as what carries a promise is there, each wrong body that WRONG.md names, and each file that a document names or
links to; that TESTING.md names a test for each public call that may answer want of memory; that the READMEs have their form and the index of PROMISES.md is theirs (docs/index.py); and that no count, limit or time is old (docs/counts.py).

usage: docs/promises.py

What carries a promise stands after `By` below it in the README of its crate, and that of the headline in the last column of its table in PROMISES.md. There a group is functions and types, then a colon and
clauses of one of them: `Desk::open`: `posted`, `kept` (`Agrees`). A function must stand in src/ of that crate, a clause in a contract of one of the group's
functions, and a definition, which begins with a capital, there or in the crate's specs/. What README.md has in brackets at the end of a
numbered line is a function or a trait of some crate.
In WRONG.md an item of a list is a wrong program, a full stop, and groups, parted by semicolons: crates, a colon, and wrong bodies of one of them, which are files of its wrong/ or
must-fail/, or of a crate of tests its functions. A file with cases stands for a crate, and a path alone for a group.
In TESTING.md's table of such calls a line has a crate, or that of the line above; calls; and tests: of a crate, a file with cases, or a case. A call is `Rows::commit`, a function or a
method of the type before it. It is one that may answer so where its type says it (`ANSWERS`); a conversion, and what its crate alone can name as a type or a trait, is none.
In every document a link leads to a file, and to a heading of it where it says so; a name in code quotes that has the form of a file of a crate (`crates/zanz/stdin`, `zanz/specs/Ran.antt`) or of
this repository (`docs/promises.py`, `.ci/run`) is one. After a file of a crate further ones may stand with their names alone.
In README.md, docs/*.md and the crates' READMEs, outside of blocks of code, no sentence has over 45 words and no line over 200 columns; in a crate's README no line has over 160, and there are
at most 45. A sentence ends with its full stop, or with its paragraph, its item of a list, its cell of a table or its heading; what stands in code quotes, and the text of a link, counts as it is
read; what stands after `By` is none. Ends with status 1 where a name is missing, or one of these is too long.
"""
import os
import re
import sys

sys.dont_write_bytecode = True
import counts
import index

LONGEST_SENTENCE = 45
WIDEST_LINE = 200
WIDEST_LINE_OF_A_CRATE = 160
MOST_LINES_OF_A_CRATE = 45
# These pages do not hold the two limits yet, and are not looked at. A page goes off this list once it holds them, and none comes on it.
NOT_YET_SHORT = ()
ROOT = os.path.dirname(os.path.dirname(os.path.realpath(__file__)))
NAME = re.compile(r"`([^`]+)`")
ANSWERS = re.compile(r"\b(AllocError|InsertError|TablesError|Refusal|Refused|Reply|End|Fault|Probe|Post|Outcome|Asked\w*)\b|(?<![:\w])Error\b")
SIGNATURE = re.compile(r"(?m)^( *)(pub )?fn (\w+)[^{;]*?\)\s*->\s*((?:.|\n)*?)(?=\s*[{;]|\s*\n\s*(?:requires|ensures|where|//))")


def text_of(crate, part, ending):
    """The text of the crate's files of that part."""
    texts = []
    for folder, _, files in os.walk(f"{ROOT}/crates/{crate}/{part}"):
        for file in sorted(files):
            if file.endswith(ending):
                with open(f"{folder}/{file}", encoding="utf-8") as it:
                    texts.append(it.read())
    return "\n".join(texts)


def contracts_of(text, name):
    """The signatures and contracts of the functions of that name; a type's name stands for all that its impls have."""
    last = name.rpartition("::")[2]
    found = re.findall(rf"(?ms)^\s*(?:pub(?:\(crate\))? )?fn {re.escape(last)}\b.*?(?=^\s*\{{|;\s*$)", text)
    if not found:
        found = re.findall(rf"(?ms)^(?:pub )?trait {re.escape(last)}\b.*?^\}}", text)
    if not found:
        found = re.findall(rf"(?ms)^impl[^\n]*\b{re.escape(last)}\b.*?^\}}", text)
    return found


def missing_in(crate, carriers):
    """What is named as carrying a promise and the crate lacks."""
    text = text_of(crate, "src", ".rt")
    specs = text_of(crate, "specs", ".antt")
    for group in re.split(r";\s+", carriers):
        head, _, tail = group.partition(":  ") if ":  " in group else re.match(r"(.*?)(?:(?<=`): (.*))?$", group, re.S).group(1, 2, 2)
        names = NAME.findall(head)
        found = []
        for name in names:
            here = contracts_of(text, name)
            if not here and not re.search(rf"\b{re.escape(name.rpartition('::')[2])}\b", text):
                yield f"`{name}` is not in {crate}"
            found += here
        for clause in NAME.findall(tail or ""):
            if clause[0].isupper() and re.search(rf"\b{re.escape(clause)}\b", specs):
                continue
            if not any(re.search(rf"\b{re.escape(clause.rpartition('::')[2])}\b", it) for it in found):
                yield f"`{clause}` is no clause of {', '.join(names)}"


def promised():
    """What is said to carry a promise, with its crate and the page: what stands after each `By`, and the last column of the table of the headline in PROMISES.md."""
    for crate in index.crates():
        for _, carriers in index.promises_of(crate):
            yield f"crates/{crate}/README.md", crate, carriers or ""
    with open(index.PAGE, encoding="utf-8") as it:
        text = it.read().partition(index.BEGIN)[0]
    crate = None
    for line in re.findall(r"(?m)^\|.*$", text):
        cells = [cell.strip() for cell in line.strip().strip("|").split("|")]
        if len(cells) == 3:
            crate = (NAME.findall(cells[0]) or [crate if not cells[0] else None])[0]
            if crate:
                yield "docs/PROMISES.md", crate, cells[2]


def unfounded():
    """What stands in brackets at the end of a numbered line of README.md, and that no crate has."""
    with open(f"{ROOT}/README.md", encoding="utf-8") as it:
        lines = re.findall(r"(?m)^\d+\. .*\((.*)\)\.$", it.read())
    text = "\n".join(text_of(crate, "src", ".rt") for crate in sorted(os.listdir(f"{ROOT}/crates")))
    for name in (name for line in lines for name in NAME.findall(line)):
        if not contracts_of(text, name):
            yield f"`{name}` is in no crate"


def items_of(text, mark):
    """The items of a list that begin with the mark, each on one line."""
    for item in re.findall(rf"(?m)^{re.escape(mark)}(.*(?:\n {{{mark.index('-') + 2}}}.*)*)", text):
        yield re.sub(r"\s+", " ", item)


def bodies_missing():
    """The wrong bodies, and the tests of crates, that WRONG.md names and no crate has."""
    with open(f"{ROOT}/docs/WRONG.md", encoding="utf-8") as it:
        text = it.read()
    for item in items_of(text, "- "):
        crates = []
        for group in item.partition(". ")[2].split(";"):
            head, colon, names = group.partition(": ")
            crates, names = (NAME.findall(head), names) if colon else (crates, group)
            for name in NAME.findall(names):
                if not os.path.exists(f"{ROOT}/{name}") and not any(has_body(crate, name) or has_case(crate, name) for crate in crates):
                    yield f"{', '.join(crates) or 'no crate'} has no wrong body or test `{name}`"


def has_body(crate, name):
    """Whether the crate has a wrong body of that name, or a crate of tests a function."""
    if crate.endswith("_tests"):
        return bool(re.search(rf"\bfn {re.escape(name)}\b", text_of(crate, "src", ".rt")))
    return any(os.path.isfile(f"{ROOT}/crates/{crate}/{folder}/{name}.edit") for folder in ("wrong", "must-fail"))


def calls_of(crate):
    """The public calls of a crate that may answer want of memory: functions, and methods after their type or trait."""
    text = text_of(crate, "src", ".rt")
    inner = set(re.findall(r"(?m)^(?:pub\(crate\) )?(?:struct|enum|trait) (\w+)", text)) | {"From"}
    blocks = r"(?ms)^((?:pub )?trait [^{]*|impl\b[^{]*)\{\n(.*?)^\}"
    for _, public, name, answer in SIGNATURE.findall(re.sub(blocks, "", text)):
        if public and ANSWERS.search(answer):
            yield name
    for head, body in re.findall(blocks, text):
        while re.search(r"<[^<>]*>", head):
            head = re.sub(r"<[^<>]*>", "", head)
        named = re.findall(r"\w+", re.sub(r"\b(pub|impl|trait|for)\b", "", head))
        owner = named[1] if " for " in head and len(named) > 1 else named[0]
        for _, public, name, answer in SIGNATURE.findall(body):
            if (public or " for " in head or "trait " in head) and not inner & {named[0], owner} and ANSWERS.search(answer):
                yield f"{owner}::{name}"


def calls_listed():
    """The lines of TESTING.md's table of calls that may answer want of memory: the crate, its calls, and the tests."""
    with open(f"{ROOT}/docs/TESTING.md", encoding="utf-8") as it:
        part = it.read().partition("## Each call that may answer want of memory\n")[2].partition("\n## ")[0]
    crate = None
    for line in re.findall(r"(?m)^\| (.*) \|$", part):
        first, calls, tests = line.split(" | ") if line.count(" | ") == 2 else (None, *line.removeprefix("| ").split(" | "))
        crate = NAME.findall(first)[0] if first and NAME.findall(first) else crate
        if crate:
            yield crate, calls, tests


def calls_missing():
    """The calls that may answer want of memory and have no line, and the calls and tests that lines name in vain."""
    listed = {}
    for crate, calls, tests in calls_listed():
        mine = set(calls_of(crate))
        owner = ""
        for name in NAME.findall(calls):
            owner = name.partition("::")[0] if "::" in name else owner
            whole = f"{owner}::{name}" if f"{owner}::{name}" in mine else name
            listed.setdefault(crate, set()).add(whole)
            if whole not in mine and not contracts_of(text_of(crate, "src", ".rt"), name):
                yield f"`{crate}` has no call `{name}`"
        for group in tests.split("; "):
            head, *names = NAME.findall(group) or [""]
            for name in names:
                if not has_case(head, name) and not has_body(head, name):
                    yield f"`{head}` has no test `{name}`"
    with open(f"{ROOT}/crates.txt", encoding="utf-8") as it:
        crates = re.findall(r"(?m)^(\w+)[^:\n]*:", it.read())
    for crate in (it for it in crates if not it.endswith("_tests")):
        for name in sorted(set(calls_of(crate)) - listed.get(crate, set())):
            yield f"no line has `{name}` of `{crate}`"


def has_case(file, name):
    """Whether a file of python has a case of that name."""
    if not file.endswith(".py") or not os.path.isfile(f"{ROOT}/{file}"):
        return False
    with open(f"{ROOT}/{file}", encoding="utf-8") as it:
        return f"\n    {name},\n" in it.read()


def documents():
    """The documents of the repository, from its top."""
    for folder, folders, files in os.walk(ROOT):
        folders[:] = sorted(it for it in folders if it not in (".git", "out"))
        for file in sorted(files):
            if file.endswith(".md"):
                yield os.path.relpath(f"{folder}/{file}", ROOT)


def headings_of(path):
    """The anchors of a document's headings."""
    with open(path, encoding="utf-8") as it:
        titles = re.findall(r"(?m)^#+ +(.*?) *$", re.sub(r"(?ms)^```.*?^```", "", it.read()))
    return {re.sub(r"[^\w\- ]", "", title.lower()).replace(" ", "-") for title in titles}


def links_missing(file, text):
    """The links of a document that lead nowhere."""
    folder = os.path.dirname(f"{ROOT}/{file}")
    for link in re.findall(r"\]\(([^)\s]+)\)", text):
        if re.match(r"[a-z]+:", link):
            continue
        path, _, heading = link.partition("#")
        path = os.path.normpath(f"{folder}/{path}") if path else f"{ROOT}/{file}"
        if not os.path.exists(path):
            yield f"no file at ({link})"
        elif heading and os.path.isfile(path) and heading not in headings_of(path):
            yield f"no heading at ({link})"


def files_missing(file, text):
    """The files that a document names and that are not there."""
    crates = set(os.listdir(f"{ROOT}/crates"))
    top = set(os.listdir(ROOT))
    folder = None
    for name in NAME.findall(text):
        if not re.fullmatch(r"[\w.\-/]+", name) or re.search(r"\b[A-Z]+\b/", name):
            folder = None if " " in name else folder
            continue
        first, slash, rest = name.partition("/")
        if slash and first in crates and rest.partition("/")[0].strip() in ("src", "specs", "proofs", "wrong", "must-fail"):
            path = f"crates/{name}"
        elif slash and first in top and not name.endswith("/out/zanz") and "/out/" not in name:
            path = name
        elif folder and re.fullmatch(r"\w+\.(antt|rt)", name):
            path = f"{folder}/{name}"
        else:
            continue
        if not os.path.exists(f"{ROOT}/{path}"):
            yield f"no file `{name}`"
        folder = os.path.dirname(path) if path.endswith((".antt", ".rt")) else folder


def sentences_of(text):
    """The sentences of a document without its blocks of code, in order."""
    text = re.sub(r"`([^`]+)`", lambda it: it.group(0).replace(".", "\u2024").replace("|", "\u01c0"), text)
    text = re.sub(r"\[([^\]]*)\]\([^)\s]*\)", r"\1", text)
    text = re.sub(r"(?m)^(#.*)$", r"\1\n", text)
    for block in re.split(r"\n\s*\n|\n(?=\s*(?:[-*+]|\d+\.) |\|)", text):
        for part in block.split("|") if block.startswith("|") else [block]:
            yield from re.split(r"(?<=[.!?])[)*\"”]*\s+", part.strip())


def lengths_exceeded(file, text):
    """The sentences of a page that are too long to be read, and the lines that are too wide or, of a crate's README, too many."""
    is_crate = file.startswith("crates/")
    widest = WIDEST_LINE_OF_A_CRATE if is_crate else WIDEST_LINE
    for sentence in sentences_of(re.sub(r"(?m)^  - By .*(?:\n    .*)*", "", text) if is_crate else text):
        words = [it for it in sentence.split() if re.search(r"\w", it)]
        if len(words) > LONGEST_SENTENCE:
            yield f"a sentence of {len(words)} words: {' '.join(words[:8])} .."
    lines = text.splitlines()
    for line in lines:
        if len(line) > widest:
            yield f"a line of {len(line)} columns: {line[:60]} .."
    if is_crate and len(lines) > MOST_LINES_OF_A_CRATE:
        yield f"{len(lines)} lines"


def main():
    wrong = 0
    for file in documents():
        with open(f"{ROOT}/{file}", encoding="utf-8") as it:
            text = re.sub(r"(?ms)^```.*?^```", "", it.read())
        is_page = re.fullmatch(r"README\.md|docs/\w+\.md|crates/\w+/README\.md", file) and file not in NOT_YET_SHORT
        for why in [*links_missing(file, text), *files_missing(file, text), *(lengths_exceeded(file, text) if is_page else [])]:
            print(f"{file}: {why}")
            wrong += 1
    for why in bodies_missing():
        print(f"docs/WRONG.md: {why}")
        wrong += 1
    for why in calls_missing():
        print(f"docs/TESTING.md: {why}")
        wrong += 1
    for why in unfounded():
        print(f"README.md: {why}")
        wrong += 1
    for file, crate, carriers in promised():
        for why in missing_in(crate, carriers):
            print(f"{file}: {why}")
            wrong += 1
    for why in [*index.faults(), *counts.faults()]:
        print(why)
        wrong += 1
    return 1 if wrong else 0


if __name__ == "__main__":
    sys.exit(main())
