#!/usr/bin/env python3
"""Writes the counts, limits and times that the documents tell: each from what it counts, or from the page that has it first.

usage: docs/counts.py [--check]

A fact is a page, a text of it that stands there once, with {} for each number, and the numbers as they are. It writes them there. With --check it changes
nothing, says which are old, and ends with status 1 where one is, or where such a text is not there.
"""
import importlib.machinery
import importlib.util
import os
import re
import sys

sys.dont_write_bytecode = True
import statement

ROOT = os.path.dirname(os.path.dirname(os.path.realpath(__file__)))
NUMBER = r"([\d,.]+)"
WORDS_A_MINUTE = 130

# Limits that API.md tells, by the file that has each as a constant.
LIMITS = [
    ("current tuples | {} |", "names/src/limits.rt", "MAX_TUPLES"),
    ("rows of history (retained spans of revisions in which a tuple is there) | {} |", "names/src/limits.rt", "MAX_ROWS"),
    ("revisions | {} |", "names/src/limits.rt", "MAX_REV"),
    ("operations of a write | 1 to {} |", "names/src/limits.rt", "MAX_OPS"),
    ("of a write | 0 to {} |", "verdict/src/limits.rt", "MAX_CONDITIONS"),
    ("bytes of a body, and of a configuration | {} |", "names/src/limits.rt", "MAX_BODY_LEN"),
    ("of a [head over HTTP](../crates/http_api/src/limits.rt) | {} bytes, and {} fields |", "http_api/src/limits.rt", "MAX_HEAD", "MAX_FIELDS"),
    ("| {} namespaces, {} relations in all, {} types in a relation, {} nodes and depth {} in a rewrite |", "names/src/limits.rt", "MAX_NAMESPACES", "MAX_RELATIONS", "MAX_TYPES", "MAX_REWRITE_NODES", "MAX_REWRITE_DEPTH"),
    ("commits of one catch-up | 0 to {} |", "names/src/limits.rt", "MAX_CATCH_UP"),
    ("[workers](../crates/command_line/src/words.rt) | 1 to {}, of", "command_line/src/words.rt", "MAX_WORKERS"),
    (", of {} [sessions]", "published/src/publication.rt", "MAX_SESSIONS"),
    ("marked nodes | {} |", "names/src/limits.rt", "MAX_MARKS"),
    ("of a [tree](../crates/expand/src/limits.rt) | depth 1 to {}, and {} nodes |", "expand/src/limits.rt", "MAX_DEPTH", "MAX_TREE_NODES"),
    ("of a [page of tuples](../crates/rows/src/tupleset.rt) | 1 to {} tuples |", "rows/src/tupleset.rt", "MAX_PAGE"),
    ("| 1 to {} commits, and 1 to {} names of namespaces |", "watch/src/limits.rt", "MAX_COMMITS", "MAX_NAMES"),
    ("| {} expressions and depth {} in one, and 0 to {} groups |", "leopard/src/limits.rt", "MAX_EXPR_NODES", "MAX_EXPR_DEPTH", "MAX_GROUPS"),
]

# Figures that README.md takes from FIGURES.md: its row, and there the beginning of a row with the place of the cell, from 1.
FIGURES = [
    ("writes of one operation in a second, in memory", "of 1 operation", 1),
    ("the same, in a file", "of 1 operation", 2),
    ("the same rows, by `sqlite3` alone", "of 1 operation", 3),
    ("opening a file of 1,000,000 tuples", "1,000,000", 6),
    ("a check among them, through folders eight deep with bans", "folders", 4),
    ("the same, by a statement of SQLite written for it", "folders", 5),
]


def text_of(path):
    with open(f"{ROOT}/{path}", encoding="utf-8") as it:
        return it.read()


def load(name, path):
    """The module that a script is."""
    loader = importlib.machinery.SourceFileLoader(name, f"{ROOT}/{path}")
    made = importlib.util.module_from_spec(importlib.util.spec_from_loader(name, loader))
    loader.exec_module(made)
    return made


def crates():
    names = re.findall(r"(?m)^(\w+)[^:#\n]*:", text_of("crates.txt"))
    return len(names), sum(it.endswith("_tests") for it in names)


def files_below(top, ending):
    for folder, folders, files in os.walk(f"{ROOT}/{top}"):
        folders[:] = [it for it in folders if it != "out"]
        yield from (f"{folder}/{it}" for it in files if it.endswith(ending))


def tests():
    texts = (text_of(os.path.relpath(it, ROOT)) for it in files_below("crates", ".rt"))
    return (sum(len(re.findall(r"(?m)^ *#\[test\]", it)) for it in texts),)


def wrong_bodies():
    folders = [os.path.basename(os.path.dirname(it)) for it in files_below("crates", ".edit")]
    return folders.count("wrong"), folders.count("must-fail")


def cases():
    """How many cases there are: all, those in folders, over connections, and of the importer."""
    names = [*load("cases_run", "cases/run").cases()]
    return len(names), sum("/" not in it for it in names), sum(it.startswith("http/") for it in names), sum(it.startswith("import/") for it in names)


def definitions():
    """How many definitions, and lines, the headline rests on, and how many lines two of its chapters have."""
    few, files, tables = statement.as_of(statement.FIRST), statement.read_all(), statement.TABLES
    chapters = [(files, "runs::run_in", ()), (few, "runs::run", tables), (files, "runs::run", tables)]
    listed = [statement.listing(of, statement.reached(of, statement.of_functions(of, [function]), without)) for of, function, without in chapters]
    return sum(len(own) for _, own, _ in listed[0]), *(sum(lines for _, _, lines in it) for it in listed)


def constant(path, name):
    found = re.search(rf"\bconst {name}: \w+ = ([\d_]+);", text_of(f"crates/{path}"))
    return int(found.group(1)) if found else 0


def minutes():
    """Each page that README.md gives minutes for, with these."""
    for page in re.findall(r"\]\(docs/(\w+)\.md\) \d+", text_of("README.md")):
        yield f"[{page}](docs/{page}.md) {{}}", (max(1, round(len(text_of(f"docs/{page}.md").split()) / WORDS_A_MINUTE)),)


def figure(row, at):
    """A cell of the first row of FIGURES.md that begins so, as far as it is a number."""
    for line in re.findall(r"(?m)^\| (.*) \|$", text_of("docs/FIGURES.md")):
        cells = line.split(" | ")
        if cells[0] == row and len(cells) > at:
            return re.match(r"[\d,.]*", cells[at]).group()
    return ""


def facts():
    """Each page with a text of it and the numbers that belong there."""
    count, lines, few, every = definitions()
    yield "docs/TESTING.md", "| crates in `crates.txt` | {}, of which {} have tests alone |", crates()
    yield "docs/TESTING.md", "| `#[test]` | {} |", tests()
    yield "docs/TESTING.md", "| wrong bodies | {} in `wrong/`, {} in `must-fail/` |", wrong_bodies()
    yield "docs/TESTING.md", "| cases of `cases/run` | {}, of which {} are folders of lines, {} are over connections, and {} are of `tools/import.py` |", cases()
    yield "docs/TESTING.md", "| definitions that the headline rests on | {}, in {} lines (`docs/statement.py`) |", (count, lines)
    yield "docs/PROMISES.md", "rests on {} definitions in {} lines of `specs/`", (count, lines)
    yield "docs/PROMISES.md", "four calls of any tables ({} lines), all calls ({}),", (few, every)
    for text, path, *names in LIMITS:
        yield "docs/API.md", text, [constant(path, it) for it in names]
    for text, numbers in minutes():
        yield "README.md", text, numbers
    for row, there, at in FIGURES:
        yield "README.md", f"| {row} | {{}}", (figure(there, at),)


def told(page, text, numbers, content):
    """The page with these numbers, or what is wrong."""
    parts = [re.escape(it) for it in text.split("{}")]
    found = [*re.finditer(NUMBER.join(parts), content)]
    if len(found) != 1:
        return None, f"{page}: «{text}» stands there {len(found)} times"
    words = [it if isinstance(it, str) else f"{it:,}" for it in numbers]
    # (a sentence's full stop or comma behind a number is none of it)
    were = [it.rstrip(",.") for it in found[0].groups()]
    if were == words:
        return content, None
    behind = found[0].groups()[-1][len(were[-1]) :]
    made = "".join(part + word for part, word in zip(text.split("{}"), [*words[:-1], words[-1] + behind, ""]))
    return content[: found[0].start()] + made + content[found[0].end() :], f"{page}: «{text}» has {', '.join(were)}, and should have {', '.join(words)}"


def faults():
    """What is old, or not there."""
    for page, text, numbers in facts():
        why = told(page, text, numbers, text_of(page))[1]
        if why:
            yield why


def write():
    """Writes each number that is old, and yields what is not there."""
    for page, text, numbers in facts():
        content, why = told(page, text, numbers, text_of(page))
        if content is None:
            yield why
        elif why:
            with open(f"{ROOT}/{page}", "w", encoding="utf-8") as it:
                it.write(content)


def main():
    if sys.argv[1:] not in ([], ["--check"]):
        print("usage: docs/counts.py [--check]", file=sys.stderr)
        return 2
    wrong = [*(faults() if sys.argv[1:] else write())]
    for why in wrong:
        print(why)
    return 1 if wrong else 0


if __name__ == "__main__":
    sys.exit(main())
