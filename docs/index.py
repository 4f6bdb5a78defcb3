#!/usr/bin/env python3
"""Writes the index of PROMISES.md: what each crate is, and each of its promises with what carries it, from the READMEs of the crates.

usage: docs/index.py [--check]

It writes what stands between two marker lines of PROMISES.md. With --check it changes nothing, and ends with status 1 where that is old, or a README is not of the form:
each library and program of crates.txt has one, with headings of `HEADINGS` alone, in their order and the first always. Below the second each item of the list is one promise, with an item `By`.
What a crate is, and each promise, begins with its short form in bold, of at most `LONGEST_LEAD` words. A line of the index has the short form of a promise, and the first of what carries it. A crate
stands below all that it uses, and one that promises nothing has no line.
"""
import os
import re
import sys

ROOT = os.path.dirname(os.path.dirname(os.path.realpath(__file__)))
PAGE = f"{ROOT}/docs/PROMISES.md"
BEGIN = "<!-- from here docs/index.py writes -->"
END = "<!-- up to here -->"
HEADINGS = ("What it is", "What a caller may rely on", "Only tested", "Neither", "Trusted")
WIDEST_LINE = 200
LONGEST_LEAD = 12


def crates():
    """The libraries and programs of crates.txt, each after all that it uses."""
    with open(f"{ROOT}/crates.txt", encoding="utf-8") as it:
        uses = {name: rest.split() for name, rest in re.findall(r"(?m)^(\w+)[^:#\n]*:(.*)$", it.read())}
    ordered = []

    def place(name):
        if name in uses and name not in ordered and not name.endswith("_tests"):
            for other in uses[name]:
                place(other)
            ordered.append(name)

    for name in uses:
        place(name)
    return ordered


def sections_of(crate):
    """The headings of a crate's README in order, each with what stands below it."""
    path = f"{ROOT}/crates/{crate}/README.md"
    if not os.path.exists(path):
        return []
    with open(path, encoding="utf-8") as it:
        parts = re.split(r"(?m)^## +(.*?) *$", it.read())
    return list(zip(parts[1::2], parts[2::2]))


def promises_of(crate):
    """Each promise of a crate's README, with what stands after `By`, or None."""
    for item in re.split(r"(?m)^- ", dict(sections_of(crate)).get(HEADINGS[1], ""))[1:]:
        text, by, carriers = item.partition("\n  - By ")
        yield in_one_line(text), in_one_line(carriers) if by else None


def in_one_line(text):
    """A text without its line ends."""
    return re.sub(r"\s+", " ", text).strip()


def lead(text):
    """What a text begins with in bold, as a sentence, or nothing."""
    found = re.match(r"\*\*(.+?)\.?\*\*", in_one_line(text))
    return f"{found.group(1)}." if found else ""


def first_carrier(by):
    """The first name of what carries a promise."""
    return re.search(r"`[^`]+`|$", by or "").group()


def index():
    """The lines of the index."""
    yield "| Crate | What it is, and what a caller may rely on | By |"
    yield "|---|---|---|"
    for crate in crates():
        sections = dict(sections_of(crate))
        if not sections.get(HEADINGS[1]):
            continue
        yield f"|[`{crate}`](../crates/{crate}/README.md)|*{lead(sections.get(HEADINGS[0], ''))}*||"
        for promise, by in promises_of(crate):
            yield f"||{lead(promise)}|{first_carrier(by)}|"


def faults():
    """What is not of the form in the READMEs, and whether the index is old."""
    for crate in crates():
        sections = dict(sections_of(crate))
        headings = [heading for heading, _ in sections_of(crate)]
        if not headings:
            yield f"crates/{crate}/README.md: it is not there"
        elif headings[:1] != [HEADINGS[0]] or headings != [it for it in HEADINGS if it in headings]:
            yield f"crates/{crate}/README.md: its headings are not {', '.join(HEADINGS)}, in this order"
        if not re.match(r"\n*(- |$)", sections.get(HEADINGS[1], "")):
            yield f"crates/{crate}/README.md: what a caller may rely on is no list"
        for text in [sections.get(HEADINGS[0], ""), *(promise for promise, _ in promises_of(crate))]:
            if not 1 <= len(lead(text).split()) <= LONGEST_LEAD:
                yield f"crates/{crate}/README.md: no short form of at most {LONGEST_LEAD} words in bold begins {in_one_line(text)[:60]} .."
        for promise, by in promises_of(crate):
            if not by:
                yield f"crates/{crate}/README.md: no `By` carries {lead(promise)}"
    for line in index():
        if len(line) > WIDEST_LINE:
            yield f"docs/PROMISES.md: a line of the index would have {len(line)} columns: {line[:60]} .."
    with open(PAGE, encoding="utf-8") as it:
        text = it.read()
    if text.count(BEGIN) != 1 or text.count(END) != 1:
        yield f"docs/PROMISES.md: not one line {BEGIN} and one {END}"
    elif text != written(text):
        yield "docs/PROMISES.md: its index is old (docs/index.py writes it)"


def written(text):
    """The page with the index as it should be."""
    before, _, rest = text.partition(BEGIN)
    return before + "\n".join([BEGIN, "", *index(), "", END]) + rest.partition(END)[2]


def main():
    if sys.argv[1:] not in ([], ["--check"]):
        print("usage: docs/index.py [--check]", file=sys.stderr)
        return 2
    if not sys.argv[1:]:
        with open(PAGE, encoding="utf-8") as it:
            text = it.read()
        with open(PAGE, "w", encoding="utf-8") as it:
            it.write(written(text))
    wrong = list(faults())
    for why in wrong:
        print(why)
    return 1 if wrong else 0


if __name__ == "__main__":
    sys.exit(main())
