#!/usr/bin/env python3
"""Lists the definitions that a public promise rests on, each with its file and its number of lines.

usage: docs/statement.py [--calls CALL,..] [--inside | --table] [CRATE::FUNCTION ..]      (default: runs::run_in, and runs::run with --calls)
       docs/statement.py --chapters

It reads the contract of each function that is named, the definitions of specs/ that its clauses cite, and those that these
cite in turn, and prints them by file: lowest crate first. With --calls it reads them as whoever makes these calls alone, of
any tables: a definition that goes by cases over calls, or over what comes of them, has those of other calls left out, with the
refusals that they alone give, and what tables hold and how they fail is the last chapter. --chapters prints how large each chapter
is: four calls, all the others, and the tables. --inside prints the files of specs/ of which no definition is reached from the
contract of any public function: what a reader of the promises can pass over. --table prints a table of the files, in the order in
which to read them, with the lines of each.
Comments, blank lines and imports are not counted. It reads files and changes nothing.
"""
import re
import sys
from pathlib import Path

ROOT = Path(__file__).resolve().parent.parent
WORD = re.compile(r"[^\s(){},;.:]+(?:\.[^\s(){},;.:]+)*")
HEAD = re.compile(r"^( *)((?:(?:pub|abbrev|unfoldable|opaque|private) )*)(record |data )?([^\s:(){}]+)(?= |$)")
SKIP = ("use ", "--", "unfolding ", "open ", "infix", "where", "mutual", "abbrev mutual", "module ")

# what stands for each call in definitions by cases: as a call, as a question or a change, as what that is told, as a step, as a change of tables,
# and as a refusal that it alone gives
CASES = {
    "check": ["Call.Check", "Question.Check", "Told.Checked"],
    "read": ["Call.Read", "Question.Read", "Told.Found"],
    "expand": ["Call.Expand", "Question.Expand", "Told.Expanded", "Refusal.TooLarge"],
    "lookup": ["Call.Lookup", "Question.Lookup", "Told.Looked"],
    "leopard": ["Call.Leopard", "Question.Groups", "Told.Grouped", "Refusal.NotIndexed"],
    "watch": ["Call.Watch", "Question.Watch", "Told.Watched"],
    "state": ["Call.State", "Question.State", "Told.Numbers"],
    "write": ["Call.Write", "Change.Write", "Made.Commit", "Step.Commit"],
    "config": ["Call.Config", "Change.Config", "Made.Commit", "Step.Commit"],
    "trim": ["Call.Trim", "Change.Trim", "Made.Floor", "Step.Trim", "TableChange.Raises", "Refusal.InUse"],
    "catchup": ["Call.CatchUp", "Change.CatchUp", "Made.Cursor", "Step.Take"],
    "hot": ["Call.Hot", "Change.Mark", "Made.Marked", "Step.Marking"],
    "rebuild": ["Call.Rebuild", "Change.Rebuild", "Made.Base", "Step.Rebase"],
}

# the calls that the first chapter is of, and the crates whose definitions say what tables hold, in a file too, and how they fail
FIRST = ["check", "write", "config", "state"]
TABLES = ("sqlite_tables", "tables", "store")


def crates():
    rows = [row.split("#")[0] for row in (ROOT / "crates.txt").read_text().splitlines()]
    return [re.split(r"[ :]", row)[0] for row in rows if row.strip()]


class File:
    """A file of definitions: what it imports, and the lines of each definition."""

    def __init__(self, crate, path):
        self.crate, self.path = crate, path
        folder = ROOT / "crates" / crate / "specs"
        self.module = ".".join(["Rattle", crate, "specs", *path.relative_to(folder).with_suffix("").parts])
        self.imports, self.opened, self.definitions = {}, {}, {}
        self.read(path.read_text().split("\n"))

    def read(self, lines):
        name = None
        for line in lines:
            found = re.match(r"(?:pub )?use ([\w.]+?)(?:\.\{([^}]*)\})?(?: as (\S+))?$", line.strip())
            if found and line.strip().startswith(("use ", "pub use ")):
                self.note_import(*found.groups())
                continue
            if not line.strip() or line.strip().startswith(SKIP):
                continue
            head = HEAD.match(line)
            depth = len(head.group(1)) if head else 9
            starts = head and depth <= 2 and (head.group(3) or re.match(r"[^=]*?:", line[len(head.group(1)) + len(head.group(2)) :]))
            if starts and depth == 2 and name and self.is_record(name):
                starts = False
            if starts:
                name = head.group(4)
                self.definitions.setdefault(name, [])
            elif head and depth <= 2 and head.group(4) in self.definitions and not (name and self.is_record(name) and depth == 2):
                name = head.group(4)
            if name:
                self.definitions[name].append(line)

    def is_record(self, name):
        return bool(re.match(r" *(?:pub )?(record|data) ", self.definitions[name][0])) if self.definitions[name] else False

    def words_of(self, cases, files):
        """Returns the words that stand for these cases here: its own constructors, those that it imports, and those of what it opens."""
        own = {word for name in self.definitions for word in constructors(self, name) if f"{name}.{word}" in cases}
        imported = {word for word, (path, old) in self.imports.items() if not cases.isdisjoint(types_of(files, path, old))}
        opened = [(alias, path.split(".")[-2]) for alias, path in self.opened.items()]
        return own, own | imported | {f"{alias}.{case.partition('.')[2]}" for alias, of in opened for case in cases if case.startswith(f"{of}.")}

    def leave_out(self, own, of_case):
        """Leaves out clauses for one of these cases, with the lines that go on with them, branches of an `if` that give one, and constructors."""
        for name, lines in self.definitions.items():
            kept, depth, leaves = [], 0, False
            for line in lines:
                indent = len(line) - len(line.lstrip())
                if re.fullmatch(r" +if .* then .* else \(", line):
                    kept += [line] if of_case.isdisjoint(re.findall(r"[^\s(){},;:=]+", line)) else []
                    continue
                if not leaves or indent <= depth:
                    words = re.findall(r"[^\s(){},;:]+", line.partition("=")[0])
                    depth, leaves = indent, words[:1] == [name] and not of_case.isdisjoint(words) or not own.isdisjoint(words[:1])
                kept += [] if leaves else [line]
            self.definitions[name] = kept

    def note_import(self, path, names, alias):
        if names is None:
            self.opened[alias or path.rpartition(".")[2]] = path
            return
        for name in names.split(","):
            old, _, new = name.strip().partition(" as ")
            self.imports[(new or old).strip()] = path, old.strip()


def in_order(folder):
    """Returns the files of definitions in the order of the folder's Lib.antt, which is that of reading."""
    named = re.findall(r"(?m)^pub mod (\w+)", (folder / "Lib.antt").read_text())
    found = [it for it in sorted(folder.rglob("*.antt")) if it.name != "Lib.antt"]
    return sorted(found, key=lambda it: named.index(it.stem) if it.stem in named else len(named))


def types_of(files, path, word):
    """Returns a constructor that is imported by a path, with its type: one of a module of specs/, or the last but one of what is told of src/."""
    of_data = [name for name in files[path].definitions if word in constructors(files[path], name)] if path in files else path.split(".")[-2:-1]
    return {f"{name}.{word}" for name in of_data}


def constructors(file, name):
    text = "\n".join(file.definitions[name])
    return re.findall(r"(?m)^ +(?:pub )?(\S+) :", text) if re.match(r" *(?:pub )?data ", text) else []


def resolve(files, imports, opened, own, word):
    """Returns the file and the name of the definition that a word of a text is, if it is one of the repository's."""
    if own and word in own.definitions:
        return own, word
    if word in imports:
        path, name = imports[word]
        if path in files:
            return (files[path], name) if name in files[path].definitions else of_constructor(files[path], name)
    if "." in word:
        alias, _, name = word.partition(".")
        name = name.split(".")[0]
        path = opened.get(alias)
        if path in files:
            return (files[path], name) if name in files[path].definitions else of_constructor(files[path], name)
    if own:
        return of_constructor(own, word)
    return None


def of_constructor(file, word):
    for name in file.definitions:
        if word in constructors(file, name):
            return file, name
    return None


def reached(files, first, without=()):
    """Returns the definitions that these rest on, and they themselves, none of which is of a crate that is left out."""
    left = [it for it in first if it[0].crate not in without]
    found = set(left)
    while left:
        file, name = left.pop()
        for word in WORD.findall("\n".join(file.definitions[name])):
            for part in {word, word.split(".")[0]}:
                it = resolve(files, file.imports, file.opened, file, part)
                if it and it not in found and it[0].crate not in without:
                    found.add(it)
                    left.append(it)
    return found


def clauses(path):
    """Yields the public functions of a source file, each with the text of its clauses; a trait's and a type's ghost parts as one more."""
    text = path.read_text()
    for found in re.finditer(r"(?m)^( *)pub (?:const |final )*fn (\w+)[^\n]*\n(?:(?!\1[{}]\n|\1\}|\n\1(?:pub )?fn ).*\n)*?\1\{", text):
        part = found.group(0)
        at = re.search(r"(?m)^ *(?:requires|ensures|ghost)\b", part)
        yield found.group(2), part[at.start() :] if at else ""
    rest = [it for it in re.findall(r"(?m)^ *(?:pub )?ghost (?!use)[^\n]*(?:\n +[^\n]*)*?;", text)]
    if "trait " in text:
        rest += re.findall(r"(?m)^ *(?:requires|ensures)[^\n]*(?:\n {8,}[^\n]*)*", text)
    yield "", "\n".join(rest)


def cited(files, path, text):
    imports, opened = {}, {}
    for line in re.findall(r"(?m)^\s*ghost use ([^;]*);", path.read_text()):
        found = re.match(r"([\w.]+?)(?:\.\{([^}]*)\})?(?: as (\S+))?$", line.strip().replace("\n", " "))
        if found and found.group(2) is not None:
            for name in found.group(2).split(","):
                old, _, new = name.strip().partition(" as ")
                imports[(new or old).strip()] = found.group(1), old.strip()
        elif found:
            opened[found.group(3) or found.group(1).rpartition(".")[2]] = found.group(1)
    words = {part for word in WORD.findall(text) for part in {word, word.split(".")[0]}}
    return {it for it in (resolve(files, imports, opened, None, word) for word in words) if it}


def sources(crate):
    return [it for it in sorted((ROOT / "crates" / crate / "src").rglob("*.rt")) if "tests" not in it.name]


def of_functions(files, wanted):
    first, ghosts = set(), set()
    for crate in crates():
        for path in sources(crate):
            for name, text in clauses(path):
                if not name:
                    ghosts |= cited(files, path, text)
                elif wanted is None or f"{crate}::{name}" in wanted:
                    first |= cited(files, path, text)
    # a contract that names a trait's or a type's ghost part rests on it
    return first | (ghosts if wanted is None else {it for it in ghosts if it[0].crate in ("tables",)})


def count(lines):
    return sum(1 for it in lines if it.strip())


def table_of(listed):
    """The rows of a table: each crate with its files, those in a folder last, and their lines."""
    yield "| Crate | Files of `specs/`, with the lines that the headline rests on | Lines |"
    yield "|---|---|---|"
    for crate in dict.fromkeys(file.crate for file, _, _ in listed):
        parts, total = {}, 0
        for file, _, lines in listed:
            if file.crate == crate:
                place = file.path.relative_to(ROOT / "crates" / crate / "specs").with_suffix("")
                parts.setdefault("/".join(place.parts[:-1]), []).append(f"{place.name} {lines}")
                total += lines
        texts = [(f"of {folder}: " if folder else "") + ", ".join(parts[folder]) for folder in sorted(parts)]
        yield f"| `{crate}` | {'; '.join(texts)} | {total} |"


def read_all():
    """Returns all files of definitions by their modules: lowest crate first."""
    files = {}
    for crate in crates():
        folder = ROOT / "crates" / crate / "specs"
        for path in in_order(folder) if folder.exists() else []:
            file = File(crate, path)
            files[file.module] = file
    return files


def as_of(calls):
    """Returns the files as whoever makes these calls alone reads them."""
    files, chosen = read_all(), {case for it in calls for case in CASES[it]}
    others = {case for cases in CASES.values() for case in cases} - chosen
    for file, words in [(file, file.words_of(others, files)) for file in files.values()]:
        file.leave_out(*words)
    return files


def listing(files, found):
    """Returns each file with those of its definitions that were found, and their lines."""
    own = ((file, [it for it in file.definitions if (file, it) in found]) for file in files.values())
    return [(file, names, sum(count(file.definitions[it]) for it in names)) for file, names in own if names]


def sum_of(listed):
    return f"{sum(len(own) for _, own, _ in listed)} definitions, {sum(lines for _, _, lines in listed)} lines"


def tell(listed):
    for file, own, lines in listed:
        print(f"{file.path.relative_to(ROOT)}: {lines} lines: {', '.join(own)}")


def tell_calls(calls, wanted):
    """Prints what these calls rest on whatever the tables are, and then what tables are."""
    files = as_of(calls)
    first = of_functions(files, wanted)
    whatever = reached(files, first, TABLES)
    for of, found in [(f"the calls {', '.join(calls)}, of any tables", whatever), ("the tables", reached(files, first) - whatever)]:
        listed = listing(files, found)
        tell(listed)
        print(f"{of}: {sum_of(listed)}")


def tell_chapters():
    """Prints how many definitions and lines each chapter has: one caller of any tables, with few calls and with all, and then a file."""
    few, files = as_of(FIRST), read_all()
    chapters = [(few, "runs::run", TABLES, f"{', '.join(FIRST)}, of any tables"), (files, "runs::run", TABLES, "with all other calls"), (files, "runs::run_in", (), "with the file")]
    for of, function, without, said in chapters:
        print(f"{said}: {sum_of(listing(of, reached(of, of_functions(of, [function]), without)))}")


def tell_inside(files):
    found = reached(files, of_functions(files, None))
    for file in files.values():
        if file.definitions and not any(it[0] is file for it in found):
            print(file.path.relative_to(ROOT))


def main(words):
    calls = None
    if "--calls" in words:
        at = words.index("--calls")
        calls = words[at + 1].split(",") if words[at + 1 :] else []
        if not calls or not {*calls} <= {*CASES}:
            print(f"statement.py: --calls takes words of {','.join(CASES)}", file=sys.stderr)
            return 2
        words = [*words[:at], *words[at + 2 :]]
    wanted = [it for it in words if not it.startswith("--")] or ["runs::run" if calls else "runs::run_in"]
    if calls:
        tell_calls(calls, wanted)
    elif "--chapters" in words:
        tell_chapters()
    elif "--inside" in words:
        tell_inside(read_all())
    else:
        files = read_all()
        listed = listing(files, reached(files, of_functions(files, wanted)))
        summed = f"{sum_of(listed)}, in {len(listed)} of {len(files)} files"
        if "--table" in words:
            print("\n".join(table_of(listed)) + f"\n\nIn all {summed}.")
        else:
            tell(listed)
            print(summed)
    return 0


if __name__ == "__main__":
    sys.exit(main(sys.argv[1:]))
