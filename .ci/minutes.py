#!/usr/bin/env python3
"""Counts the minutes of a processor that each crate takes in the gate. It only tells: the gate neither fails by it nor waits for it.

usage: .ci/minutes.py watch PID FILE      till PID, which started it, ends: looks each second at what runs below PID, and writes to FILE what that took
       .ci/minutes.py tell FILE STATUS    prints FILE beside .ci/minutes.txt, names each crate that grew, and keeps it there if STATUS is 0

What a process takes after the last look at it is not seen. By its wrong bodies no crate grows, since each gate tries others.
"""
import contextlib
import os
import sys
import time
import typing

KEPT = f"{os.path.dirname(os.path.realpath(__file__))}/minutes.txt"
HEAD = """\
# Written by .ci/minutes.py in a gate that passed: the minutes of a processor that each crate took for its proof, that of its tests with their build,
# the two compilers' builds of what was proved, its edits in must-fail/, and those of its wrong bodies that were tried. `all` is the whole gate.
"""
KINDS, ALL = ["proof", "tests", "builds", "must-fail", "wrong-bodies"], "all"
GROWN = 2
MINUTE = 60 * os.sysconf("SC_CLK_TCK")


class Process(typing.NamedTuple):
    parent: int
    began: str
    # what it took, and what those took that it started and has waited for
    ticks: int


def processes():
    """Returns all processes by their numbers."""
    found = {}
    for number in filter(str.isdigit, os.listdir("/proc")):
        with contextlib.suppress(OSError), open(f"/proc/{number}/stat", errors="replace") as it:
            fields = it.read().rpartition(")")[2].split()
            found[int(number)] = Process(int(fields[1]), fields[19], sum(map(int, fields[11:15])))
    return found


def words_of(number):
    with open(f"/proc/{number}/cmdline", errors="replace") as it:
        return it.read().split("\0")


def work_of(number, parent):
    """Returns the crate that a process proves or builds, and of which kind that is, or None."""
    words = words_of(number)
    if os.path.basename(words[0]) != "rattle" or "--crate-name" not in words:
        return None
    kind = "builds" if "--crate-checked" in words else "tests" if "--test" in words else "proof"
    # (an edit is tried in a copy of the crate)
    if os.path.basename(os.readlink(f"/proc/{number}/cwd")).startswith("rt-edit-"):
        kind = "wrong-bodies" if any(it.endswith("wrong_bodies.py") for it in words_of(parent)) else "must-fail"
    return words[words.index("--crate-name") + 1], kind


def line_of(number, root, now):
    """Returns the process and those above it, to the one that the root started, or nothing where it is not below the root."""
    line = []
    while number in now and number != root:
        line.append((number, now[number].began))
        number = now[number].parent
    return line if number == root else []


def look(now, root, works, most):
    """Adds what the processes below the root took. works: what those do that prove or build; most: the ticks of each, with all below it, and of all."""
    lines = {it: line_of(it, root, now) for it in now}
    taken = {ALL: now[root].ticks if root in now else 0}
    for number in filter(lines.get, now):
        # (python that becomes rattle is asked again)
        with contextlib.suppress(OSError):
            work = works.get(lines[number][0]) or work_of(number, now[number].parent)
            works.update({lines[number][0]: work} if work else {})
    for number in filter(lines.get, now):
        tops = [it for it in lines[number] if it in works][-1:]
        for it in [ALL, *tops]:
            taken[it] = taken.get(it, 0) + now[number].ticks
    for it, ticks in taken.items():
        most[it] = max(ticks, most.get(it, 0))


def rows_of(works, most):
    """Returns the minutes of each crate, one number for each kind, and those of all."""
    rows = {ALL: [most[ALL] / MINUTE]}
    for it, (crate, kind) in works.items():
        row = rows.setdefault(crate, [0.0] * len(KINDS))
        row[KINDS.index(kind)] += most.get(it, 0) / MINUTE
    return rows


def write(file, head, rows):
    with open(f"{file}.new", "w", encoding="utf-8") as it:
        it.write(head + "".join(f"{name} {' '.join(f'{it:.1f}' for it in row)}\n" for name, row in sorted(rows.items())))
    os.replace(f"{file}.new", file)


def read(file):
    with open(file, encoding="utf-8") as it:
        rows = [line.split() for line in it if line.strip() and not line.startswith("#")]
    return {name: [float(it) for it in row] for name, *row in rows}


def watch(root, file):
    works, most = {}, {}
    while os.getppid() == root:
        look(processes(), root, works, most)
        write(file, "", rows_of(works, most))
        time.sleep(1)


def told(seen, before):
    """Returns the lines of a table of what was seen beside what was before, and after it what grew."""
    crates, whole = sorted(seen.keys() - {ALL}), lambda row: sum(row[: len(KINDS) - 1])
    rows = {it: [*seen[it][:-1], whole(seen[it]), whole(before.get(it, [])), seen[it][-1]] for it in crates}
    rows["all crates"] = [sum(column) for column in zip(*rows.values())]
    line = lambda name, cells: f"{name:20}" + "".join(f"{it:>10}" for it in cells[:-1]) + f"{cells[-1]:>14}"
    lines = [line("", [*KINDS[:-1], "together", "before", KINDS[-1]])]
    lines += [line(name, [f"{it:.1f}" if it >= 0.05 else "" for it in row] or [""]) for name, row in rows.items()]
    lines.append(f"the whole gate: {seen[ALL][0]:.1f}" + (f", and {before[ALL][0]:.1f} before" if ALL in before else ""))
    if not before:
        return [*lines, "no gate has written .ci/minutes.txt yet: nothing is said of what grew"]
    grown = {it: whole(seen[it]) - whole(before.get(it, [])) for it in crates}
    grown = [f"{it} grew by {more:.1f}, to {whole(seen[it]):.1f}" for it, more in grown.items() if round(more, 1) >= GROWN]
    return [*lines, *(grown or ["no crate grew by two minutes or more"])]


def tell(file, status):
    seen, late = read(file), time.time() - os.stat(file).st_mtime
    print("== minutes of a processor by crate", *told(seen, read(KEPT)), sep="\n")
    if late > 60:
        print(f"they were counted to {late / 60:.0f} minutes ago, and are not kept")
    elif status == "0":
        write(KEPT, HEAD, seen)


if __name__ == "__main__":
    if len(sys.argv) != 4 or sys.argv[1] not in ("watch", "tell"):
        sys.exit(__doc__)
    if sys.argv[1] == "watch":
        watch(int(sys.argv[2]), sys.argv[3])
    else:
        tell(*sys.argv[2:])
